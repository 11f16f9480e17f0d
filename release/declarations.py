"""The reference of the package for JavaScript: pages of HTML made of its declarations in TypeScript, one page for each module.

It reads the form that these declarations have: a comment of two stars ahead of each name and of each member.
"""
import json
import os
import posixpath
import re
from collections import namedtuple
from html import escape

import files

TOKENS = re.compile(r"(?P<comment>/\*\*.*?\*/)|(?P<line>//[^\n]*\n)|\"[^\"\n]*\"|(?P<open>[({\[])|(?P<close>[)}\]])|(?P<end>;)|.", re.S)
HEAD = re.compile(r"(?:export )?(?:default )?(?:declare )?(?P<kind>interface|class|const|function|type) (?P<name>\w+)")
IMPORT = re.compile(r'import type (?:\* as (?P<whole>\w+)|\{(?P<names>[^}]*)\}) from "(?P<place>[^"]+)"')
MEMBER = re.compile(r"(?:readonly )?(?P<name>\w+)")
STYLE = """
body { font: 15px/1.45 sans-serif; max-width: 60em; margin: 1.2em auto; padding: 0 1em; color: #222 }
pre, code { font-family: monospace; background: #f6f6f6 } pre { padding: .6em; overflow-x: auto; margin: .4em 0; white-space: pre-wrap }
h2 { margin: 2em 0 .3em; border-top: 1px solid #bbb; padding-top: .6em } p { margin: .4em 0 } dd { margin: 0 0 .7em 1.5em } a { color: #0b57d0; text-decoration: none }
"""

# A declaration or a member, with the comment ahead of it.
Piece = namedtuple("Piece", "comment code")
# place: its file. about: its comment. names: of each declared name its declarations. others: its other exports, as code. places: where a name's page is.
Module = namedtuple("Module", "title place page about names others places")


def pieces(text):
    """Yields the declarations of a file or the members of a body, in their order; a comment by itself has no code."""
    comment, code, depth = "", "", 0
    for it in TOKENS.finditer(text):
        kind, token = it.lastgroup, it[0]
        if not code.strip() and kind in ("comment", "line"):
            if kind == "comment":
                if comment:
                    yield Piece(comment, "")
                comment = token
            continue
        code += token
        depth += (kind == "open") - (kind == "close")
        if depth == 0 and (kind == "end" or token == "}" and re.match(r"(export )?(default )?(interface|class)\b", code.strip())):
            yield Piece(comment, code.strip())
            comment, code = "", ""


def split(code):
    """Returns a declaration's head, its body of members with comments (or an empty text), and the code behind that."""
    at, depth = None, 0
    for it in TOKENS.finditer(code):
        if it[0] == "{" and depth == 0:
            at = it.end()
        depth += (it.lastgroup == "open") - (it.lastgroup == "close")
        if it[0] == "}" and depth == 0:
            body = code[at : it.start()]
            return (code[: at - 1].strip(), body, code[it.end() :].strip()) if "/**" in body else (code, "", "")
    return code, "", ""


def words_of(comment):
    return " ".join(re.sub(r"^\s*\* ?", "", comment[3:-2], flags=re.M).split())


def text_of(comment):
    """A comment as HTML."""
    return re.sub(r"`([^`]*)`", r"<code>\1</code>", escape(words_of(comment)))


def linked(code, module):
    """Code as HTML, in which each name of the package leads to its declaration."""
    def link(it):
        place = module.places.get(it[0])
        return f'<a href="{place}">{it[0]}</a>' if place else it[0]

    return re.sub(r"\b[A-Z]\w*(?:\.[A-Z]\w*)?", link, escape(code))


def read(title, place, of):
    """Reads a module's declarations; `of` has each module's page by its file."""
    with open(place, encoding="utf-8") as file:
        text = file.read()
    about, names, others, places = "", {}, [], {}
    for comment, code in pieces(text):
        found, taken = HEAD.match(code), IMPORT.match(code)
        if found:
            names.setdefault(found["name"], []).append(Piece(comment, code))
            places[found["name"]] = f"#{found['name']}"
            continue
        about = about or comment
        if taken:
            page = of[posixpath.normpath(posixpath.join(posixpath.dirname(place), taken["place"].removesuffix(".js") + ".d.ts"))]
            places |= {name.strip(): f"{page}#{name.strip()}" for name in (taken["names"] or "").split(",") if name.strip()}
            if taken["whole"]:
                whole = read("", next(it for it, its in of.items() if its == page), of)
                places |= {f"{taken['whole']}.{name}": f"{page}#{name}" for name in whole.names}
        elif code:
            others.append(code)
    return Module(title, place, of[place], about, names, others, places)


def member(name, it, seen, module):
    """A member as an entry of a list; the first of its name can be linked to."""
    its = MEMBER.match(it.code)
    anchor = f"{name}.{its['name']}" if its else ""
    mark = f' id="{anchor}"' if anchor and anchor not in seen else ""
    seen.add(anchor)
    return f"<dt{mark}><pre>{linked(it.code.removesuffix(';'), module)}</pre></dt><dd>{text_of(it.comment)}</dd>"


def declaration(name, it, seen, module):
    head, body, rest = split(it.code.removesuffix(";"))
    shown = linked(re.sub(r"^(export |declare )*", "", f"{head} {{ … }} {rest}".strip() if body else head), module)
    members = "\n".join(member(name, its, seen, module) for its in pieces(body))
    about = f"<p>{text_of(it.comment)}</p>\n" if it.comment else ""
    return f"{about}<pre>{shown}</pre>\n" + (f"<dl>\n{members}\n</dl>\n" if members else "")


def page(title, body):
    head = f'<meta charset="utf-8"/><title>{escape(title)}</title><link rel="stylesheet" href="style.css"/>'
    return files.text(f'<!DOCTYPE html>\n<html lang="en"><head>{head}</head><body>\n<h1>{escape(title)}</h1>\n{body}</body></html>\n')


def page_of(module):
    seen, parts = set(), ['<p><a href="index.html">All modules</a></p>\n', f"<p>{text_of(module.about)}</p>\n" if module.about else ""]
    for name, its in module.names.items():
        parts.append(f'<h2 id="{name}">{name}</h2>\n' + "".join(declaration(name, it, seen, module) for it in its))
    if module.others:
        parts.append("<h2>Other exports</h2>\n" + "".join(f"<pre>{escape(it)}</pre>\n" for it in module.others))
    return page(module.title, "".join(parts))


def contents(found):
    """The first page: each module with its names."""
    parts = []
    for it in found:
        names = ", ".join(f'<a href="{it.page}#{name}">{name}</a>' for name in it.names)
        parts.append(f'<h2><a href="{it.page}">{it.title}</a></h2>\n<p>{text_of(it.about)}</p>\n<p>{names}</p>\n')
    return page("The package for JavaScript", "".join(parts))


def modules(folder):
    """Reads the modules of a package, by what its manifest exports with types."""
    with open(os.path.join(folder, "package.json"), encoding="utf-8") as file:
        manifest = json.load(file)
    types = {name: its["types"] for name, its in manifest["exports"].items() if isinstance(its, dict)}
    titles = {posixpath.normpath(posixpath.join(folder, place)): posixpath.join(manifest["name"], name[2:]).rstrip("/") for name, place in types.items()}
    of = {place: f"{title.replace('/', '-')}.html" for place, title in titles.items()}
    return [read(title, place, of) for place, title in titles.items()]


def pages(folder):
    """Returns the pages of a package's declarations, by their names."""
    found = modules(folder)
    return {"index.html": contents(found), "style.css": files.text(STYLE.lstrip()), **{it.page: page_of(it) for it in found}}
