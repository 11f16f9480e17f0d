"""Checks that each file, heading and name to which a page points is there: the pages at the top, docs/*.md and the pages of crates.

- A link leads to a file of the repository, and its anchor is among that file's headings.
- A file or folder in backticks is named by its path from the top, from the page, or by its last parts, with or without its ending. Capitals as NAME and
  `*` match any word. Files in a folder `out` or `build` are made by runs, so they are not checked.
- A name in backticks is a word of some file beside the documents. A plain word in small letters may be another program's; it is checked only on the pages
  about definitions, clauses and commands.
- docs/definitions.md names each file of definitions of dom_model once, ahead of the laws of a section, and each file of laws.
"""

import glob
import os
import re

ROOT = os.path.dirname(os.path.dirname(os.path.realpath(__file__)))
INDEX = "docs/definitions.md"
MODEL = "crates/dom_model"
# The theorems of the dialogues, which tools/rows.py writes; the index names them by their folder.
WRITTEN = f"{MODEL}/proofs/Dialogues/"
PAGES = ("*.md", "docs/*.md", "crates/*/*.md")
# The pages whose plain words are names too.
PAGES_OF_NAMES = ("docs/commands.md", INDEX, "docs/proved.md", "docs/rules.md")
SOURCES = (".sql", ".rt", ".antt", ".py", ".sh", ".edit", ".c", ".h", ".rs", ".toml", ".js", ".ts", ".json")
ENDINGS = r"\.(?:rt|antt|py|sh|md|svg|txt|edit|c|h|rs|toml|in|out|opts|js|ts|json)"
MADE = re.compile(r"(\A|/)(out|build)(/|\Z)")
ANY_NAME = re.compile(r"(\b[A-Z]{2,}\b|\*)")


def text_of(file):
    with open(f"{ROOT}/{file}", encoding="utf-8", errors="replace") as it:
        return it.read()


def files():
    """Returns the files of the repository, by their paths from the top, without those that runs make."""
    found = []
    for at, folders, names in os.walk(ROOT):
        folders[:] = sorted(it for it in folders if it not in (".git", "out", "__pycache__"))
        found += [os.path.relpath(f"{at}/{it}", ROOT) for it in sorted(names)]
    return found


def pages():
    found = [it for pattern in PAGES for it in glob.glob(f"{ROOT}/{pattern}")]
    return sorted(os.path.relpath(it, ROOT) for it in found)


def prose(page):
    """Returns the lines of a page that are no code block."""
    return re.sub(r"(?ms)^```.*?^```$", "", text_of(page))


def anchors(page):
    """Returns the anchors of a page's headings, as the pages of a repository are shown."""
    found = []
    for heading in re.findall(r"(?m)^#+ +(.*?) *$", prose(page)):
        shown = re.sub(r"\[([^]]*)\]\([^)]*\)", r"\1", heading).lower()
        anchor = re.sub(r"[^\w\- ]", "", shown).replace(" ", "-")
        same = sum(re.fullmatch(re.escape(anchor) + r"(-\d+)?", it) is not None for it in found)
        found.append(f"{anchor}-{same}" if same else anchor)
    return found


def broken_link(page, target):
    """Returns the fault of a link, if it has one."""
    path, _, anchor = target.partition("#")
    if re.match(r"\w+:", target):
        return None
    file = os.path.normpath(os.path.join(os.path.dirname(page), path)) if path else page
    if not os.path.exists(f"{ROOT}/{file}"):
        return f"the link to {target} leads nowhere"
    if anchor and anchor not in anchors(file):
        return f"{file} has no heading for the link to {target}"
    return None


def parts_of(paths):
    """Returns each way to name a file or a folder by the last parts of its path, with or without its ending."""
    known = set()
    for path in paths:
        steps = path.split("/")
        for end in range(1, len(steps) + 1):
            shown = "/".join(steps[:end])
            names = {shown, os.path.splitext(shown)[0]}
            known |= {name.split("/", start)[-1] for name in names for start in range(end)}
    return known


def is_there(name, page, known):
    """Returns whether a file or folder is in the repository."""
    name = re.sub(r"\A\./", "", name).rstrip("/")
    if MADE.search(name) or name.startswith("/") or os.path.exists(os.path.join(ROOT, os.path.dirname(page), name)):
        return True
    if not ANY_NAME.search(name) or name in known:
        return name in known
    pattern = re.compile("".join(r"[\w-]+" if ANY_NAME.fullmatch(it) else re.escape(it) for it in ANY_NAME.split(name)))
    return any(pattern.fullmatch(it) for it in known)


def is_file_name(quoted):
    return re.fullmatch(r"[\w.][\w./*-]*", quoted) and ("/" in quoted or re.search(ENDINGS + r"\Z", quoted))


def quotes(page):
    """Returns the texts in backticks of a page, without files that a reader is to make (a line with only a name and a colon)."""
    return re.findall(r"(?<!`)`([^`\n]+)`(?!`)", re.sub(r"(?m)^`[^`\n]+`:$", "", prose(page)))


def names_in(quoted, page):
    """Returns the quoted names: one, or those of a path of names; none if the quote is something else."""
    is_name = re.search(r"[A-Z_:]", quoted) or page in PAGES_OF_NAMES
    return quoted.split("::") if is_name and re.fullmatch(r"[A-Za-z_]\w*(::\w+)*", quoted) else []


def unknown_quote(quoted, page, known, lacking):
    """Returns the fault of a text in backticks, if it has one."""
    if is_file_name(quoted):
        return None if is_there(quoted, page, known) else f"no file or folder is called {quoted}"
    unknown = [it for it in names_in(quoted, page) if it in lacking]
    return f"no file has the word {', '.join(unknown)} of {quoted}" if unknown else None


def of_definitions(text):
    """Returns the parts of the index that are about definitions: each section up to its laws."""
    parts = re.split(r"(?m)^#+ (.*)$", text)
    return "".join(re.split(r"(?m)^Laws\b", body)[0] for title, body in zip(parts[1::2], parts[2::2]) if "Laws" not in title)


def faults_of_index(text, paths):
    """Yields each file of definitions that the index does not name exactly once, and each file of laws that it does not name."""
    names_of = lambda part: [it.rpartition("/")[2] for it in re.findall(r"`([\w/]+)`", part)]
    named, defined = {*names_of(text), "Lib"}, names_of(of_definitions(text))
    for it in (it for it in paths if it.endswith(".antt") and not it.startswith(WRITTEN)):
        name = os.path.splitext(os.path.basename(it))[0]
        if re.match(f"{MODEL}/specs/\\w+/", it) and defined.count(name) != 1:
            yield f"{INDEX}: it names {it} {defined.count(name)} times ahead of laws, and has to name it once"
        elif re.match(f"{MODEL}/(specs|proofs)/", it) and name not in named:
            yield f"{INDEX}: it does not name {it}"


def not_found(names, paths):
    """Returns those of the names that are no word of the sources, which are read until each is found, and the laws last."""
    lacking = set(names)
    for path in sorted(paths, key=lambda it: ("/proofs/" in it) + it.startswith(MODEL)):
        if lacking and not path.startswith("docs/") and path.endswith(SOURCES):
            lacking.difference_update(re.findall(r"\w+", text_of(path)))
    return lacking


def line_of(page, quoted):
    """Returns the number of the first line of a page that has a text."""
    text = text_of(page)
    return text.count("\n", 0, max(text.find(quoted), 0)) + 1


def wrongs(page, known, lacking):
    """Returns the faults of a page, each at its line."""
    text = prose(page)
    targets = re.findall(r"\]\(([^)\s]+)\)", text) + re.findall(r'(?:src|href|srcset)="([^"]+)"', text)
    found = [(it, broken_link(page, it)) for it in targets] + [(f"`{it}`", unknown_quote(it, page, known, lacking)) for it in quotes(page)]
    return [f"{page}:{line_of(page, quoted)}: {it}" for quoted, it in found if it]


def check():
    """Returns the faults of all pages, and what holds without any."""
    paths = files()
    known = parts_of(paths)
    names = {name for page in pages() for it in quotes(page) for name in names_in(it, page)}
    lacking = not_found(names - known, paths)
    faults = [it for page in pages() for it in wrongs(page, known, lacking)]
    faults += faults_of_index(text_of(INDEX), paths)
    return faults, f"{len(pages())} pages: each file, heading and name to which they point is there"
