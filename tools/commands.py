"""The table of the commands for programs, docs/commands.json, made from the definitions and docs/commands.md.

The definitions have each command's name, the shapes of its arguments, the command that its line makes, and the names of moves, verdicts and options. The
page has the words: its group, the names of its arguments, and its reply. Both have to agree in names, number, shapes, and which arguments may be null.
Otherwise nothing is written.
"""
import json
import os
import re
import sys

ROOT = os.path.dirname(os.path.dirname(os.path.realpath(__file__)))
DEFINITIONS = "crates/dom_model/specs/Commands"
TABLE, LINE, COMMAND = (f"{DEFINITIONS}/{it}.antt" for it in ("Table", "Line", "Command"))
PAGE = "docs/commands.md"
MADE = "docs/commands.json"
# Other pages that say how many commands there are.
COUNTING = ("README.md", PAGE, "docs/rust.md", "crates/dom_session/README.md")
NUMBERS = "no one two three four five six seven eight nine ten".split()
# The page's words for an argument of each shape; more may follow behind the text.
SAID = {
    "a_number": ("the number of such an object", "a whole number"),
    "a_string": ("a string",),
    "a_text": ("a string, or an array of UTF-16 units",),
    "a_flag": ("`true` or `false`",),
    "a_filter": ("an array of rules",),
    "a_move": ("`parentNode`",),
    "the_options": ("an object with any of",),
}
MAY_BE_NULL = "_or_null"


def texts():
    """Returns the texts of the definitions and pages, by their paths."""
    found = {}
    for path in (TABLE, LINE, COMMAND, *COUNTING):
        with open(os.path.join(ROOT, path), encoding="utf-8") as file:
            found[path] = file.read()
    return found


def rows(text):
    """Returns the rows of the definitions: for each name the shapes of its arguments, and the command that its line makes."""
    found = re.findall(r'row \(codes "(\w+)"\) (\[\]|\(.*?\[\]\))\s+\(λ \(a : Arguments\)\.\s+(.*)\)$', text, re.M)
    if len(found) != text.count("row (codes "):
        sys.exit(f"{TABLE}: it has rows of a form that is not known here")
    return {name: (re.findall(r"(?:a|the)_\w+", shapes), makes) for name, shapes, makes in found}


def shown(text):
    """Yields the commands in the order of the page: group, name, arguments, answer."""
    parts = re.split(r"^## (.*)$", text, flags=re.M)
    for group, body in zip(parts[1::2], parts[2::2]):
        if "| command | answer |" in body:
            for name, words, answer in re.findall(r"^\| `(\w+)`([^|]*) \| ([^|]*) \|$", body, re.M):
                yield group.lower(), name, words.split(), answer


def meanings(text):
    """Returns the page's words for each argument."""
    body = text.partition("| argument | what it is |")[2].partition("\n\n")[0]
    found = re.findall(r"^\| (`\w+`(?:, `\w+`)*) \| (.*) \|$", body, re.M)
    return {word: said for words, said in found for word in re.findall(r"\w+", words)}


def shape_of(said):
    """Returns the shape of an argument by the page's words for it."""
    fitting = [(len(it), shape) for shape, its in SAID.items() for it in its if said.startswith(it)]
    return max(fitting, default=(0, None))[1]


def names_in(text):
    """Returns the names in arguments, as the definitions read them: moves, verdicts, and options that are flags or lists."""
    listed = {of: text.partition(f"\n{of}_names =")[2].partition("\n\n")[0] for of in ("move", "verdict")}
    options = {"flags": r'flag_member \(codes "(\w+)"\) ms', "lists": r'\(list_in as_str\) \(get_member \(codes "(\w+)"\) ms'}
    found = {f"{of}s": re.findall(r'codes "(\w+)"', it) for of, it in listed.items()}
    # (a definition of the options has the last of them first)
    return {**found, **{of: re.findall(it, text)[::-1] for of, it in options.items()}}


def wrong_arguments(words, shapes, said):
    """Returns the fault of the arguments of a command on the page, or None."""
    if len(words) != len(shapes):
        return f"has {len(words)} arguments, and {len(shapes)} in the definitions"
    for word, shape in zip(words, shapes):
        due = shape.removesuffix(MAY_BE_NULL)
        if word.endswith("?") != (shape != due):
            return f"has {word}, which is {shape} in the definitions"
        if shape_of(said.get(word.rstrip("?"), "")) != due:
            return f"has {word}, which the page does not describe as {due}"
    return None


def wrong_names(names, said):
    """Yields the faults of arguments for which the page has other names within."""
    due = {"move": names["moves"], "filter": ["name", *names["verdicts"]], "options": [*names["flags"], *names["lists"]]}
    for word, its in due.items():
        quoted = " ".join(re.findall(r"`([^`]*)`", said.get(word, "")))
        if {*re.findall(r"[A-Za-z]+", quoted)} - {"true", "false"} != {*its}:
            yield f"{PAGE}: {word} has other names than the definitions: {', '.join(its)}"


def wrong_counts(given, served, known):
    """Yields the faults of pages that say another number of commands."""
    for path in COUNTING:
        for number, of_definitions in re.findall(r"(\d+) commands( of the definitions)?", given[path]):
            if int(number) != (known if of_definitions else served):
                yield f"{path}: it says {number} commands{of_definitions}, where {served} have lines and the definitions have {known}"
    more = f"{NUMBERS[known - served].capitalize()} more commands of the definitions have no line"
    if more not in given[PAGE]:
        yield f"{PAGE}: it does not say: {more}"


def wrongs(given):
    """Yields the differences between the page and the definitions."""
    table, page, said = rows(given[TABLE]), [*shown(given[PAGE])], meanings(given[PAGE])
    names = [it[1] for it in page]
    yield from (f"{PAGE}: it has no row for {it}, which the definitions have" for it in table if it not in names)
    yield from (f"{PAGE}: the definitions have no {it}" for it in names if it not in table)
    yield from (f"{PAGE}: it has more than one row for {it}" for it in table if names.count(it) > 1)
    for _, name, words, _ in page:
        wrong = wrong_arguments(words, table[name][0], said) if name in table else None
        if wrong:
            yield f"{PAGE}: {name} {wrong}"
    yield from wrong_names(names_in(given[LINE]), said)
    known = re.findall(r"^  (\w+) : ", given[COMMAND], re.M)
    yield from (f"{TABLE}: {name} makes {makes}, which is no command" for name, (_, makes) in table.items() if makes.split()[0] not in known)
    yield from wrong_counts(given, len(table), len(known))


def entry(table, group, name, words, answer):
    """Returns a command of the file."""
    shapes, makes = table[name]
    arguments = [{"name": word.rstrip("?"), "shape": shape, "nullable": shape.endswith(MAY_BE_NULL)} for word, shape in zip(words, shapes)]
    return {"group": group, "name": name, "arguments": arguments, "answer": answer, "command": makes}


def made(given):
    """Returns the text of the file: a line for each list of names, and one for each command."""
    table, line = rows(given[TABLE]), lambda it: json.dumps(it, ensure_ascii=False)
    head = {"written": f"by tools/docs.py from {DEFINITIONS} and {PAGE}; not to be edited", **names_in(given[LINE])}
    lists = "".join(f"  {line(name)}: {line(it)},\n" for name, it in head.items())
    commands = ",\n".join(f"    {line(entry(table, *it))}" for it in shown(given[PAGE]))
    return f'{{\n{lists}  "commands": [\n{commands}\n  ]\n}}\n'


def read_if_there(path):
    """Returns the text of a file, or None if there is no such file."""
    if not os.path.exists(path):
        return None
    with open(path, encoding="utf-8") as file:
        return file.read()


def check():
    """Returns the faults of the page and of the file, and what holds without any."""
    given = texts()
    faults = [*wrongs(given)]
    if not faults and read_if_there(os.path.join(ROOT, MADE)) != made(given):
        faults.append(f"{MADE} is not what the definitions and {PAGE} give: run python3 tools/docs.py write commands")
    return faults, f"{MADE} has the {len(rows(given[TABLE]))} commands of the definitions and {PAGE}"


def write():
    """Writes the file, if the page and the definitions agree."""
    given = texts()
    if not [*wrongs(given)]:
        with open(os.path.join(ROOT, MADE), "w", encoding="utf-8") as file:
            file.write(made(given))
