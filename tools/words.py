"""Checks the words of pages and doc comments against the rules of docs/writing.md.

It reports words that the page's list replaces, sentences of more than 35 words, and doc comments whose first line does not begin with a verb in the
third person. COVERED and FOLDERS name the files that have to pass: in code the words of comments, docstrings, messages and names of tests. Files that are
named on the command line are checked alone.
"""
import ast
import glob
import os
import re
import sys

from start import ROOT

# The files that have to pass.
COVERED = (
    "CHANGELOG.md",
    "CONTRIBUTING.md",
    "README.md",
    "SECURITY.md",
    "crates/*/CALLING.md",
    "crates/*/README.md",
    "crates/*/src/**/*.rt",
    "docs/*.md",
)
# The folders of other code, whose files of the kinds in COMMENTS have to pass.
FOLDERS = ("bench", "bindings", "domserve", "examples", "referee", "release", "serving", "tools")
# Folders that hold built or fetched files.
MADE = {"__pycache__", "build", "dist", "node_modules", "out", "target"}
# The page that lists the words to avoid, so it may have them.
LISTING = "docs/writing.md"
AVOIDED = re.compile(
    r"\b(what (?:is|are|was|were|comes|stands|lies|goes)|for want of|memory (?:was|is) wanting|(?:is|are|was|were) let go|let(?:s|ting)? go of|comes? in|"
    r"(?:is|are|was|were) told|of which|by which|thereof|likewise|so many)\b",
    re.I,
)
# Files that may have such words, each with the reason.
EXEMPT = {
    "serving/tests/schema_1.sql": "the schema of an older version, as it was",
    "tools/edit_files.py": "an edit is tried anew if a byte of the tools that try it has changed",
    "tools/edit_probes.py": "the same",
    "tools/edit_told.py": "the same",
    "tools/edit_twins.py": "the same",
    "tools/edits.py": "the same",
    "tools/words.py": "it has the words to find",
}
# Parts of lines in which such words are right, each with the reason.
ALLOWED = {
    "the erased commands is what is left of what": "a comment in a file of proofs, which would be proved anew",
    "- It shows what is lent": "a fault that a test finds",
}
MOST_WORDS = 35
# Ends a paragraph, a list item or a row of a table.
PARTED = re.compile(r"\n\s*\n|\n(?=\s*(?:[-*|]|\d+\.) )")
FENCED = re.compile(r"^```.*?^```\n|^ {4}[^\n]*\n", re.M | re.S)
MARKS = re.compile(r"`[^`]*`|\]\([^)]*\)|[*_\[\]]")
SENTENCE = re.compile(r"(?<=[.!?:])\s+(?=[\"A-Z`*\[])")
DOC = re.compile(r"^\s*///\s?(.*)$")
VERB = re.compile(r"^(?:\W*)[A-Z]\w*(?:s|es)\b")


def prose_of(text):
    """Yields the paragraphs, list items and table cells of a page, without code, each with the number of its line."""
    text, at = FENCED.sub(lambda it: "\n" * it[0].count("\n"), text), 0
    for found in [*PARTED.finditer(text), None]:
        part = text[at : found.start() if found else len(text)]
        line = text.count("\n", 0, at + len(part) - len(part.lstrip())) + 1
        for cell in part.split("|") if part.lstrip().startswith("|") else [part]:
            yield line, " ".join(MARKS.sub(lambda it: "X" if it[0].startswith("`") else "", cell).split())
        at = found.end() if found else at


def faults_of_page(path):
    """Yields the faults of a page, each at the line where its paragraph, item or row begins."""
    with open(f"{ROOT}/{path}", encoding="utf-8") as file:
        text = file.read()
    for line, part in prose_of(text):
        for sentence in SENTENCE.split(part):
            found = AVOIDED.search(sentence) if path != LISTING else None
            if found:
                yield f"{path}:{line}: '{found[0]}' in: {sentence[:90]}"
            if len(sentence.split()) > MOST_WORDS:
                yield f"{path}:{line}: {len(sentence.split())} words in one sentence: {sentence[:90]}"


def faults_of_source(path):
    """Yields the faults of the doc comments of a source, each at its line."""
    with open(f"{ROOT}/{path}", encoding="utf-8") as file:
        lines = file.read().split("\n")
    for number, line in enumerate(lines):
        found = DOC.match(line)
        if not found:
            continue
        word = AVOIDED.search(found[1])
        if word:
            yield f"{path}:{number + 1}: '{word[0]}'"
        is_first = number == 0 or not DOC.match(lines[number - 1])
        declares = next((it for it in lines[number:] if not DOC.match(it) and not it.lstrip().startswith("#[")), "")
        if is_first and re.search(r"\bfn\b", declares) and not VERB.match(found[1]):
            yield f"{path}:{number + 1}: the first line begins with no verb in the third person: {found[1][:70]}"


# How comments are written in the other files that have to pass, by the ends of their names: a pattern of one comment, or of a run of lines.
LINES = r"(?:^[ \t]*{0}[^\n]*\n)+|(?<=[;{{}}(),\w]) +{0} [^\n]*\n"
BLOCK = r"/\*.*?\*/"
COMMENTS = {
    ".py": re.compile(LINES.format("#"), re.M),
    ".sql": re.compile(LINES.format("--"), re.M),
    ".1": re.compile(r"^[^.'\n][^\n]*(?:\n[^.'\n][^\n]*)*\n", re.M),
    **{it: re.compile(BLOCK + "|" + LINES.format("//"), re.M | re.S) for it in (".c", ".h", ".js", ".mjs", ".cjs", ".ts", ".rs", ".go")},
}
COMMENT_MARKS = re.compile(r"^[ \t]*(?:/\*\*?|\*/|\*(?= |$)|//[/!]?|#|--) ?|\*/[ \t]*$", re.M)


def comments_of(path, text):
    """Yields the comments of a file and the docstrings of one of Python, each with the number of its line."""
    for found in COMMENTS[os.path.splitext(path)[1]].finditer(text):
        yield text.count("\n", 0, found.start()) + 1, COMMENT_MARKS.sub("", found[0])
    if path.endswith(".py"):
        for it in ast.walk(ast.parse(text)):
            if isinstance(it, (ast.Module, ast.ClassDef, ast.FunctionDef)) and ast.get_docstring(it):
                yield it.body[0].lineno, ast.get_docstring(it)


def faults_of_code(path):
    """Yields the faults of another file: words anywhere in it, messages and names of tests among them, and long sentences of its comments."""
    with open(f"{ROOT}/{path}", encoding="utf-8") as file:
        text = file.read()
    for number, line in enumerate(text.split("\n")):
        found = AVOIDED.search(line)
        if found and not any(it in line for it in ALLOWED):
            yield f"{path}:{number + 1}: '{found[0]}' in: {line.strip()[:90]}"
    for line, comment in comments_of(path, text):
        for more, part in prose_of(comment):
            for sentence in SENTENCE.split(part):
                if len(sentence.split()) > MOST_WORDS:
                    yield f"{path}:{line + more - 1}: {len(sentence.split())} words in one sentence: {sentence[:90]}"


def files_of(patterns):
    found = {os.path.relpath(it, ROOT) for pattern in patterns for it in glob.glob(f"{ROOT}/{pattern}", recursive=True)}
    return sorted(it for it in found if not MADE & {*it.split("/")})


def faults_of(path):
    if path.endswith(".rt"):
        return faults_of_source(path)
    return faults_of_page(path) if path.endswith(".md") else faults_of_code(path)


def check():
    """Returns the faults of all files, and a line that says what holds without any."""
    files = files_of(COVERED) + files_of(f"{folder}/**/*{kind}" for folder in FOLDERS for kind in COMMENTS)
    return [fault for path in files if path not in EXEMPT for fault in faults_of(path)], f"{len(files)} files are in the words of {LISTING}"


if __name__ == "__main__":
    print(*(fault for path in sys.argv[1:] for fault in faults_of(path)), sep="\n")
