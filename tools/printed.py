"""Runs the commands of README.md and docs/*.md, in a fresh folder for each page, and compares the output with the `text` block that follows.

The folder is a copy of the repository without files that runs made, but with the built program and library for C, so nothing is proved again. Commands are
the fenced `sh` blocks, each run as one script with bash, and the lines of four spaces that begin with a program here. A block after a line that has only a
name in backticks and a colon is saved in that file. Commands that are not run are listed, each with the reason.
"""
import glob
import os
import re
import shutil
import subprocess
import sysconfig
import tempfile
from collections import namedtuple

from start import ROOT

PASSED_OVER = (
    (r"\.ci/run|\./test\b|\brt (ci|all)\b", "the gate itself, which proves all from nothing"),
    (r"--install|\bpip install|\bnpm install|\binstall -m|\bapt(-get)? |\bsystemctl\b|\bdocker\b|\bpodman\b", "installs, or needs something that is not here"),
    (r"\b(NAME|FILE|PREFIX|FOLDER|CRATE)\b|-0\.\d", "a form, with words to put in"),
    (r"\btools/(refused|size|docs\.py run)\b|\bbench|\brt \w+|playground", "a long run by hand"),
)
# The tools without which a block is not run, as the first words of its lines.
TOOLS = ("cargo", "node", "gcc", "python3", "socat", "doxygen", "man")
# The oldest node that the package for JavaScript runs in.
LEAST_NODE = 20
# The longest that a block may take, in seconds.
LIMIT = 900
# The files that runs made, and those of them that are copied.
MADE = (".git", "out", "build", "target", "node_modules", "__pycache__", "tmp")
BUILT = ("crates/domserve/out/domserve", "crates/dom_c/out/dom_c", "crates/dom_c/out/dom_c.bc")
FENCED = re.compile(r"(?:^`(?P<file>[\w./-]+)`:\n\n)?^```(?P<language>\w*).*?\n(?P<text>.*?)^```\n(?:\n*```text\n(?P<shown>.*?)^```)?", re.M | re.S)
INDENTED = re.compile(r"(?<=\n\n)((?:    \S.*\n)+)")

# A block to save (with a file), or to run, with its output if the page shows one.
Block = namedtuple("Block", "file script shown")


def blocks(page):
    """Yields the blocks of a page that are saved or run, in its order. Single lines are last."""
    with open(page, encoding="utf-8") as it:
        text = it.read()
    for found in FENCED.finditer(text):
        if found["file"] or found["language"] == "sh":
            yield Block(found["file"], found["text"], found["shown"])
    for found in INDENTED.finditer(re.sub(r"^```.*?^```\n", "\n", text, flags=re.M | re.S)):
        lines = [line.strip() for line in found[1].splitlines()]
        yield from (Block(None, line, None) for line in lines if line.startswith("./") or shutil.which(line.split()[0]))


def save(block, folder):
    """Saves a block in its file. Returns why it may not if the repository has another file of that name."""
    path = os.path.join(folder, block.file)
    if os.path.exists(path):
        with open(path, encoding="utf-8") as it:
            return None if it.read() == block.script else "the file has other content than the page"
    os.makedirs(os.path.dirname(path), exist_ok=True)
    with open(path, "w", encoding="utf-8") as it:
        it.write(block.script)
    return None


def fault_of(block, folder):
    """Runs a script, and returns its fault, or None. Processes that it left running are ended with it."""
    words = ["timeout", "--kill-after=1", str(LIMIT), "bash", "-euo", "pipefail", "-c", block.script]
    ran = subprocess.run(words, cwd=folder, stdin=subprocess.DEVNULL, capture_output=True, text=True, errors="replace", check=False)
    if ran.returncode:
        return f"status {ran.returncode}: {ran.stderr.strip()[-300:]}"
    same = block.shown is None or ran.stdout.rstrip("\n") == block.shown.rstrip("\n")
    return None if same else f"it wrote\n{ran.stdout}where the page has\n{block.shown}"


def major_of(tool):
    """Returns the first number of a tool's version."""
    said = subprocess.run([tool, "--version"], stdout=subprocess.PIPE, text=True, check=False).stdout
    return int(re.search(r"\d+", said)[0])


def reason(script):
    """Returns why a script is passed over, and why it is left out; each is None if it is not."""
    found = next((why for pattern, why in PASSED_OVER if re.search(pattern, script)), None)
    if re.search(r"\bbindings/python\b", script) and not os.path.isfile(f"{sysconfig.get_path('include')}/Python.h"):
        return found, "there is no Python.h"
    if re.search(r"(?m)^node\b", script) and shutil.which("node") and major_of("node") < LEAST_NODE:
        return found, f"node is older than {LEAST_NODE}"
    lacking = [it for it in TOOLS if re.search(rf"(?m)^(\(cd \w+ && )?{it}\b", script) and not shutil.which(it)]
    return found, f"there is no {lacking[0]}" if lacking else None


def fresh(folder):
    """Copies the repository, without the files that runs made but for the proved program and library."""
    shutil.copytree(ROOT, folder, symlinks=True, ignore=shutil.ignore_patterns(*MADE))
    for it in [*BUILT, *(f"{name}.sum" for name in BUILT)]:
        if os.path.isfile(f"{ROOT}/{it}"):
            os.makedirs(os.path.dirname(f"{folder}/{it}"), exist_ok=True)
            shutil.copy(f"{ROOT}/{it}", f"{folder}/{it}")


def run(page, folder):
    """Runs a page in a folder, and yields for each block the line to print, and whether it ran and failed."""
    for block in blocks(f"{folder}/{page}"):
        passed_over, lacking = reason(block.script) if not block.file else (None, None)
        name = f"{page}: {block.script.strip().splitlines()[0]}"
        if block.file:
            fault = save(block, folder)
            if fault:
                yield f"{page}: {block.file}: {fault}", True, True
        elif passed_over:
            yield f"{name}: not run: {passed_over}", False, False
        elif lacking:
            yield f"left out: {name}, since {lacking}", False, False
        else:
            fault = fault_of(block, folder)
            yield f"{name}: {fault or ('as printed' if block.shown else 'ran')}", True, bool(fault)


def run_all(pages):
    """Runs pages, or all if none is given, prints a line for each block, and returns how many failed."""
    ran = failed = 0
    for page in pages or ["README.md", *sorted(os.path.relpath(it, ROOT) for it in glob.glob(f"{ROOT}/docs/*.md"))]:
        with tempfile.TemporaryDirectory() as top:
            fresh(f"{top}/fresh")
            for said, is_run, is_wrong in run(page, f"{top}/fresh"):
                print(said, flush=True)
                ran, failed = ran + is_run, failed + is_wrong
    print(f"{ran} ran, {failed} wrong")
    return failed
