"""The inputs of a release: the proved and built program and libraries, the pages of the repository, and its version."""
import os
import re
import shutil
import sys
import time

import files

ROOT = os.path.dirname(os.path.dirname(os.path.abspath(__file__)))
BINDINGS = os.path.join(ROOT, "bindings")
sys.path.insert(0, os.path.join(BINDINGS, "c"))
import make
from make import assemble
from exports import SOURCES, modules
from header import header
from version import LICENSE, VERSION

PROGRAM = os.path.join(ROOT, "crates/domserve/out/domserve")
LIBRARY = os.path.join(BINDINGS, "c/out")
# The module for JavaScript, and its calls.
MODULE, MODULE_FILES = os.path.join(BINDINGS, "web/out"), ("huckleport.wasm", "calls.js")
NAME = f"huckleport-{VERSION}"
ARCHIVE, SHARED, HEADER = "libhuckleport.a", make.SONAME, "huckleport.h"


# The terms, which each file of a release carries.
LICENSES = ("LICENSE", "LICENSE-MIT", "LICENSE-APACHE", "NOTICE")


def dated(it):
    """A man page with the release's date."""
    when = time.strftime("%B %d, %Y", time.gmtime(files.MOMENT)).replace(" 0", " ")
    return it._replace(content=re.sub(rb"^\.Dd .*$", f".Dd {when}".encode(), it.content, flags=re.M))


def text_of(path):
    with open(os.path.join(ROOT, path), encoding="utf-8") as file:
        return file.read()


def template(name, **values):
    """A template with values at the places that it names."""
    return files.text(re.sub(r"@([A-Z]+)@", lambda it: str(values[it[1]]), text_of(f"release/templates/{name}")))


def page(path, beside=()):
    """A page of the repository. Of its links stay those into itself, to the web, and to the pages that go with it; of the others their words."""
    def kept(it):
        words, target = it[1], it[2]
        if re.match(r"\w+:|#", target):
            return it[0]
        file, mark, anchor = target.partition("#")
        name = os.path.basename(file)
        return f"[{words}]({name}{mark}{anchor})" if name in beside else words

    return files.text(re.sub(r"\[([^]]*)\]\(([^)\s]+)\)", kept, text_of(path)))


def is_generated():
    """Whether generated/ has the program of the sources that are here."""
    try:
        assemble.fits(assemble.PROGRAM)
    except assemble.Unfit:
        return False
    return True


def take(library, work):
    """Copies the libraries and the program into a folder, and makes a new header there.

    The program is the one beside the libraries. If there is none, it is built of generated/, as anybody can build it again. If generated/ is of other
    sources, it is the proved one. Ends the script if something is missing or does not fit.
    """
    beside = os.path.join(library, "domserve")
    program = beside if os.path.isfile(beside) else PROGRAM
    made_by = {os.path.join(library, it): "bindings/c/make.py" for it in (ARCHIVE, SHARED)}
    if program == PROGRAM and is_generated():
        assemble.program(os.path.join(work, "domserve"))
    else:
        made_by[program] = "tools/start.py"
    for path, script in made_by.items():
        if not os.path.isfile(path):
            sys.exit(f"{path} is not there: python3 {script} makes it")
        shutil.copy(path, work)
    where = next((it for it in (library, MODULE, assemble.FOLDER) if has_module(it)), None)
    for it in MODULE_FILES if where else ():
        shutil.copy(os.path.join(where, it), work)
    found = modules(SOURCES)
    make.check(os.path.join(work, SHARED), [it.name for module in found for it in module.exports])
    make.write(os.path.join(work, HEADER), header(found))


def run(script, *words):
    """Runs a script of the bindings; if it fails, ends with its output."""
    make.call(sys.executable, os.path.join(BINDINGS, script), *words)


def has_header(folder, name):
    return bool(folder) and os.path.isfile(os.path.join(folder, name))


def has_module(folder):
    return all(os.path.isfile(os.path.join(folder, it)) for it in MODULE_FILES)
