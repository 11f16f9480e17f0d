#!/usr/bin/env python3
"""Makes the library for C, and tests all that it offers; prints the tests that it leaves out if gcc, g++ or valgrind is missing.

- the header compiles as C99 and as C++, and the shared object shows its calls alone;
- each dialogue of dialogues through hp_line, byte for byte, and again through the calls of the header, from Python and from C;
- each call with a closed session, and wrong arguments;
- the neighbours and the contents of a node, whose reading takes no memory, and a hundred thousand children removed one by one;
- the nodes of a subtree, copied with any room and compared with single calls, also in a session that has ended;
- steps of iterators and walkers in turn, with any room and filter, compared with single calls, and refused in a session that has ended;
- the number of objects of each kind, as they are made and released, counted without taking memory;
- released objects, which no call finds and which keep no tree, and the memory after a million of each kind;
- each allocation refused in turn over all dialogues, and over one of the calls that copy names and texts;
- a session that goes on after each question and each making that was refused memory, compared with one that was never asked;
- a session that has ended, read whole and compared with what it held before the call that was refused memory;
- two sessions on two threads, and deeply nested lines on a thread with a small stack;
- the examples, as docs/c-library.md shows them; of the one that loads HTML also that libxml2's own tree of what it writes is that of what it read;
- that page's table of structs, which has the members of the header;
- the programs above under valgrind: no bad access, nothing in use at the end.
"""
import os
import re
import shutil
import subprocess
import sys
import tempfile
from concurrent.futures import ThreadPoolExecutor

from declared import header
from exports import ROOT
from make import HERE, make, words_of

sys.path.insert(0, os.path.join(ROOT, "tools"))
from running import content, dialogues
from tests.pages import PAGES

TESTS = os.path.join(HERE, "tests")
STRICT = ["-Wall", "-Wextra", "-Werror", "-pedantic"]
WATCHED = ["valgrind", "-q", "--error-exitcode=9", "--leak-check=full", "--show-leak-kinds=all", "--errors-for-leak-kinds=all"]
WRAPPED = ["-Wl,--wrap=malloc,--wrap=realloc,--wrap=free"]
# The stack that each call has to do with, in bytes, as docs/c-library.md says.
STACK = 192 * 1024
# The longest that one program may take, in seconds.
LIMIT = 3600

LITERAL = """\
#include "huckleport.h"
int main()
{
    hp_session session = HP_SESSION_INIT;
    hp_options options = HP_OPTIONS_INIT;
    uint32_t made;
    (void)options;
    hp_open(&session, 10, 100);
    hp_create_element(&session, 0, hp_name("a"), &made);
    hp_create_text(&session, 0, NULL, 0, &made);
#ifdef hp_text_literal
    hp_create_text(&session, 0, hp_text_literal("a"), &made);
#endif
    return hp_close(&session);
}
"""


class Tests:
    def __init__(self, given, folder, work):
        self.given, self.folder, self.work = given, folder, work
        self.has_valgrind = shutil.which("valgrind") is not None
        self.faults = []
        self.dialogues = dialogues([])

    def say(self, text):
        print(text, flush=True)

    def run(self, *words, given=b""):
        ran = subprocess.run(words, input=given, stdout=subprocess.PIPE, stderr=subprocess.PIPE, timeout=LIMIT)
        return ran.returncode, ran.stdout, ran.stderr.decode(errors="replace")

    def must(self, what, *words):
        """Runs a command that is to pass, and returns what it wrote."""
        status, out, said = self.run(*words)
        if status:
            self.faults.append(what)
            self.say(f"FAILED {what}: status {status}\n{out.decode(errors='replace')[-3000:]}{said[-3000:]}")
        return None if status else out

    def compile(self, name, *words, source=None, standard="-std=c11"):
        """Compiles a test over the archive, and returns its program."""
        to = os.path.join(self.work, name)
        source = source or os.path.join(TESTS, name + ".c")
        words = [standard, "-O1", "-g", *STRICT, f"-I{self.folder}", f"-I{TESTS}", source, "-o", to, *words]
        made = self.must(f"compiling {name}", self.given.compiler, *words, os.path.join(self.folder, "libhuckleport.a"))
        return None if made is None else to

    def watched(self, *words):
        """A command under valgrind, where that is there."""
        return [*WATCHED, *words] if self.has_valgrind else None

    def words_of_dialogues(self):
        return [word for it in self.dialogues for word in [*it.words, it.path, it.path[:-3] + ".out"]]

    # the tests

    def header(self):
        ways = [(self.given.compiler, "c", ["-std=c99", "-std=c11"])]
        if shutil.which("g++"):
            ways.append(("g++", "cc", ["-std=c++11", "-std=c++20"]))
        else:
            self.say("left out: the header as C++, since there is no g++")
        for compiler, ending, standards in ways:
            path = os.path.join(self.work, "literal." + ending)
            with open(path, "w", encoding="utf-8") as file:
                file.write(LITERAL)
            for it in standards:
                if self.must(f"the header by {it}", compiler, it, *STRICT, f"-I{self.folder}", "-fsyntax-only", path) is not None:
                    self.say(f"the header compiles by {it}")

    def line_faults(self, it, program):
        """Returns the fault of a dialogue through hp_line, by itself or under valgrind, or None."""
        status, out, said = self.run(program, *it.words, given=it.given)
        if status or out != it.due:
            return f"{it.name} through hp_line: status {status}, {'the same' if out == it.due else 'other'} bytes {said[-500:]}"
        if not self.has_valgrind:
            return None
        status, out, said = self.run(*self.watched(program, *it.words), given=it.given)
        return f"{it.name} under valgrind: status {status} {said[-1500:]}" if status or out != it.due else None

    def lines(self):
        program = self.compile("lines")
        if not program:
            return
        with ThreadPoolExecutor(min(os.cpu_count() or 1, 4)) as pool:
            faults = [it for it in pool.map(lambda it: self.line_faults(it, program), self.dialogues) if it]
        for it in faults:
            self.say(f"FAILED {it}")
        self.faults += faults
        self.say(f"{len(self.dialogues)} dialogues through hp_line, byte for byte: {len(faults)} faults")
        self.unended(program)

    def unended(self, program):
        """A last line without a newline is answered as well."""
        it = next(it for it in self.dialogues if it.due.endswith(b"\n") and it.given.endswith(b"\n"))
        status, out, _ = self.run(program, *it.words, given=it.given[:-1])
        if status or out != it.due:
            self.faults.append("a last line without a newline")
            self.say("FAILED a last line without a newline")

    def typed(self):
        words = ["--library", os.path.join(self.folder, "libhuckleport.so"), "--header", os.path.join(self.folder, "huckleport.h")]
        source = os.path.join(self.work, "said.c")
        out = self.must("the dialogues through the calls", sys.executable, os.path.join(TESTS, "typed.py"), *words, "--write", source)
        if out is not None:
            self.say(f"through the calls of the header, byte for byte: {out.decode().strip()}")
            self.alone("said", source=source, standard="-std=c99")

    def alone(self, name, *words, source=None, standard="-std=c11", link=()):
        """Runs a program that passes if its status is 0, under valgrind too; returns its output, or None."""
        program = self.compile(name, *link, source=source, standard=standard)
        out = program and self.must(name, program, *words)
        if not program or out is None:
            return None
        under = ""
        if self.has_valgrind:
            under = "; the same under valgrind" if self.must(f"{name} under valgrind", *self.watched(program, *words)) is not None else ""
        lines = out.decode().strip().split("\n")
        self.say(f"{name}: {lines[-1] or 'passed'}{under}")
        return out

    def closed(self):
        out = self.must("closed.py", sys.executable, os.path.join(TESTS, "closed.py"), os.path.join(self.folder, "huckleport.h"))
        source = os.path.join(self.work, "closed.c")
        with open(source, "wb") as file:
            file.write(out or b"")
        self.alone("closed", source=source, standard="-std=c99")

    def refused(self):
        program = self.compile("refused", *WRAPPED)
        words = self.words_of_dialogues()
        out = program and self.must("allocations refused", program, "1", *words)
        if out:
            self.say(f"each allocation refused: {out.decode().strip()}")
        if program and self.has_valgrind:
            out = self.must("allocations refused under valgrind", *self.watched(program, str(self.given.step), *words))
            self.say(f"under valgrind, in steps of {self.given.step}: {(out or b'FAILED').decode().strip()}")
        self.alone("refused_calls", link=WRAPPED)

    def goes_on(self):
        self.alone("goes_on", link=WRAPPED)

    def ended(self):
        self.alone("ended", link=WRAPPED)

    def misuse(self):
        self.alone("misuse", standard="-std=c99")

    def nearby(self):
        if self.alone("nearby", link=WRAPPED) is not None:
            self.must("a hundred thousand children removed, by the clock", os.path.join(self.work, "nearby"), "timed")

    def subtree(self):
        self.alone("subtree", link=WRAPPED)

    def steps(self):
        self.alone("steps", link=WRAPPED)

    def counted(self):
        self.alone("counted", link=WRAPPED)

    def released(self):
        if self.alone("released", link=WRAPPED) is not None:
            self.must("a million of each kind that come and go", os.path.join(self.work, "released"), "million")

    def threads(self):
        self.alone("threads", "2", *self.words_of_dialogues(), link=["-pthread"])

    def stacks(self):
        program = self.compile("stacks", "-pthread")
        out = program and self.must("a small stack", program, str(STACK), *self.words_of_dialogues())
        if out:
            self.say(f"stacks: {out.decode().strip()}")

    def example(self):
        source = os.path.join(HERE, "examples/editor.c")
        out = self.alone("editor", source=source)
        if out is not None and out != content(os.path.join(HERE, "examples/editor.out")):
            self.faults.append("editor.out")
            self.say("FAILED the example wrote other bytes than examples/editor.out")
        # linked to the shared object as well
        program = os.path.join(self.work, "editor_shared")
        words = ["-std=c11", f"-I{self.folder}", source, f"-L{self.folder}", "-lhuckleport", f"-Wl,-rpath,{self.folder}", "-o", program]
        if self.must("the example over the shared object", self.given.compiler, *words) is not None:
            if self.must("the example over the shared object", program) == out:
                self.say("editor: the same over the shared object")

    def loading(self):
        """The example over libxml2, where that is there."""
        flags = shutil.which("pkg-config") and self.run("pkg-config", "--cflags", "--libs", "libxml-2.0")
        if not flags or flags[0]:
            self.say("left out: the example that loads HTML, since there is no libxml2 (libxml2-dev)")
            return
        source = os.path.join(HERE, "examples/load_html.c")
        flags = flags[1].decode().split()
        out = self.alone("load_html", source[:-2] + ".html", source=source, link=flags)
        if out is not None and out != content(source[:-2] + ".out"):
            self.faults.append("load_html.out")
            self.say("FAILED the example wrote other bytes than examples/load_html.out")
        if out is not None:
            self.there_and_back(os.path.join(self.work, "load_html"))

    def own_tree(self, page):
        """The tree that libxml2 makes of a page by itself, as text."""
        return self.run("xmllint", "--html", "--nowarning", "--encode", "UTF-8", "--xmlout", "-", given=page)[1]

    def there_and_back(self, program):
        """Whether libxml2's own tree of what the example writes is that of what it read."""
        if not shutil.which("xmllint"):
            self.say("left out: pages there and back, since there is no xmllint (libxml2-utils)")
            return
        for name, page in PAGES.items():
            status, out, said = self.run(program, given=page.encode())
            if status or self.own_tree(out.rstrip(b"\n")) != self.own_tree(page.encode()):
                self.faults.append(f"there and back: {name}")
                self.say(f"FAILED there and back: {name}: status {status} {said[-500:]}")
        self.say(f"load_html: {len(PAGES)} pages there and back, one of ten thousand elements")

    def page(self):
        said = content(os.path.join(ROOT, "docs/c-library.md")).decode()
        rows = re.findall(r"^\| `(hp_\w+)`[^|]*\| (`.*`) \|$", said, re.M)
        shown = {name: re.findall(r"\w+", members) for name, members in rows}
        due = header(os.path.join(self.folder, "huckleport.h")).structs
        for name in sorted({*due, *shown} - {"hp_session", "hp_slot"}):
            members = [it.name for it in due.get(name, [])]
            if shown.get(name) != members:
                self.faults.append("the table of structs")
                self.say(f"FAILED {name} has the members {members}, and docs/c-library.md says {shown.get(name)}")

    def all(self):
        if not self.has_valgrind:
            self.say("left out: what runs under valgrind, since there is no valgrind")
        for it in self.given.only or PARTS:
            getattr(self, it)()
        self.say(f"{len(self.faults)} faults")
        return 1 if self.faults else 0


PARTS = ("header", "lines", "typed", "closed", "misuse", "nearby", "subtree", "steps", "counted", "released", "refused", "goes_on", "ended", "threads", "stacks", "example", "loading", "page")


def main():
    parser = words_of(__doc__)
    parser.add_argument("--step", type=int, default=37, help="under valgrind each STEP-th allocation is refused (37)")
    parser.add_argument("only", nargs="*", metavar="PART", help=f"only these parts: {', '.join(PARTS)}")
    given = parser.parse_args()
    unknown = [it for it in given.only if it not in PARTS]
    if unknown or given.step < 1:
        parser.error(f"there is no part {unknown[0]}: the parts are {', '.join(PARTS)}" if unknown else f"--step has to be at least 1, not {given.step}")
    if not shutil.which(given.compiler):
        print(f"left out: all of it, since there is no {given.compiler}")
        return 0
    folder, count = make(given)
    print(f"{folder}: the shared object shows the header's {count} calls and no other name", flush=True)
    with tempfile.TemporaryDirectory() as work:
        return Tests(given, folder, work).all()


if __name__ == "__main__":
    sys.exit(main())
