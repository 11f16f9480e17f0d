#!/usr/bin/env python3
"""Tests generated/ and all that is built of it, in copies of the repository, with no Rattle kit on the path. It tests builds and their keeping, changed bytes
and sums, changed sources, and machines that lack something. If the program was proved here, its build by the kit is compared with the C compiler's.
"""
import os
import re
import shutil
import subprocess
import sys
import tempfile
import time
import unittest

sys.dont_write_bytecode = True
HERE = os.path.dirname(os.path.realpath(__file__))
sys.path.insert(0, HERE)
import assemble
import start
from start import ROOT

GIVEN = b'["createElement",0,"p"]\n["appendChild",0,1]\n["tree",0]\n'
DUE = b'{"ok":1}\n{"ok":1}\n{"ok":[[0,0,9,"#document"],[1,1,1,"p",[]]]}\n'
# The programs that a start and a build call.
CALLED = ("sh", "find", "sha256sum", "mv", "mkdir", "ln", "python3", "cc", "gcc", "as", "ld", "ar", "nm", "xz", "dirname")
COPIED = ("crates", "generated", "tools", "bindings", "crates.txt", "HANDLES", "domserve", "test")
# The most that a start may take beside the program, in seconds of processor time.
MOST = 0.05
# The most that the two builds may differ, as a share.
NEAR = 0.01


def link(one, other):
    try:
        os.link(one, other)
    except OSError:
        shutil.copy2(one, other)


class Copy:
    """A copy of the repository without built files, and a path with few programs on it."""

    def __init__(self, folder):
        self.top, self.path = f"{folder}/copy", f"{folder}/path"
        os.makedirs(self.top)
        os.makedirs(self.path)
        for it in COPIED:
            if os.path.isdir(f"{ROOT}/{it}"):
                shutil.copytree(f"{ROOT}/{it}", f"{self.top}/{it}", ignore=shutil.ignore_patterns("out", "edits", "target", "__pycache__"), copy_function=link)
            else:
                link(f"{ROOT}/{it}", f"{self.top}/{it}")
        for it in CALLED:
            found = sys.executable if it == "python3" else shutil.which(it)
            if found:
                # (by its own path: a program may look for others beside itself)
                self.put(it, f'#!/bin/sh\nexec {os.path.realpath(found) if it == "python3" else found} "$@"\n')

    def put(self, name, text):
        with open(f"{self.path}/{name}", "w", encoding="utf-8") as file:
            file.write(text)
        os.chmod(f"{self.path}/{name}", 0o755)

    def write(self, name, content):
        """Writes a file anew, so that the repository's own stays as it is."""
        to = f"{self.top}/{name}"
        with open(f"{to}.new", "wb") as file:
            file.write(content)
        os.replace(f"{to}.new", to)

    def read(self, name):
        with open(f"{self.top}/{name}", "rb") as file:
            return file.read()

    def environment(self, **variables):
        return {"PATH": self.path, "HOME": self.top, "XDG_CACHE_HOME": f"{self.top}/cache", "LC_ALL": "C.UTF-8", **variables}

    def run(self, *words, given=GIVEN, **variables):
        ran = subprocess.run(words, cwd=self.top, env=self.environment(**variables), input=given, stdout=subprocess.PIPE, stderr=subprocess.PIPE, check=False)
        return ran.returncode, ran.stdout, ran.stderr.decode(errors="replace")

    def domserve(self, **variables):
        return self.run(f"{self.top}/domserve", **variables)


class OfCopy(unittest.TestCase):
    def setUp(self):
        os.makedirs(f"{ROOT}/out", exist_ok=True)
        room = tempfile.TemporaryDirectory(prefix="copy-", dir=f"{ROOT}/out")
        self.addCleanup(room.cleanup)
        self.copy = Copy(room.name)

    def serves(self, **variables):
        self.assertEqual(self.copy.domserve(**variables), (0, DUE, ""))

    def says(self, *sentences, **variables):
        """Checks that a start fails with one sentence, which has these words."""
        status, out, said = self.copy.domserve(**variables)
        self.assertEqual((status, out), (1, b""))
        self.assertEqual((said.count("domserve: "), "Traceback" in said), (1, False), said)
        for it in sentences:
            self.assertIn(it, said)

    def changes(self, name, old, new):
        whole = self.copy.read(name)
        self.assertIn(old, whole)
        self.copy.write(name, whole.replace(old, new, 1))

    def checks(self, *sentences):
        """Checks that the comparison with the sums fails, and says these."""
        status, out, _ = self.copy.run("python3", "tools/assemble.py", "--check")
        self.assertEqual(status, 1)
        for it in sentences:
            self.assertIn(it, out.decode())


class Built(OfCopy):
    def test_a_start_builds_once_and_then_reads_nothing(self):
        self.serves()
        self.serves()
        # (these are not needed any more)
        for it in ("cc", "gcc", "python3", "xz"):
            self.copy.put(it, "#!/bin/sh\nexit 9\n")
        self.serves()

    def test_four_starts_at_once(self):
        words = [f"{self.copy.top}/domserve"]
        how = {"env": self.copy.environment(), "stdin": subprocess.PIPE, "stdout": subprocess.PIPE, "stderr": subprocess.PIPE}
        running = [subprocess.Popen(words, **how) for _ in range(4)]
        for it in running:
            self.assertEqual((*it.communicate(GIVEN), it.returncode), (DUE, b"", 0))

    def test_a_start_that_is_cut_off_leaves_nothing_half(self):
        cc = shutil.which("cc")
        self.copy.put("cc", "#!/bin/sh\ntouch $PATH/began\nsleep 60\n".replace("touch", shutil.which("touch")).replace("sleep", shutil.which("sleep")))
        with subprocess.Popen([f"{self.copy.top}/domserve"], env=self.copy.environment(), stdin=subprocess.DEVNULL, start_new_session=True) as running:
            while not os.path.exists(f"{self.copy.path}/began"):
                time.sleep(0.05)
            os.killpg(running.pid, 9)
        self.copy.put("cc", f'#!/bin/sh\nexec {cc} "$@"\n')
        self.serves()
        left = os.listdir(f"{self.copy.top}/crates/domserve/out")
        self.assertEqual([it for it in left if it.startswith("assembling-")], [])

    def test_a_folder_that_cannot_be_written(self):
        self.copy.write("crates/domserve/out", b"")
        self.serves()
        self.copy.put("python3", "#!/bin/sh\nexit 9\n")
        self.serves()
        self.assertTrue(os.path.isdir(f"{self.copy.top}/cache/huckleport"))

    def test_no_folder_that_can_be_written(self):
        self.copy.write("crates/domserve/out", b"")
        self.says("can be written: set XDG_CACHE_HOME", XDG_CACHE_HOME="/dev/null")

    def test_a_start_takes_little_beside_the_program(self):
        self.serves()
        program = f"{self.copy.top}/crates/domserve/out/domserve"
        self.serves()
        took = {it: min(self.seconds(it) for _ in range(7)) for it in (program, f"{self.copy.top}/domserve")}
        # (if each process costs more, as under a tracer, so does a start)
        shell = min(self.seconds(shutil.which("sh"), "-c", ":") for _ in range(7))
        self.assertLess(took[f"{self.copy.top}/domserve"] - took[program], max(MOST, 20 * shell))

    def seconds(self, *words):
        """Returns the processor time of a run over no input."""
        before = os.times()
        subprocess.run(words, stdin=subprocess.DEVNULL, stdout=subprocess.DEVNULL, check=True)
        after = os.times()
        return after.children_user + after.children_system - before.children_user - before.children_system


class Lacking(OfCopy):
    def test_no_compiler(self):
        os.remove(f"{self.copy.path}/cc")
        self.says("there is no cc", "install gcc and libc6-dev")

    def test_a_compiler_that_fails(self):
        self.copy.put("cc", "#!/bin/sh\necho no such header\nexit 1\n")
        self.says("cc did not build", "no such header")

    def test_no_xz(self):
        os.makedirs(f"{self.copy.top}/none")
        self.copy.write("none/lzma.py", b"raise ImportError\n")
        if os.path.exists(f"{self.copy.path}/xz"):
            self.serves(PYTHONPATH=f"{self.copy.top}/none")
            shutil.rmtree(f"{self.copy.top}/crates/domserve/out")
            os.remove(f"{self.copy.path}/xz")
        self.says("there is no xz", PYTHONPATH=f"{self.copy.top}/none")

    def test_no_python(self):
        os.remove(f"{self.copy.path}/python3")
        self.says("there is no python3")

    def test_the_gate_without_a_kit(self):
        self.copy.put("bash", f'#!/bin/sh\nexec {shutil.which("bash")} "$@"\n')
        status, out, said = self.copy.run(shutil.which("bash"), "test", "--prove")
        self.assertEqual((status, out), (1, b""))
        self.assertEqual((said.count("\n"), "there is no rt on the path" in said), (1, True), said)


class Changed(OfCopy):
    """The files of generated/ are not those of their sums, or were made of other sources."""

    def file(self):
        return f"generated/{assemble.assembly(start.PROGRAM, assemble.machine_of())}"

    def test_a_byte(self):
        whole = bytearray(self.copy.read(self.file()))
        whole[len(whole) // 2] ^= 1
        self.copy.write(self.file(), bytes(whole))
        self.says(self.file(), "is not the file that generated/SUMS names", assemble.WRITER)
        self.checks(self.file(), assemble.WRITER)

    def test_a_file_that_is_gone(self):
        os.remove(f"{self.copy.top}/{self.file()}")
        self.says(f"{self.file()} cannot be read")
        self.checks(self.file(), assemble.WRITER)

    def test_no_sums(self):
        os.remove(f"{self.copy.top}/generated/SUMS")
        self.says("there is no generated/SUMS", "Rattle kit")

    def test_sums_of_other_sources(self):
        whole = self.copy.read("generated/SUMS")
        self.copy.write("generated/SUMS", re.sub(rb"sources \w{8}", b"sources 00000000", whole))
        self.says("changed since generated/SUMS was written", "there is no Rattle kit")
        self.checks("changed since generated/SUMS was written", assemble.WRITER)

    def test_a_source_without_a_kit(self):
        name = "crates/dom_tree/src/lib.rt"
        self.copy.write(name, self.copy.read(name) + b"// one more line\n")
        self.says("crates/dom_tree changed since generated/SUMS was written", "there is no Rattle kit (rt) here")
        self.checks("crates/dom_tree changed since", assemble.WRITER)
        # (and once it is taken back)
        self.copy.write(name, self.copy.read(name).removesuffix(b"// one more line\n"))
        self.serves()

    def test_a_source_after_a_start(self):
        self.serves()
        self.serves()
        name = "crates/dom_tree/src/lib.rt"
        self.copy.write(name, self.copy.read(name) + b"// one more line\n")
        self.says("crates/dom_tree changed")

    def test_a_file_by_hand(self):
        self.changes("generated/os.c", b"static int count;", b"static int count = 0;")
        self.says("generated/os.c is not the one")
        self.checks("generated/os.c", assemble.WRITER)

    def test_a_file_that_is_not_made(self):
        self.copy.write("generated/more.c", b"")
        self.checks("generated/more.c is not named in generated/SUMS")

    def test_the_glue_of_the_module(self):
        self.changes("bindings/web/glue.py", b'"""', b'""" ')
        self.checks("bindings/web", assemble.WRITER)
        self.serves()

    def test_the_library_and_the_module(self):
        for script, file in (("bindings/c/make.py", assemble.assembly(assemble.LIBRARY, assemble.machine_of())), ("bindings/javascript/make.py", assemble.MODULE)):
            whole = bytearray(self.copy.read(f"generated/{file}"))
            whole[-1] ^= 1
            self.copy.write(f"generated/{file}", bytes(whole))
            status, _, said = self.copy.run("python3", script)
            self.assertEqual((status, "Traceback" in said), (1, False))
            self.assertIn(f"generated/{file} is not the file that generated/SUMS names", said)


class Beside(unittest.TestCase):
    """The program that the kit built, beside the one that the C compiler builds of the assembly."""

    def setUp(self):
        self.proved = start.built(start.PROGRAM)[0]
        if not start.is_fresh(start.PROGRAM):
            self.skipTest("left out, since no program was proved here")
        room = tempfile.TemporaryDirectory()
        self.addCleanup(room.cleanup)
        self.assembled = f"{room.name}/domserve"
        assemble.program(self.assembled)

    def assertNear(self, one, other):
        self.assertLess(abs(one - other) / max(one, other), NEAR, (one, other))

    def test_bytes(self):
        self.assertNear(*(os.path.getsize(it) for it in (self.proved, self.assembled)))

    @unittest.skipUnless(shutil.which("valgrind"), "left out, since there is no valgrind")
    def test_instructions(self):
        self.assertNear(*map(self.instructions, (self.proved, self.assembled)))

    def instructions(self, program):
        from running import dialogues

        given = b"".join(it.given for it in dialogues([]) if not it.words)
        words = ["valgrind", "--tool=callgrind", "--callgrind-out-file=/dev/null", program]
        said = subprocess.run(words, input=given, stdout=subprocess.DEVNULL, stderr=subprocess.PIPE, check=True).stderr.decode()
        return int(re.search(r"Collected : (\d+)", said)[1])

    def test_dialogues(self):
        words = [sys.executable, f"{HERE}/pieces.py", "--cuts", "2", "--program"]
        said = [subprocess.run([*words, it], stdout=subprocess.PIPE, check=False).stdout for it in (self.proved, self.assembled)]
        self.assertEqual(said[0], said[1])
        self.assertIn(b", 0 failed", said[0])


if __name__ == "__main__":
    unittest.main(verbosity=2)
