#!/usr/bin/env python3
"""Tests tools/setup, tools/gathered.py, tools/beside.py, tools/progress.py, tools/docs.py with its parts, tools/rows.py and the number of threads of a proof.
Nothing is installed, built or proved: apt is a script that notes how it was called."""
import glob
import importlib.machinery
import importlib.util
import io
import os
import shutil
import subprocess
import sys
import tempfile
import threading
import time
import types
import unittest
from contextlib import redirect_stdout
from unittest import mock

sys.dont_write_bytecode = True
HERE = os.path.dirname(os.path.realpath(__file__))
sys.path.insert(0, HERE)
import beside
import charts
import commands
import docs
import gate
import gathered
import layers
import links
import printed
import progress
import promises
import quoted
import start
import words

APT = '#!/bin/sh\necho "$0 $@" >>{log}\nexit {status}\n'


def script(name):
    """A script without an ending, as a module."""
    loader = importlib.machinery.SourceFileLoader(name, os.path.join(HERE, name))
    found = importlib.util.module_from_spec(importlib.util.spec_from_loader(name, loader))
    loader.exec_module(found)
    return found


class Setup(unittest.TestCase):
    """The output and the calls of the script, with these tools on the path and no other."""

    def run_with(self, tools, status=0, **variables):
        with tempfile.TemporaryDirectory() as folder:
            log = os.path.join(folder, "log")
            for it in tools:
                path = os.path.join(folder, it)
                with open(path, "w", encoding="utf-8") as file:
                    file.write(APT.format(log=log, status=status))
                os.chmod(path, 0o755)
            environment = {**{name: it for name, it in os.environ.items() if name != "HUCKLEPORT_SETUP"}, "PATH": folder, "LOG": log, **variables}
            ran = subprocess.run([sys.executable, os.path.join(HERE, "setup")], env=environment, stdout=subprocess.PIPE, text=True, check=False)
            calls = []
            if os.path.exists(log):
                with open(log, encoding="utf-8") as file:
                    calls = file.read().split("\n")
        self.assertEqual(ran.returncode, 0)
        return ran.stdout, calls

    def test_off(self):
        said, calls = self.run_with(["apt-get", "apt-cache"], HUCKLEPORT_SETUP="off")
        self.assertIn("setup: nothing is installed: HUCKLEPORT_SETUP is off\n", said)
        self.assertIn("setup: no valgrind (Debian: valgrind), for runs that watch memory\n", said)
        self.assertEqual(calls, [])

    def test_no_apt(self):
        said, _ = self.run_with([])
        self.assertIn("setup: nothing is installed: there is no apt-get\n", said)

    @unittest.skipIf(os.geteuid(), "only root installs")
    def test_no_network(self):
        said, calls = self.run_with(["apt-get", "apt-cache"], status=100)
        self.assertIn("setup: nothing is installed: apt-get update failed", said)
        self.assertEqual(len([it for it in calls if it]), 1)

    @unittest.skipIf(os.geteuid(), "only root installs")
    def test_installs_what_is_missing_at_once(self):
        _, calls = self.run_with(["apt-get", "apt-cache", "valgrind"])
        installs = [it for it in calls if " install " in it]
        self.assertEqual(len(installs), 1)
        self.assertIn(" shellcheck", installs[0])
        self.assertNotIn(" valgrind", installs[0])
        self.assertIn("--no-remove", installs[0])

    def test_nothing_is_asked_where_all_is_there(self):
        setup = script("setup")
        setup.TOOLS = [it for it in setup.TOOLS if it not in setup.missing()]
        setup.apt = setup.install = lambda *_: self.fail("apt was asked")
        sys.argv = ["setup"]
        self.assertEqual(setup.main(), 0)


class Gathered(unittest.TestCase):
    def said(self, program):
        ran = subprocess.run([sys.executable, os.path.join(HERE, "gathered.py"), "sh", "-c", program], stdout=subprocess.PIPE, text=True, check=False)
        return ran.returncode, ran.stdout.split("\n")

    def test_list_stands_ahead_of_the_last_line(self):
        status, lines = self.said("echo 'left out: a, since there is no b'; echo 'left out: c, since there is no b'; echo '3 passed, 0 failed'; exit 3")
        due = ["left out, by the reason:", "  there is no b: a; c", "3 passed, 0 failed", ""]
        self.assertEqual((status, lines[2:]), (3, due))

    def test_nothing(self):
        self.assertEqual(self.said("echo 1 passed, 0 failed"), (0, ["nothing was left out", "1 passed, 0 failed", ""]))

    def test_forms(self):
        forms = {
            "left out: the types, since there is no mypy": ("the types", "there is no mypy"),
            "left out: jsdom: there is no jsdom": ("jsdom", "there is no jsdom"),
            "left out: Python 3.8, which is not here": ("Python 3.8", "not here"),
            "  ﹣ pages of XML (0.12ms) # saxes is not installed": ("pages of XML", "saxes is not installed"),
            "test_a (x.Y.test_a) ... skipped 'left out, since there is no pip'": ("test_a (x.Y.test_a)", "there is no pip"),
            "12 dialogues, 0 faults": None,
        }
        self.assertEqual({it: gathered.left_out(it) for it in forms}, forms)


class Beside(unittest.TestCase):
    def test_what_passed_over_the_same_files_is_not_run_again(self):
        test, build = beside.Task("a test", ()), beside.Task("a build", (), is_build=True)
        with tempfile.TemporaryDirectory() as room:
            path = os.path.join(room, "out", "passed.json")
            kept = beside.Passed(path, "the sum")
            self.assertIsNone(kept.said(test))
            for it in (test, build):
                kept.keep(it, "3 passed, 0 failed\n")
            same, other, anew = (beside.Passed(path, *given) for given in (("the sum",), ("another",), ("the sum", True)))
            self.assertEqual(same.said(test), "3 passed, 0 failed\n")
            self.assertEqual([it.said(test) for it in (other, anew)], [None, None])
            self.assertIsNone(same.said(build))
            # (if git lists no files, there is no sum, and nothing is kept)
            beside.Passed(path, None, True).keep(test, "1 passed, 0 failed\n")
            self.assertEqual(beside.Passed(path, "the sum").said(test), "3 passed, 0 failed\n")


class Pages(unittest.TestCase):
    def test_readers_have_no_more_than_so_many_words(self):
        """README, and all pages together; a new page takes the place of others' words."""
        words = {}
        for it in ("README.md", *glob.glob("docs/*.md", root_dir=printed.ROOT)):
            with open(os.path.join(printed.ROOT, it), encoding="utf-8") as file:
                words[it] = len(file.read().split())
        self.assertLessEqual(words["README.md"], 900)
        self.assertLessEqual(sum(words.values()), 27000)


    def said(self, *given):
        """Returns the status of tools/docs.py with these words, and its lines."""
        out = io.StringIO()
        with mock.patch.object(sys, "argv", ["docs.py", *given]), redirect_stdout(out):
            return docs.main(), out.getvalue().splitlines()

    def test_every_part_passes(self):
        status, lines = self.said("check")
        self.assertEqual((status, [it.partition(":")[0] for it in lines]), (0, [*docs.PARTS]))

    def test_a_fault_is_reported_and_fails(self):
        with mock.patch.object(links, "check", lambda: (["docs/costs.md:3: a fault"], "all is there")):
            self.assertEqual(self.said("check", "links"), (1, ["docs/costs.md:3: a fault", "links: 1 wrong"]))

    def test_only_parts_out_of_date_are_written_unless_named(self):
        written = []
        for name, (module, _) in docs.PARTS.items():
            faults = ["a fault"] if name == "commands" else []
            for its, found in (("check", lambda faults=faults: (faults, "passes")), ("write", lambda name=name: written.append(name))):
                if hasattr(module, its):
                    patched = mock.patch.object(module, its, found)
                    patched.start()
                    self.addCleanup(patched.stop)
        self.assertEqual(self.said("write")[0], 1)
        self.assertEqual(written, ["commands"])
        self.assertEqual(self.said("write", "layers", "quoted"), (0, ["layers: passes", "quoted: passes"]))
        self.assertEqual(written, ["commands", "layers", "quoted"])

    def test_an_unknown_part_is_refused(self):
        for given, known in ((("check", "costs"), "layers, links"), (("write", "links"), "layers, commands")):
            with mock.patch.object(sys, "stderr", io.StringIO()) as err, self.assertRaises(SystemExit):
                self.said(*given)
            self.assertIn(f"{given[0]} has no part {given[1]}: it knows {known}", err.getvalue())

    def test_a_fault_of_a_page_has_its_line(self):
        with tempfile.TemporaryDirectory() as top:
            with open(f"{top}/page.md", "w", encoding="utf-8") as file:
                file.write("# A\n\n```sh\nwhat is\n```\n\n- One.\n- It shows what is lent, [there](none.md).\n\n" + "word " * 36 + "\n")
            with mock.patch.object(words, "ROOT", top), mock.patch.object(links, "ROOT", top):
                found = [*words.faults_of_page("page.md"), *links.wrongs("page.md", set(), set())]
        self.assertEqual([it.partition(" ")[0] for it in found], ["page.md:8:", "page.md:10:", "page.md:8:"])

    def test_the_index_names_each_file_of_definitions_once(self):
        page = "# A\n\n## 1. One: `One`\n\n`Here`, `Twice`: `One/Twice`.\n\nLaws: `Here`, `Law`.\n\n## 2. Laws: `Two`\n\n`Late`, `Here`.\n"
        paths = [f"{links.MODEL}/{it}.antt" for it in ("specs/One/Here", "specs/One/Twice", "specs/Two/Late", "specs/One", "proofs/One/Law", "proofs/Two/None")]
        found = [it.partition(links.MODEL)[2] for it in links.faults_of_index(page, paths)]
        due = ["/specs/One/Twice.antt 2 times", "/specs/Two/Late.antt 0 times", "/proofs/Two/None.antt"]
        self.assertEqual([it.partition(" ahead")[0] for it in found], due)

    def test_the_picture_of_the_layers_has_each_crate_and_its_words(self):
        self.assertEqual(layers.check()[0], [])
        with mock.patch.dict(layers.SAYS, {"dom_c": "other words"}):
            self.assertIn("it has other words for dom_c than SAYS of tools/layers.py: run python3 tools/docs.py write layers", layers.check()[0][0])


class Charts(unittest.TestCase):
    PAGE = "# A page\n\n## Lines\n\n| scene | ours | theirs |\n|---|---|---|\n| one & two | 1,200 | 40 |\n| `three` | 7 | 900 |\n\n## Else\n\nOf 83,000 and 2.9.14\n"

    def test_a_bar_for_each_number(self):
        found = charts.drawn(charts.Chart("a.svg", "A title", "Lines"), self.PAGE)
        self.assertEqual(charts.table_of(self.PAGE, "Lines"), (["ours", "theirs"], [("one & two", [1200, 40]), ("three", [7, 900])]))
        self.assertIn('aria-label="A title. one &amp; two: ours 1,200, theirs 40; three: ours 7, theirs 900"', found)
        widths = {it.partition('"')[0] for it in found.split(' width="')[1:] if "height=\"11\"" in it}
        self.assertEqual(len(widths), 4)
        self.assertRaisesRegex(ValueError, "there is no table below 'Words'", charts.table_of, self.PAGE, "Words")

    def test_the_grid_has_at_most_six_lines(self):
        for most in (10, 99, 2499, 2500, 5171, 838000, 999999, 1000000):
            self.assertIn(most // charts.step_of(most), range(2, 6), most)

    def test_a_figure_that_the_page_lacks_is_reported(self):
        readme = "# A page\n\n## Beside others\n\nIt makes 83,000, libxml2 2.9 3,000 ([a page](docs/costs9.md)), 83,000.\n\n## Else 5\n"
        self.assertEqual(charts.unknown_figures(readme, self.PAGE), ["3,000"])
        self.assertRaisesRegex(ValueError, "README.md: there are no figures below 'Beside others'", charts.unknown_figures, "# A page\n", self.PAGE)


class Threads(unittest.TestCase):
    """How many threads a proof gets, of four processors."""

    def run_of(self, kind, sizes, free=64e9):
        """Returns a run over crates of these sizes in bytes. Only `top` depends on others."""
        run = kind.__new__(kind)
        run.rt = types.SimpleNamespace(processors=lambda: 4, free=lambda: free, need=lambda crate: 1e9)
        low = {name: types.SimpleNamespace(name=name, below=lambda: [], is_program=False, is_static=False) for name in sizes}
        top = types.SimpleNamespace(name="top", below=lambda: [*low.values()], is_program=False, is_static=False)
        run.crates, run.sizes, run.proved, run.turns = {**low, "top": top}, dict(sizes), set(), gate.Turns(4)
        return run

    def threads(self, run, name, jobs=1):
        return run.threads(run.crates[name], jobs)

    def test_a_share_by_the_text_of_what_is_ready(self):
        for kind in (start.Start, gate.Gate):
            run = self.run_of(kind, {"long": 900, "short": 100})
            self.assertEqual([self.threads(run, it) for it in ("long", "short")], [4, 1])
            run.proved = {"long"}
            self.assertEqual(self.threads(run, "short"), 4)

    def test_as_many_as_memory_holds(self):
        self.assertEqual(self.threads(self.run_of(start.Start, {"long": 900}, free=1e9), "long"), 2)
        self.assertEqual(self.threads(self.run_of(start.Start, {"long": 900}, free=1e9), "long", jobs=3), 3)

    def test_fewer_beside_tests_or_edits(self):
        run = self.run_of(gate.Gate, {"long": 900})
        with run.turns.other(1):
            self.assertEqual(self.threads(run, "long"), 2)
        self.assertEqual(self.threads(run, "long"), 4)

    def test_the_longest_that_waits_goes_first(self):
        turns, began = gate.Turns(1), []

        def take(lines):
            with turns.other(lines):
                began.append(lines)

        others = [threading.Thread(target=take, args=(it,)) for it in (2, 3, 1, 3)]
        with turns.other(0):
            for it in others:
                it.start()
            while len(turns.waiting) < len(others):
                time.sleep(0.01)
        for it in others:
            it.join()
        self.assertEqual(began, [3, 3, 2, 1])


class Rows(unittest.TestCase):
    @unittest.skipUnless(shutil.which("rt"), "left out, since there is no rt")
    def test_what_is_written_of_dialogues_is_as_they_give_it(self):
        ran = subprocess.run([sys.executable, os.path.join(HERE, "rows.py"), "--check"], capture_output=True, text=True, check=False)
        self.assertEqual((ran.returncode, ran.stdout), (0, "the files written from the dialogues are up to date\n"))


class Commands(unittest.TestCase):
    """The table of the commands, as the definitions and the page have it."""

    # The changes: the file, the old text, the new text, and words of the fault that is reported then.
    CHANGED = (
        (commands.TABLE, 'codes "remove")', 'codes "takeOut")', "the definitions have no remove"),
        (commands.TABLE, '"cloneNode") (a_number ∷ a_flag ∷ [])', '"cloneNode") (a_number ∷ [])', "cloneNode has 2 arguments, and 1 in the definitions"),
        (commands.TABLE, '"setData") (a_number ∷ a_text', '"setData") (a_number ∷ a_string', "setData has text, which the page does not describe as a_string"),
        (commands.PAGE, "| `insertBefore` parent node child? |", "| `insertBefore` parent node child |", "insertBefore has child, which is a_number_or_null"),
        (commands.PAGE, "| `remove` node | null |\n", "", "it has no row for remove, which the definitions have"),
        (commands.PAGE, "serves 83 commands", "serves 84 commands", "it says 84 commands"),
        (commands.PAGE, "Six more commands", "Five more commands", "it does not say: Six more commands"),
        (commands.LINE, 'codes "lastChild"', 'codes "finalChild"', "move has other names"),
    )

    def test_a_changed_row_is_told(self):
        given = commands.texts()
        self.assertEqual([*commands.wrongs(given)], [])
        for path, old, new, told in self.CHANGED:
            with self.subTest(new):
                self.assertEqual(given[path].count(old), 1)
                self.assertIn(told, "\n".join(commands.wrongs({**given, path: given[path].replace(old, new)})))

    def test_the_file_is_made_of_both(self):
        given = commands.texts()
        with open(os.path.join(commands.ROOT, commands.MADE), encoding="utf-8") as file:
            there = file.read()
        self.assertEqual(commands.made(given), there)
        for path, old, new in ((commands.PAGE, "| `length` node | number |", "| `length` node | count |"), (commands.TABLE, "λ (a : Arguments). Length", "λ (a : Arguments). Root")):
            with self.subTest(new):
                self.assertNotEqual(commands.made({**given, path: given[path].replace(old, new)}), there)


class Quoted(unittest.TestCase):
    """The code and the tables of calls on the pages CALLING.md."""

    PAGE = "crates/dom_units/CALLING.md"

    def faults(self, text):
        return "\n".join(quoted.wrongs(self.PAGE, text, quoted.texts(quoted.CALLERS)))

    def test_a_changed_table_is_reported_and_written(self):
        text = quoted.texts(self.PAGE)[self.PAGE]
        self.assertEqual(self.faults(text), "")
        for old, new in (("`slice`, ", ""), ("`slice`, ", "`slice`, `cut`, "), ("(src/lib.rt)", "(src/shift.rt)"), (quoted.HEAD, "")):
            with self.subTest(new):
                changed = text.replace(old, new, 1)
                self.assertIn("its table of calls is out of date", self.faults(changed))
                self.assertEqual(quoted.with_table(self.PAGE, changed), text)
        self.assertIn("it needs one line <!-- made by tools/docs.py -->", self.faults(text.replace(quoted.MARK, "")))

    def test_a_changed_caller_is_reported(self):
        text = quoted.texts(self.PAGE)[self.PAGE]
        self.assertIn("no file of crates/uses/src has the block", self.faults(text.replace("units.splice(0, 0, ", "units.splice(0, 1, ")))

    def test_calls_are_those_that_others_can_make(self):
        calls = lambda crate, file: quoted.calls_in(f"{quoted.ROOT}/crates/{crate}", file, quoted.offered(f"{quoted.ROOT}/crates/{crate}"))
        self.assertEqual(calls("dom_observe", "src/roster.rt"), [])
        self.assertEqual(calls("dom_pages", "src/cell.rt"), [("Cell", "vacant"), ("Cell", "of"), ("Cell", "item")])
        self.assertEqual(calls("dom_observe", "src/options.rt"), [("", "resolve_options"), ("Options", "try_clone")])
        self.assertIn(("laws", "observers_apart"), calls("dom_session", "src/laws.rt"))


class Promises(unittest.TestCase):
    """The clauses of docs/proved.md, with some of them changed."""

    CHANGED = (
        ("`delete_contents`: `left`;", "`delete_contents`: `lefts`;", "delete_contents has no clause lefts"),
        ("`range_text`: `between`;", "`range_texts`: `between`;", "there is no call or clause range_texts"),
        ("`run`: `passed`, `writer`", "`run`: `passed`, `labelled`", "run has no clause labelled"),
        ("each edit: `kept`, `markers`;", "each edit: `kept`, `marked`;", "the crate has no clause marked"),
    )

    def test_a_changed_clause_is_reported_at_its_line(self):
        text = promises.text_of_page()
        self.assertEqual([*promises.faults(text)], [])
        for old, new, told in self.CHANGED:
            with self.subTest(new):
                self.assertEqual(text.count(old), 1)
                line = text.count("\n", 0, text.index(old)) + 1
                self.assertEqual([*promises.faults(text.replace(old, new))], [f"docs/proved.md:{line}: {told}"])


class Printed(unittest.TestCase):
    def test_each_block_of_the_readme_is_saved_or_run(self):
        found = list(printed.blocks(os.path.join(printed.ROOT, "README.md")))
        with open(os.path.join(printed.ROOT, "README.md"), encoding="utf-8") as file:
            text = file.read()
        fences = text.count("\n```") // 2
        shown = sum(it.shown is not None for it in found)
        self.assertEqual(len(found) + shown, fences)
        self.assertEqual([it.script for it in found if not it.file and printed.reason(it.script)[0]], [])

    def test_a_block_is_compared(self):
        with tempfile.TemporaryDirectory() as folder:
            self.assertIsNone(printed.fault_of(printed.Block(None, "echo a\n", "a\n"), folder))
            self.assertIn("it wrote\na\n", printed.fault_of(printed.Block(None, "echo a\n", "b\n"), folder))
            self.assertIn("status 1", printed.fault_of(printed.Block(None, "false\n", None), folder))


class Left(unittest.TestCase):
    """How long is left of three parts on two processors."""

    def test_by_what_they_took(self):
        out = io.StringIO()
        it = progress.Progress("test", {"one": 100, "two": 60, "three": 40}, 2, out)
        self.assertEqual(it.left(), 100)
        it.begin("one")
        it.begin("two")
        self.assertAlmostEqual(it.left(), 100, delta=1)
        it.write()
        self.assertRegex(out.getvalue(), r"^test: \d+% after 0:0\d, about 1:(39|40) left: one, two\n$")
        it.end("one")
        it.end("two")
        self.assertAlmostEqual(it.left(), 40, delta=1)
        it.begin("three")
        it.end("three")
        self.assertEqual(it.left(), 0)

    def test_one_that_takes_longer_is_nearly_done(self):
        it = progress.Progress("test", {"one": 10}, 2, io.StringIO())
        it.begin("one")
        it.running["one"] -= 500
        self.assertAlmostEqual(it.left(), 1)

    def test_figures_that_are_kept(self):
        with tempfile.TemporaryDirectory() as room:
            path = os.path.join(room, "out", "seconds.json")
            progress.Figures(path).keep("one", 12.34)
            self.assertEqual(progress.Figures(path).of, {"one": 12.3})
            with open(path, "w", encoding="utf-8") as file:
                file.write("[")
            self.assertEqual(progress.Figures(path).of, {})

    def test_a_clock(self):
        self.assertEqual([progress.clock(it) for it in (0, 61, 3600, 5400)], ["0:00", "1:01", "1:00 h", "1:30 h"])


if __name__ == "__main__":
    unittest.main(verbosity=2)
