#!/usr/bin/env python3
"""Tests the referee: its words, cores with wrong bodies, players that fail, and each installed player. It prints the tests that it leaves out.

Every player is played for a short time. Nothing new may come up: each difference has to be a known one.
"""
import argparse
import concurrent.futures
import html
import json
import os
import random
import re
import shlex
import shutil
import signal
import subprocess
import sys
import tempfile
import unittest
import unittest.mock
import xml.etree.ElementTree
from collections import Counter

HERE = os.path.dirname(os.path.abspath(__file__))
sys.dont_write_bytecode = True
sys.path[:0] = [HERE, os.path.join(HERE, "tests")]

from judging import cli, pages, players
from judging.causes import CAUSES
from judging.commands import ASKS, COMMANDS, FORMS_IN, MAKES, TABLE, kind_of
from judging.core import Cores, Turn
from judging.drawing import Scene
from judging.found import cases_of
from judging.hanging import DRAWN, SECONDS, Hanging
from judging.issues import REPORTS, faults_of
from judging.judge import Judge
from judging.known import KNOWN, entry_of_case, read_known
from wrong import FAULTS

REFEREE = os.path.join(HERE, "referee")
WRONG = os.path.join(HERE, "tests/wrong.py")
STUB = os.path.join(HERE, "tests/stub.js")
GIVEN = argparse.Namespace(program=cli.PROGRAM, library=players.LIBRARY)
FAILING = {"dies": "died", "hangs": "hung", "prints_rubbish": "rubbish"}
OF_C = ("c-lines", "c-calls")
LIBRARIES = (*OF_C, "python", "rust", "javascript")
OTHERS = ("minidom", "lxml", "libxml2", "domino", "xmldom", "chromium", "firefox")
# A stream that was seen to show a wrong body, which saves the time of drawing those before it. Others show it too.
FIRST = {"transient_counts": 237}
# The known differences that a wrong body is, if a player has the same.
KNOWN_AS = {
    "surround_half_done": {"surround all or nothing"},
    "child_ahead_of_ancestor": {"minidom: asks no ancestors and no Documents", "libxml2: no checks", "xmldom: where a node may stand",
        "chromium: a Document into itself"},
    "doctype_may_follow": {"minidom: asks no ancestors and no Documents", "libxml2: no checks", "xmldom: where a node may stand"},
    "ends_sent_into_parent": {"jsdom: ends at insertion"},
    "replaced_without_transients": {"jsdom: transients"},
}
# The findings that a run over jsdom 20.0.3 must have: known differences, and commands that they come from.
OF_JSDOM = {("jsdom: ends at insertion", "splitText"), ("jsdom: ends in joined Texts", "normalize"), ("jsdom: transients", None), ("jsdom: filters", None)}
SIDE_BY_SIDE = os.cpu_count() or 1


def said(*words, limit=300):
    """Returns the status of the referee, and its output and errors."""
    done = subprocess.run([sys.executable, REFEREE, *words], stdout=subprocess.PIPE, stderr=subprocess.PIPE, text=True, timeout=limit, check=False)
    return done.returncode, done.stdout, done.stderr


def lines(path, commands):
    with open(path, "w", encoding="utf-8") as file:
        file.writelines(json.dumps(it) + "\n" for it in commands)


def core():
    """Returns the words for the core: the library if it is built, since it is quicker, or else the program."""
    made = os.path.join(GIVEN.library, "libhuckleport.so")
    return ["--library", GIVEN.library, "--program", made if os.path.exists(made) else GIVEN.program]


def wrong(*faults):
    """Returns the words of a core with wrong bodies."""
    return shlex.join([sys.executable, WRONG, core()[-1], *faults])


def side_by_side(function, names):
    """Returns a function's result for each name."""
    with concurrent.futures.ThreadPoolExecutor(SIDE_BY_SIDE) as pool:
        return dict(zip(names, pool.map(function, names)))


class Words(unittest.TestCase):
    def test_help(self):
        for part in ([], *([it] for it in cli.PARTS)):
            status, out, _ = said(*part, "--help")
            self.assertEqual(status, 0)
            self.assertIn("usage: referee", out)

    def test_unknown(self):
        for words in (["referee"], ["play", "--nothing"], ["play", "--group", "none"], ["exhaust", "--kind", "none"], ["play", "--weight", "none=1"], []):
            self.assertEqual(said(*words)[0], 2)

    def test_not_there(self):
        self.assertEqual(said("play", "--player", "nobody", "--program", GIVEN.program)[0], 3)
        self.assertEqual(said("play", "--player", "program", "--program", "/nothing")[0], 3)


class Table(unittest.TestCase):
    """The referee's own tables of the commands of docs/commands.json."""

    def test_names(self):
        arguments = {(of, argument["name"]) for it in TABLE["commands"] for of in (it["group"], it["name"]) for argument in it["arguments"]}
        self.assertLessEqual(set(FORMS_IN), arguments)
        self.assertLessEqual({*ASKS, *" ".join(MAKES.values()).split()}, set(COMMANDS))

    def test_each_form_is_drawn(self):
        forms = {form.rstrip("?") for it in COMMANDS.values() for form in it.arguments}
        self.assertEqual({it for it in forms if not kind_of(it) and not hasattr(Scene, it)}, set())


class Run(unittest.TestCase):
    """The base of tests that need a run in a folder of its own."""

    def setUp(self):
        kept = tempfile.TemporaryDirectory()
        self.addCleanup(kept.cleanup)
        self.folder = kept.name

    def run_of(self, part, *words):
        return said(part, *core(), "--out", self.folder, "--quiet", *words)

    def cases(self):
        return cases_of(self.folder)[0]


class Lines(Run):
    """The line at which a player ends, and the lines that it is not given."""

    def lines_of(self, *commands):
        path = os.path.join(self.folder, "lines")
        lines(path, commands)
        return path

    @unittest.skipUnless(shutil.which("node"), "there is no node")
    def test_hang_at_its_line(self):
        path = self.lines_of(*[["createElement", 0, "a"]] * 43, ["createElement", 0, "stuck"], *[["createElement", 0, "a"]] * 9)
        status, out, err = said("replay", *core(), "--player", f"node:{STUB}", "--wait", "2", path)
        told = out.splitlines()
        self.assertEqual((status, len(told)), (1, 53), err)
        self.assertEqual([at for at, it in enumerate(told, 1) if '"hung"' in it], [44])
        self.assertNotIn("BUT", "".join(told[:43]))
        self.assertEqual(said("shrink", *core(), "--player", f"node:{STUB}", "--wait", "2", path)[1], '["createElement",0,"stuck"]\n')

    @unittest.skipUnless(shutil.which("node"), "there is no node")
    def test_difference_ahead_of_a_hang(self):
        path = self.lines_of(["createElement", 0, "odd"], ["node", 1], ["createElement", 0, "stuck"])
        status, out, err = said("shrink", *core(), "--player", f"node:{STUB}", "--wait", "2", path)
        self.assertEqual((status, out.splitlines()), (1, ['["createElement",0,"odd"]', '["node",1]']), err)

    def test_hang_of_a_page_at_its_line(self):
        with unittest.mock.patch.dict(pages.BROWSERS, {"stub": ((os.path.join(HERE, "tests/browser.py"),), [])}):
            page = pages.Page("stub", 2.0)
            self.addCleanup(page.end)
            turns = [Turn(["createElement", 0, "stuck" if at == 43 else "a"], {"ok": None}, [], [], 0) for at in range(60)]
            told = page.replies(turns)
        self.assertEqual((len(told), told[-1][0], told[-1][1]["fault"]), (44, 43, "hung"))

    @unittest.skipUnless(shutil.which("node"), "there is no node")
    def test_what_is_not_served(self):
        player = players.of_node(STUB)(argparse.Namespace(seconds=10.0))
        self.addCleanup(player.end)
        self.assertEqual(player.serves, {"newDocument", "createElement", "appendChild", "node", "children", "index", "length", "tree"})
        path = self.lines_of(["createElement", 0, "a"], ["createStaticRange", 1, 0, 1, 0], ["remove", 1], ["createRange", 0], ["createObserver"])
        status, out, err = said("replay", *core(), "--player", f"node:{STUB}", path)
        self.assertEqual((status, [it.count("skip") for it in out.splitlines()]), (0, [0, 1, 1, 1, 1]), err)

    @unittest.skipUnless(shutil.which("node"), "there is no node")
    def test_no_window(self):
        for module, why in ((os.path.join(HERE, "players/answers.js"), "no window"), ("no-such-module", "Cannot find module")):
            status, _, err = said("play", *core(), "--player", f"node:{module}", "--out", self.folder)
            self.assertEqual((status, why in err), (3, True), err)

    def test_done_in_part(self):
        """Only this project's own libraries are given lines behind a command that the standard does in part."""
        refused = Turn(["surroundContents", 0, 1], {"error": "HierarchyRequestError"}, [], [], 2)
        turns = [refused._replace(reply={"error": "InvalidStateError"}), refused, refused._replace(command=["range", 0], reply={"ok": [0, 0, 0, 0]})]
        player = players.Player()
        player.numbers = True
        self.assertEqual([at for at, _ in player.lines(turns)], [None, 0, 1])
        player.ours = True
        self.assertEqual([at for at, _ in player.lines(turns)], [None, 0, 1, 2])

    def test_cause_whatever_shows_it(self):
        """A known difference is known whichever command shows it."""
        made = [["createElement", 0, "a"], ["createText", 0, "abcd"], ["createText", 0, "xyz"], ["createComment", 0, "c"], ["appendChild", 1, 2]]
        ends = [["appendChild", 1, 3], ["createRange", 0], ["setEnd", 0, 2, 2], ["setStart", 0, 1, 0], ["insertBefore", 1, 4, 2]]
        shows = ([["range", 0]], [["rangeText", 0]], [["comparePoint", 0, 3, 0]], [["cloneContents", 0], ["textContent", 5]], [["deleteContents", 0], ["tree", 1]])
        for last in shows:
            with self.subTest(last):
                words = ["--command", wrong("ends_sent_into_parent"), "--player", "jsdom", self.lines_of(*made, *ends, *last)]
                status, _, err = said("shrink", *core(), *words)
                self.assertEqual((status, err.splitlines()[-1]), (1, "known: jsdom: ends at insertion (a fault of the player)"))

    def test_causes(self):
        self.assertEqual({it["cause"] for it in read_known(KNOWN)} | {"anything"}, set(CAUSES))

    def test_cargo_fails(self):
        """The message about a failed build in Rust has one line of the build's."""
        cargo = os.path.join(self.folder, "cargo")
        with open(cargo, "w", encoding="utf-8") as file:
            file.write("#!/bin/sh\necho warning: nothing >&2; echo 'error: there is no such crate' >&2; echo more >&2; exit 101\n")
        os.chmod(cargo, 0o755)
        with unittest.mock.patch.dict(os.environ, PATH=f"{self.folder}:/usr/bin:/bin"):
            status, out, err = said("play", *core(), "--player", "rust", "--out", self.folder)
        self.assertEqual((status, out, err), (3, "", "referee: cargo can't build the player in Rust: error: there is no such crate\n"))

    def test_known_hangs(self):
        """The referee waits a short time for the reply of a known hang, and draws its command seldom."""
        known = Hanging(["in its own place"])
        turns = [Turn(["createElement", 0, "a"], {"ok": 1}, [], [], 2), Turn(["insertBefore", 0, 1, 1], {"ok": 1}, [], [], 2), Turn(["appendChild", 0, 1], {"ok": 1}, [], [], 2)]
        self.assertEqual([known.seconds(it.command, it.reply, 10.0) for it in turns], [10.0, SECONDS, 10.0])
        self.assertEqual((known.fits(["replaceChild", 0, 1, 1]), known.fits(["replaceChild", 0, 1, 2]), Hanging().fits(["replaceChild", 0, 1, 1])), (True, False, False))
        refused = Hanging(["refused for its place"])
        self.assertEqual([refused.fits(["replaceChild", 0, 1, 2], it) for it in (None, {"ok": 1}, {"error": "HierarchyRequestError"})], [False, False, True])
        player = players.Player()
        drawn = {}
        for player.hanging in (Hanging(), known):
            with Cores(core()[-1]).open() as opened:
                scene = Scene(opened, random.Random("1"), player)
                scene.say("createElement", 0, "a")
                scene.say("appendChild", 0, 1)
                before = len(scene.turns)
                for _ in range(1000):
                    scene.say("insertBefore", 0, 1, 1)
                drawn[player.hanging] = len(scene.turns) - before
        self.assertEqual(drawn.pop(next(iter(drawn))), 1000)
        self.assertLess(drawn[known], 1000 * DRAWN * 4)


class Itself(Run):
    def test_program(self):
        for part, words in (("play", ["--lines", "5000"]), ("exhaust", ["--lines", "5000"])):
            status, out, err = said(part, "--program", GIVEN.program, "--out", self.folder, "--quiet", "--player", "program", *words)
            self.assertEqual((status, self.cases()), (0, []), out + err)

    def test_counts_in_words(self):
        """One stream is no "1 streams"."""
        _, out, err = self.run_of("play", "--player", "program", "--streams", "1")
        self.assertRegex(out, r": 1 stream, \d+ lines, [\d,]+ lines/s, 0 differ, 0 cases, 0 new; its streams were played\n$", err)


class Bodies(unittest.TestCase):
    """Each wrong body is found within a minute, by streams of the group that has its commands. The kept case is short, and no known difference."""

    @staticmethod
    def found(fault):
        with tempfile.TemporaryDirectory() as folder:
            drawn = ["--group", FAULTS[fault].group, "--first", str(FIRST.get(fault, 0)), "--length", "60"]
            waits = "1" if fault == "hangs" else "10"
            status, out, err = said("play", *core(), "--out", folder, "--quiet", "--command", wrong(fault), *drawn, "--new", "1", "--for", "60", "--wait", waits)
            return status, out + err, cases_of(folder)[0]

    def test_wrong_bodies(self):
        for fault, (status, told, cases) in side_by_side(self.found, FAULTS).items():
            with self.subTest(fault):
                self.assertEqual(status, 1, told)
                self.assertEqual(cases[0].key["told"], FAILING.get(fault, cases[0].key["told"]))
                self.assertLessEqual(len(cases[0].commands), 16, cases[0].commands)
                self.assertLessEqual(entries_of(cases[0]), KNOWN_AS.get(fault, set()))


def entries_of(case):
    """Returns the known differences that a case would be, whichever player it were of."""
    known = read_known(KNOWN)
    cores = Cores(core()[-1])
    names = {it for entry in known for it in entry["players"]}
    found = [entry_of_case(known, it, Judge(cores, None), case) for it in names]
    cores.end()
    return {it["name"] for it in found if it}


class Kept(Run):
    """The cases that a run keeps, and their uses."""

    @classmethod
    def setUpClass(cls):
        kept = tempfile.TemporaryDirectory()
        cls.addClassCleanup(kept.cleanup)
        cls.ran = kept.name
        words = ["--out", cls.ran, "--quiet", "--command", wrong("split_off_by_one"), "--player", "wrong", "--group", "data", "--new", "1", "--for", "60"]
        status, out, err = said("play", *core(), *words, "--junit", os.path.join(cls.ran, "junit.xml"))
        if status != 1:
            raise AssertionError(out + err)

    def setUp(self):
        super().setUp()
        shutil.copytree(self.ran, self.folder, dirs_exist_ok=True)
        self.junit = os.path.join(self.folder, "junit.xml")
        self.case = os.path.join(self.folder, "case-001.json")
        self.player = [*core(), "--command", wrong("split_off_by_one")]

    def test_junit(self):
        suite = xml.etree.ElementTree.parse(self.junit).getroot()[0]
        self.assertEqual((suite.get("failures"), len(suite.findall("testcase/failure"))), ("1", 1))

    def test_page(self):
        status, out, _ = said("report", self.folder)
        self.assertEqual(status, 0)
        with open(out.strip(), encoding="utf-8") as file:
            page = file.read()
        parts = ("<h2>New</h2>", ".splitText(", 'class="verdict"', "this core says", "https://dom.spec.whatwg.org/#concept-text-split", "<svg", "<h2>The run</h2>")
        self.assertEqual(sorted(parts, key=page.index), list(parts))
        # (so the first screen has the code, its output and the expected one)
        self.assertLess(page[: page.index('class="verdict"')].partition("<body>")[2].count("\n"), 30)

    def test_replay(self):
        status, out, _ = said("replay", *self.player, self.case)
        self.assertEqual(status, 1)
        self.assertIn("BUT", out.splitlines()[-1])
        self.assertEqual(said("replay", "--program", GIVEN.program, "--player", "program", self.case)[0], 0)

    def test_shrink(self):
        path = os.path.join(self.folder, "stream")
        more = [["createElement", 0, "a"], ["createText", 0, "abcd"], ["appendChild", 1, 2], ["createComment", 0, "c"], ["appendChild", 1, 3]]
        ranges = [["createRange", 0], ["setStart", 0, 2, 1], ["setEnd", 0, 2, 3], ["cloneNode", 1, True]]
        lines(path, more + ranges + [["splitText", 2, 2], ["tree", 1], ["range", 0]])
        status, out, err = said("shrink", *self.player, path)
        self.assertEqual(status, 1, err)
        self.assertLessEqual(len(out.splitlines()), 7)

    def test_known(self):
        known = os.path.join(self.folder, "known")
        with open(known, "w", encoding="utf-8") as file:
            json.dump([{"name": "split", "players": ["wrong"], "cause": "anything", "of": ["splitText"], "why": "fault", "reason": "It is made so."}], file)
        words = ["--command", wrong("split_off_by_one"), "--player", "wrong", "--group", "data", "--streams", "200", "--known", known]
        self.assertEqual(self.run_of("play", *words)[0], 0)
        self.assertEqual({it.known for it in self.cases()}, {"split"})
        self.assertEqual(said("report", self.folder, "--known", known)[0], 0)
        with open(os.path.join(self.folder, "report.html"), encoding="utf-8") as file:
            page = file.read()
        self.assertIn("1 fault, 0 new", page)
        self.assertIn("the standard says", page)

    def test_played_on(self):
        """A stream is compared to its end, behind differences too, and each line is counted once."""
        known = os.path.join(self.folder, "known")
        entries = [{"name": name, "players": ["wrong"], "cause": "anything", "of": [name], "why": why, "reason": "It is made so."}
            for name, why in (("splitText", "ours"), ("insertBefore", "fault"))]
        with open(known, "w", encoding="utf-8") as file:
            json.dump(entries, file)
        faults = wrong("split_off_by_one", "ends_sent_into_parent")
        drawn = ["--group", "texts", "--streams", "12", "--length", "60", "--weight", "insertBefore=20", "--known", known]
        self.run_of("play", "--command", faults, "--player", "wrong", *drawn)
        _, told = cases_of(self.folder)
        first, whole = told["up to the first difference"], told["compared by command"]
        self.assertEqual(sum(whole.values()), told["compared"])
        self.assertGreater(sum(whole.values()), sum(first.values()))
        self.assertLessEqual(Counter(first), Counter(whole))
        shown = told["streams by difference"]
        self.assertLessEqual({"splitText", "insertBefore"}, set(shown))
        self.assertLessEqual(max(shown.values()), told["differing streams"])
        said("report", self.folder, "--known", known)
        with open(os.path.join(self.folder, "report.html"), encoding="utf-8") as file:
            page = file.read()
        self.assertLess(page.index("<h3>insertBefore"), page.index("<h3>splitText"))
        fault, ours = page[page.index("<h3>insertBefore") :].split("<h3>splitText")
        self.assertEqual([("as it is due" in it, "the standard says" in it, "this core says" in it) for it in (fault, ours)], [(True, True, False), (False, False, True)])
        self.assertNotIn("is due", ours)

    def test_beside_known(self):
        """Another difference beside a known one is found, and the known one stays known."""
        drawn = ["--group", "texts", "--streams", "12", "--length", "60", "--weight", "insertBefore=20", "--weight", "splitText=3"]
        words = ["--command", wrong("ends_sent_into_parent", "split_off_by_one"), "--player", "jsdom", *drawn]
        self.assertEqual(self.run_of("play", *words)[0], 1)
        told = {(it.known, it.key["cause"]) for it in self.cases()}
        self.assertLessEqual({("jsdom: ends at insertion", "insertBefore"), (None, "splitText")}, told)

    def test_what_does_not_come_again(self):
        words = ["--command", wrong("stumbles"), "--group", "data", "--new", "1", "--for", "60"]
        self.assertEqual(self.run_of("play", *words)[0], 1)
        self.assertEqual([(it.again, it.known) for it in self.cases()], [(False, None)])
        with open(said("report", self.folder)[1].strip(), encoding="utf-8") as file:
            self.assertIn("did not come again", file.read())
        status, _, err = said("replay", *core(), "--player", "program", self.case)
        self.assertEqual((status, "did not come again" in err), (0, True))

    def test_nameless_cause(self):
        known = os.path.join(self.folder, "known")
        with open(known, "w", encoding="utf-8") as file:
            json.dump([{"name": "it", "players": ["wrong"], "cause": "it rains", "why": "fault", "reason": "It is made so."}], file)
        self.assertEqual(self.run_of("play", "--player", "program", "--streams", "1", "--known", known)[0], 2)

    def test_stop(self):
        words = ["play", *core(), "--command", wrong("split_off_by_one"), "--out", self.folder, "--group", "data"]
        process = subprocess.Popen([sys.executable, REFEREE, *words], stdout=subprocess.PIPE, stderr=subprocess.PIPE, text=True)
        for line in process.stderr:
            if line.startswith("new"):
                break
        process.send_signal(signal.SIGINT)
        out, _ = process.communicate(timeout=60)
        self.assertEqual(process.returncode, 1)
        self.assertIn("it was stopped", out)
        self.assertTrue(self.cases())


class Players(unittest.TestCase):
    """Short runs over the installed players, side by side. Nothing new may come up."""

    @staticmethod
    def short(name):
        words = ["--lines", "3000"] if name in LIBRARIES else ["--streams", "9", "--for", "10", "--wait", "2", "--seed", "21"]
        with tempfile.TemporaryDirectory() as folder:
            status, out, err = said("play", *core(), "--out", folder, "--quiet", "--player", name, *words)
            return status, out + err, [it.commands for it in cases_of(folder)[0] if it.known is None]

    def test_players(self):
        libraries = LIBRARIES if os.path.exists(os.path.join(GIVEN.library, "libhuckleport.so")) else ()
        for name, (status, told, new) in side_by_side(self.short, [*OTHERS, *libraries]).items():
            with self.subTest(name):
                if status == 3 and name not in OF_C:
                    print(f"left out: {name}: {told.strip()}")
                else:
                    self.assertEqual((status, new), (0, []), told)

    def test_jsdom(self):
        """The faults of jsdom are found, each by ten commands or fewer, and are on the page."""
        with tempfile.TemporaryDirectory() as folder:
            drawn = [word for it in ("texts", "observers", "observers", "traversal") for word in ("--group", it)]
            status, out, err = said("play", *core(), "--out", folder, "--quiet", "--player", "jsdom", *drawn, "--seed", "21", "--streams", "48", "--for", "240")
            cases, told = cases_of(folder)
            if status == 3 or told["version"] != "20.0.3":
                print(f"left out: jsdom: {(out + err).strip()}")
                return
            self.assertEqual((status, [it.commands for it in cases if it.known is None]), (0, []), out + err)
            found = {(it.known, cause) for it in cases for cause in (it.key["cause"], None) if len(it.commands) <= 10}
            self.assertLessEqual(OF_JSDOM, found)
            said("report", folder)
            with open(os.path.join(folder, "report.html"), encoding="utf-8") as file:
                page = file.read()
            self.assertEqual([it for it, _ in OF_JSDOM if f"<h3>{it}: " not in page], [])
            self.assertLess(page.index("<h2>Faults"), page.index("<h2>No faults"))
            self.assertGreater(told["compared with a filter"], 100)
            self.prints_what_it_says(page)

    def prints_what_it_says(self, page):
        """Checks that the scripts of a page for node print the output that the page shows below them."""
        codes = [html.unescape(it) for it in re.findall(r'<pre class="code">(.*?)</pre>', page, re.DOTALL)]
        told = [html.unescape(it) for it in re.findall(r'<p class="verdict">It prints <code>(.*?)</code>', page)]
        environment = {**os.environ, "NODE_PATH": players.modules_of_node()}
        done = subprocess.run(["node", Reports.BLOCKS], input=json.dumps(codes), env=environment, stdout=subprocess.PIPE, text=True, timeout=300, check=True)
        self.assertGreater(len(codes), 5)
        for code, printed, due in zip(codes, json.loads(done.stdout), told, strict=True):
            with self.subTest(code):
                self.assertEqual((printed or ["nothing"])[-1], due)


class Reports(unittest.TestCase):
    """The code of the reports prints what they say, if node finds the package that a report is about in its version."""

    IN_NODE = {"jsdom": "jsdom", "domino": "domino", "xmldom": "@xmldom/xmldom"}
    BLOCKS = os.path.join(HERE, "tests/blocks.js")

    def report(self, name, language="js"):
        """Returns the title of a report, and each block of code but the first, with the first ahead of it."""
        with open(os.path.join(HERE, "reports", f"{name}.md"), encoding="utf-8") as file:
            text = file.read()
        first, *blocks = re.findall(rf"```{language}\n(.*?)```", text, re.DOTALL)
        return text.splitlines()[0], [first + it for it in blocks]

    def check(self, blocks, told, other=" in Firefox"):
        """Checks that each line prints the output in its comment, or the expected one if that output is another player's."""
        for block, printed in zip(blocks, told, strict=True):
            said_to = re.findall(r"(?://|#) prints (.*?)(?:, due is (.*))?$", block, re.MULTILINE)
            with self.subTest(block.splitlines()[-1]):
                self.assertEqual(printed, [due if it.endswith(other) else it.removesuffix(" in Chromium") for it, due in said_to])

    def in_node(self, blocks, seconds=300):
        environment = {**os.environ, "NODE_PATH": players.modules_of_node()}
        words = ["node", "--max-old-space-size=200", self.BLOCKS]
        return json.loads(subprocess.run(words, input=json.dumps(blocks), env=environment, stdout=subprocess.PIPE, text=True, timeout=seconds, check=True).stdout)

    def version_of(self, module):
        """The version of a package as node finds it; None if there is none."""
        if not shutil.which("node"):
            return None
        environment = {**os.environ, "NODE_PATH": players.modules_of_node()}
        words = ["node", "-p", f"require({json.dumps(module + '/package.json')}).version"]
        return subprocess.run(words, env=environment, stdout=subprocess.PIPE, stderr=subprocess.DEVNULL, text=True, check=False).stdout.strip() or None

    def test_issues(self):
        """Each fault of a report is a text by itself, whose script begins with the report's first code."""
        for name in REPORTS:
            with open(os.path.join(HERE, "reports", f"{name}.md"), encoding="utf-8") as file:
                opening = re.search(r"```\w+\n(.*?)```", file.read(), re.DOTALL)[1]
            for number, fault in enumerate(faults_of(name), 1):
                status, out, _ = said("issue", name, str(number))
                self.assertEqual((status, out.splitlines()[0], opening in out, out.count("```")), (0, fault.title, True, 2))
        self.assertIn("A filter is never asked", said("issue", "jsdom")[1])
        self.assertEqual((said("issue", "jsdom", "99")[0], said("issue", "nothing")[0]), (2, 2))
        self.assertFalse([it.title for name in REPORTS for it in faults_of(name) if "Names" in it.title or "missing attribute" in it.title])

    def in_python(self, block, seconds=300):
        return subprocess.run(["/usr/bin/python3", "-c", block], stdout=subprocess.PIPE, text=True, timeout=seconds, check=True).stdout.splitlines()

    def never_comes_back(self, call, block):
        """Checks that a block has to be ended from outside: after some seconds, or when it takes more memory than it may."""
        with self.subTest(block.splitlines()[-1]):
            with self.assertRaises((subprocess.TimeoutExpired, subprocess.CalledProcessError)) as ended:
                call(block)
            self.assertIn(getattr(ended.exception, "returncode", -signal.SIGABRT), [-signal.SIGABRT])

    def test_in_node(self):
        for name, module in self.IN_NODE.items():
            title, blocks = self.report(name)
            if self.version_of(module) not in title.split():
                print(f"left out: the report of {name}, whose version is not here")
                continue
            ending = [it for it in blocks if "never comes back" not in it]
            self.check(ending, self.in_node(ending))
            for it in set(blocks) - set(ending):
                self.never_comes_back(lambda block: self.in_node([block], 4), it)

    def test_in_chromium(self):
        title, blocks = self.report("browsers")
        path = next(filter(None, map(shutil.which, pages.BROWSERS["chromium"][0])), None)
        if not path or pages.version_of(path) not in title + open(os.path.join(HERE, "reports/browsers.md"), encoding="utf-8").read():
            print("left out: the report of browsers, whose version is not here")
            return
        with tempfile.TemporaryDirectory() as folder, open(self.BLOCKS, encoding="utf-8") as file:
            script = f"{file.read()} Promise.all({json.dumps(blocks)}.map((it) => printed(it))).then((told) => (document.body.textContent = JSON.stringify(told)));"
            page = os.path.join(folder, "page.html")
            with open(page, "w", encoding="utf-8") as out:
                out.write(f'<!doctype html><meta charset="utf-8"><body><script>{script.replace("</", "<" + chr(92) + "/")}</script></body>')
            words = [path, "--headless", "--no-sandbox", "--disable-gpu", f"--user-data-dir={folder}/profile", "--virtual-time-budget=2000", "--dump-dom", f"file://{page}"]
            shown = subprocess.run(words, stdout=subprocess.PIPE, stderr=subprocess.DEVNULL, text=True, timeout=300, check=True).stdout
        self.check(blocks, json.loads(html.unescape(re.search(r"<body>(.*)</body>", shown, re.DOTALL)[1])))

    @unittest.skipUnless(os.path.exists("/usr/bin/python3"), "there is no Python of the system")
    def test_in_python(self):
        _, blocks = self.report("python", "python")
        lacks_lxml = subprocess.run(["/usr/bin/python3", "-c", "import lxml"], stderr=subprocess.DEVNULL, check=False).returncode
        for it in blocks:
            if "lxml" in it and lacks_lxml:
                print("left out: the report of lxml, which is not here")
                continue
            if "never comes back" in it:
                self.never_comes_back(lambda block: self.in_python(block, 4), it)
            else:
                self.check([it], [self.in_python(it)])


def main():
    words = argparse.ArgumentParser(description=__doc__, formatter_class=argparse.RawDescriptionHelpFormatter)
    words.add_argument("--program", default=GIVEN.program, help="the program (crates/domserve/out/domserve)")
    words.add_argument("--library", default=GIVEN.library, metavar="FOLDER", help="the folder of libhuckleport.so (bindings/c/out)")
    words.add_argument("only", nargs="*", metavar="NAME", help="only these tests, as unittest names them")
    given = words.parse_args()
    GIVEN.program, GIVEN.library = os.path.abspath(given.program), os.path.abspath(given.library)
    if not os.access(GIVEN.program, os.X_OK):
        print(f"left out: the referee, since {given.program} is not built\n0 passed, 0 failed")
        return 0
    names = given.only or [it.__name__ for it in (Words, Table, Lines, Itself, Kept, Bodies, Players, Reports)]
    found = unittest.defaultTestLoader.loadTestsFromNames(names, sys.modules[__name__])
    ran = unittest.TextTestRunner(verbosity=1).run(found)
    wrong_ones = len({getattr(test, "test_case", test).id() for test, _ in [*ran.failures, *ran.errors]})
    print(f"{ran.testsRun - wrong_ones} passed, {wrong_ones} failed")
    return 0 if ran.wasSuccessful() else 1


if __name__ == "__main__":
    sys.exit(main())
