#!/usr/bin/env python3
"""Commands per second of the built program, beside the same lines through Python's json alone.

For each size N it plays four streams. Each prints its tree once at the end:

- N nodes under the document's element, front to back
- N nodes at random places
- a chain of N elements from above: each new one is appended to the one before it
- a chain of N elements from below: the chain so far is appended to each new one

Then it plays scenes in a tree of N nodes at random places (10,000 without --nodes):

- Texts are removed, and inserted at random places, without ranges and observers
- the same with 1,000 live ranges in another part of the tree
- the same with one observer of the root and its subtree, whose records are taken after each 1,000 commands
- an iterator and a walker step through the tree

The commands that make a scene are not counted, and their time is subtracted. Each time is the least of --times runs. If a scene's commands are not
served, its line says so.

The program reads the stream from a file and writes its replies to a file. Python's json reads each line and prints a value of the reply's shape, with no
tree at all. If they are installed, two others answer the same lines by their own DOM, as the referee's players do (players/answers.js):

- jsdom (by node; Debian's node-jsdom), from a file to a file
- Chromium (Debian's chromium-headless-shell, or chromium), within a page

Their replies must be the program's, byte for byte. Each ratio is the program's commands per second over theirs, or "-" if one gives up.
"""

import html
import json
import os
import random
import re
import shutil
import subprocess
import sys
import tempfile
import time

sys.path.insert(0, os.path.join(os.path.dirname(os.path.dirname(os.path.abspath(__file__))), "tools"))
from running import ROOT, content, words_of

PLAYERS = os.path.join(ROOT, "referee/players")
# Answers all lines at once within a page, which then shows how long that took, and the replies.
PAGE = """<!doctype html><meta charset="utf-8"><body><script type="text/plain" id="lines">LINES</script><script>ANSWERS</script><script>
const lines = document.getElementById("lines").textContent.trimEnd().split("\\n").filter(Boolean);
const answer = answering(() => window, {});
const start = performance.now();
const replies = lines.map((line) => JSON.stringify(answer(line)) + "\\n").join("");
document.body.textContent = JSON.stringify({ seconds: (performance.now() - start) / 1000, replies });
</script></body>"""
# The folder of Debian's node-jsdom.
MODULES = "/usr/share/nodejs"


def front_to_back(count):
    yield ["createElement", 0, "root"]
    yield ["appendChild", 0, 1]
    for number in range(2, count + 2):
        yield ["createElement", 0, "item"] if number % 2 else ["createText", 0, "some text"]
        yield ["appendChild", 1, number]
    yield ["tree", 0]


def at_random(count):
    chance = random.Random(1)
    parents = [1]
    yield ["createElement", 0, "root"]
    yield ["appendChild", 0, 1]
    for number in range(2, count + 2):
        is_element = chance.random() < 0.5
        yield ["createElement", 0, "item"] if is_element else ["createText", 0, "some text"]
        yield ["appendChild", chance.choice(parents), number]
        if is_element:
            parents.append(number)
    yield ["tree", 0]


def from_above(count):
    for number in range(1, count + 1):
        yield ["createElement", 0, "item"]
        yield ["appendChild", number - 1, number]
    yield ["tree", 0]


def from_below(count):
    yield ["createElement", 0, "item"]
    for number in range(2, count + 1):
        yield ["createElement", 0, "item"]
        yield ["appendChild", number, number - 1]
    yield ["appendChild", 0, count]
    yield ["tree", 0]


class Page:
    """A tree of nodes at random places, whose Texts are moved. `commands` make it."""

    def __init__(self, count):
        self.chance = random.Random(1)
        self.commands = [["createElement", 0, "root"], ["appendChild", 0, 1]]
        self.children = {1: []}
        self.elements = [1]
        self.texts = []
        self.parents = {}
        for number in range(2, count + 2):
            is_element = self.chance.random() < 0.5
            parent = self.chance.choice(self.elements)
            self.commands.append(["createElement", 0, "item"] if is_element else ["createText", 0, "some text"])
            self.commands.append(["appendChild", parent, number])
            self.children[parent].append(number)
            self.parents[number] = parent
            if is_element:
                self.elements.append(number)
                self.children[number] = []
            else:
                self.texts.append(number)
        self.made = count + 2

    def edit(self):
        """Yields the commands that remove a Text and insert it before a child of some element, or at its end."""
        text = self.chance.choice(self.texts)
        self.children[self.parents[text]].remove(text)
        parent = self.chance.choice(self.elements)
        siblings = self.children[parent]
        at = self.chance.randint(0, len(siblings))
        yield ["remove", text]
        yield ["insertBefore", parent, text, siblings[at] if at < len(siblings) else None]
        siblings.insert(at, text)
        self.parents[text] = parent


def edits(count):
    page = Page(count)
    return page.commands, [command for _ in range(count) for command in page.edit()]


def edits_beside_ranges(count):
    page = Page(count)
    aside, text = page.made, page.made + 1
    page.commands += [["createElement", 0, "aside"], ["appendChild", 1, aside]]
    page.commands += [["createText", 0, "a" * 2000], ["appendChild", aside, text]]
    for number in range(1000):
        page.commands += [["createRange", 0], ["setStart", number, text, number], ["setEnd", number, text, 2 * number]]
    return page.commands, [command for _ in range(count) for command in page.edit()]


def edits_observed(count):
    page = Page(count)
    page.commands += [["createObserver"], ["observe", 0, 1, {"childList": True, "subtree": True}]]
    commands = []
    for number in range(count):
        commands += page.edit()
        if number % 500 == 499:
            commands.append(["takeRecords", 0])
    return page.commands, commands


def iterator_steps(count):
    return Page(count).commands + [["createIterator", 1, 4294967295, []]], [["nextNode", 0]] * count


def walker_steps(count):
    return Page(count).commands + [["createWalker", 1, 4294967295, []]], [["walk", 0, "nextNode"]] * count


STREAMS = (
    ("front to back", front_to_back),
    ("at random", at_random),
    ("chain from above", from_above),
    ("chain from below", from_below),
)

SCENES = (
    ("edits", edits),
    ("beside 1000 ranges", edits_beside_ranges),
    ("observed", edits_observed),
    ("iterator", iterator_steps),
    ("walker", walker_steps),
)


class Refused(Exception):
    """A command was not answered."""


def served(program, path):
    with open(path, "rb") as lines, tempfile.TemporaryFile() as replies:
        start = time.perf_counter()
        done = subprocess.run([program], stdin=lines, stdout=replies, check=False)
        seconds = time.perf_counter() - start
        if done.returncode != 0:
            raise Refused(f"{program} ended with status {done.returncode}")
        replies.seek(0)
        data = replies.read()
    if b'"bad-command"' in data:
        raise Refused("not served")
    if b'"error"' in data:
        raise Refused("a command was refused")
    return seconds, data.splitlines()


def read_and_printed(path, replies):
    values = [json.loads(line) for line in replies]
    with open(path, "rb") as lines, tempfile.TemporaryFile() as out:
        start = time.perf_counter()
        for line, value in zip(lines, values):
            json.loads(line)
            out.write(json.dumps(value, separators=(",", ":")).encode())
            out.write(b"\n")
            out.flush()
        return time.perf_counter() - start


def by_jsdom(path):
    """Returns the seconds of jsdom for a file of commands, and its replies, or None if it gives up."""
    environment = {**os.environ, "NODE_PATH": os.pathsep.join(it for it in (os.environ.get("NODE_PATH"), MODULES) if it)}
    with open(path, "rb") as lines, tempfile.TemporaryFile() as replies:
        start = time.perf_counter()
        done = subprocess.run(["node", f"{PLAYERS}/node.js", "jsdom", "jsdom"], stdin=lines, stdout=replies, stderr=subprocess.DEVNULL, env=environment, check=False)
        seconds = time.perf_counter() - start
        replies.seek(0)
        return seconds, replies.read().splitlines() if done.returncode == 0 else None


def by_chromium(path):
    """Returns the seconds of Chromium's own DOM for a file of commands, within a page and without its start, and its replies."""
    with tempfile.NamedTemporaryFile("w", suffix=".html", encoding="utf-8") as page, open(path, encoding="utf-8") as lines:
        page.write(PAGE.replace("ANSWERS", content(f"{PLAYERS}/answers.js").decode()).replace("LINES", lines.read()))
        page.flush()
        words = [shutil.which("chromium-headless-shell") or "chromium", "--headless", "--no-sandbox", "--disable-gpu", "--timeout=600000", "--dump-dom", f"file://{page.name}"]
        done = subprocess.run(words, stdout=subprocess.PIPE, stderr=subprocess.DEVNULL, check=False)
    found = re.search(rb"<body>(\{.*\})</body>|<body>(\{.*\})\s", done.stdout, re.S)
    if not found:
        return 0, None
    told = json.loads(html.unescape((found[1] or found[2]).decode()))
    return told["seconds"], told["replies"].encode().splitlines()


def is_there(by):
    """Returns whether one is installed: it answers an empty file."""
    try:
        return by(os.devnull)[1] == []
    except OSError:
        return False


def quickest(program, commands, others, times):
    """Returns the least seconds of some runs for each, or None for one that gave up."""
    found = [timed(program, commands, others) for _ in range(times)]
    return [None if None in it else min(it) for it in zip(*found)]


def timed(program, commands, others):
    """Returns the seconds of the program, of json alone and of each of the others for the commands, or None for one that gave up."""
    with tempfile.NamedTemporaryFile("w", suffix=".lines") as file:
        file.writelines(json.dumps(command, separators=(",", ":")) + "\n" for command in commands)
        file.flush()
        seconds, replies = served(program, file.name)
        found = [seconds, read_and_printed(file.name, replies)]
        for by in others:
            taken, told = by(file.name)
            if told not in (None, replies):
                raise Refused(f"{by.__name__}: other replies")
            found.append(None if told is None else taken)
        return found


def show(name, size, count, seconds, *others):
    beside = [f"{count / it:>12,.0f} {it / seconds:>7.2f}" if it else f"{'-':>12} {'-':>7}" for it in others]
    print(f"{name:>18} {size:>8} {count:>9} {count / seconds:>12,.0f}", *beside, flush=True)


def less(after, before):
    """Returns the seconds that the later run took more, for each."""
    if any(late is not None and late <= early for late, early in zip(after, before)):
        raise Refused("it took no longer than the making of its scene; give more nodes")
    return [None if late is None else late - early for late, early in zip(after, before)]


def show_less(name, size, making, commands, given, others):
    """Shows the speed of commands, without the time of their scene's making and of the start."""
    try:
        before, after = (quickest(given.program, it, others, given.times) for it in (making, making + commands))
        show(name, size, len(commands), *less(after, before))
    except Refused as refused:
        print(f"{name:>18} {size:>8} {refused}")


def takes_sizes(parser):
    parser.add_argument("--sizes", type=int, nargs="+", default=[1000, 10000, 100000], metavar="N")
    parser.add_argument("--nodes", type=int, default=10000, metavar="N")
    parser.add_argument("--times", type=int, default=3, metavar="N", help="how often each is run; the quickest run counts (3)")


def main():
    given = words_of(__doc__, takes_sizes)
    others = [it for it in (by_jsdom, by_chromium) if is_there(it)]
    beside = [f"{it + '/s':>12} {'ratio':>7}" for it in ("json", *(by.__name__[len("by_") :] for by in others))]
    print(f"{'stream':>18} {'nodes':>8} {'commands':>9} {'program/s':>12}", *beside)
    for name, stream in STREAMS:
        for size in given.sizes:
            show_less(name, size, [], list(stream(size)), given, others)
    for name, scene in SCENES:
        show_less(name, given.nodes, *scene(given.nodes), given, others)


if __name__ == "__main__":
    main()
