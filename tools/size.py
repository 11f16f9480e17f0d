#!/usr/bin/env python3
"""Runs the built program on large inputs with a stack of 1 MiB, checks each reply by rule, and prints how long each part took.

COUNT is how many elements the chain has, how many children the parent has, and how many live ranges there are: 100,000 by default. Commands whose memory
is measured are some ten times as many. The parts:

- a chain of elements that is made, printed, walked, copied, compared, normalized, discarded, and freed at the end of the input
- a parent with many children
- many live ranges
- memory while nodes, ranges and records are made and freed, which stays level
- a line of 1 GiB in a small memory
"""
import json
import resource
import subprocess
import sys
import time

from running import words_of

STACK = 1 << 20
# The bytes that are written at once. A pipe holds them, so that writing never waits for the program.
BATCH = 60_000
# The bytes that the program may grow by over any number of rounds that discard as much as they make.
LEVEL = 1 << 18
# The address space in which a line without an end is served, and the line's bytes.
SPACE, LONG = 64 << 20, 1 << 30
UNITS = 1000
EMPTY = [[0, 0, 9, "#document"]]


def ok(value):
    return '{"ok":' + json.dumps(value, separators=(",", ":"), ensure_ascii=False) + "}"


def error(name):
    return f'{{"error":"{name}"}}'


def pair(due, *command):
    """Returns a command's line, and the expected reply."""
    return json.dumps(command, separators=(",", ":")), ok(due) if not isinstance(due, str) or not due.startswith("{") else due


class Session:
    """A run of the program that is fed line by line, each reply compared."""

    program, seen = None, 0

    def __init__(self, name, space=None):
        def limits():
            resource.setrlimit(resource.RLIMIT_STACK, (STACK, STACK))
            if space:
                resource.setrlimit(resource.RLIMIT_AS, (space, space))

        self.name = name
        self.process = subprocess.Popen([self.program], stdin=subprocess.PIPE, stdout=subprocess.PIPE, preexec_fn=limits)

    def send(self, batch):
        self.process.stdin.write("".join(line + "\n" for line, _ in batch).encode())
        self.process.stdin.flush()
        for line, due in batch:
            reply = self.process.stdout.readline().decode().rstrip("\n")
            if reply != due:
                sys.exit(f"{self.name}: {line[:200]}: {reply[:200]}, and due was {due[:200]}")
            Session.seen += 1

    def ask(self, step, pairs):
        """Sends all lines of a step, and prints how long it took."""
        start, count, batch, size = time.time(), 0, [], 0
        for line, due in pairs:
            if size + len(line) >= BATCH and batch:
                self.send(batch)
                batch, size = [], 0
            batch.append((line, due))
            size, count = size + len(line) + 1, count + 1
        self.send(batch)
        taken = time.time() - start
        print(f"{self.name}, {step}: {count:,} commands in {taken:.2f} s, {taken / count * 1e6:.1f} us each", flush=True)

    def memory(self, field="VmRSS"):
        """Returns the bytes of memory that the program has."""
        with open(f"/proc/{self.process.pid}/status", encoding="ascii") as file:
            return next(int(line.split()[1]) << 10 for line in file if line.startswith(field))

    def end(self):
        """Ends the input. The program frees its world, and its status has to be 0."""
        start = time.time()
        self.process.stdin.close()
        rest, status = self.process.stdout.read(), self.process.wait()
        if rest or status:
            sys.exit(f"{self.name}: at the end of the input {rest[:200]} and status {status}")
        print(f"{self.name}, end: {time.time() - start:.2f} s", flush=True)


def chain_made(count):
    yield pair(1, "createElement", 0, "e")
    for number in range(2, count + 1):
        yield pair(number, "createElement", 0, "e")
        yield pair(number, "appendChild", number - 1, number)


def there_and_back(count, first, ahead, back):
    """Walks from the first element to the last, and back."""
    for number in [*range(first, count + 1), None]:
        yield pair(number, *ahead)
    for number in [*range(count - 1, 0, -1), None]:
        yield pair(number, *back)


def chain_walked(count):
    yield pair(0, "createWalker", 1, 4294967295, [])
    yield from there_and_back(count, 2, ("walk", 0, "nextNode"), ("walk", 0, "previousNode"))
    yield from there_and_back(count, 2, ("walk", 0, "lastChild"), ("walk", 0, "parentNode"))
    yield pair(0, "createIterator", 1, 4294967295, [])
    for number in [*range(1, count + 1), None]:
        yield pair(number, "nextNode", 0)
    for number in [*range(count, 0, -1), None]:
        yield pair(number, "previousNode", 0)


def chain_compared(count):
    copy = count + 1
    yield pair(True, "isEqual", 1, copy)
    for one, other, due in ((1, count, 20), (count, 1, 10), (1, copy, 37), (copy, 1, 35)):
        yield pair(due, "comparePosition", one, other)
    yield pair(True, "contains", 1, count)
    yield pair(False, "contains", count, 1)
    yield pair(copy, "root", 2 * count)
    yield pair("", "textContent", copy)
    yield pair(0, "createRange", 0)
    yield pair(None, "setStart", 0, 1, 0)
    yield pair(None, "setEnd", 0, count, 0)
    yield pair(1, "comparePoint", 0, count // 2, 1)
    yield pair(0, "comparePoint", 0, count // 2, 0)
    yield pair(1, "commonAncestor", 0)
    yield pair(None, "releaseRange", 0)


def chain_ended(count):
    """Joins Texts in the copy, discards the copy, and takes the chain apart."""
    copy, last, text = count + 1, 2 * count, 2 * count + 1
    for number, data in ((text, "t"), (text + 1, "")):
        yield pair(number, "createText", 0, data)
        yield pair(number, "appendChild", last, number)
    yield pair(None, "normalize", copy)
    yield pair([text], "children", last)
    yield pair("t", "textContent", copy)
    yield pair(False, "isEqual", 1, copy)
    yield pair(error("in-use"), "discard", 1)
    yield pair(None, "discard", copy)
    for number in (copy, last, text):
        yield pair(error("no-such-object"), "node", number)
    yield pair(1, "appendChild", 0, 1)
    yield pair(None, "setTextContent", 1, "end")
    yield pair(2, "root", count)


def chain(count):
    session = Session("chain")
    session.ask("made", chain_made(count))
    session.ask("printed", [pair([[at, at + 1, 1, "e", []] for at in range(count)], "tree", 1)])
    session.ask("walked", chain_walked(count))
    session.ask("copied", [pair(count + 1, "cloneNode", 1, True)])
    session.ask("compared", chain_compared(count))
    session.ask("ended", chain_ended(count))
    session.end()
    session = Session("chain under the Document")
    session.ask("made", chain_made(count))
    session.ask("appended", [pair(1, "appendChild", 0, 1), pair(1, "length", 0)])
    session.end()


def children_made(count):
    last = count + 1
    yield pair(1, "createElement", 0, "e")
    for number in range(2, count + 2):
        yield pair(number, "createElement", 0, "f")
        yield pair(number, "appendChild", 1, number)
    yield pair([*range(2, last + 1)], "children", 1)
    yield pair(count - 1, "index", last)
    yield pair(last // 2 - 2, "index", last // 2)
    yield pair(4, "comparePosition", 2, last)


def children_moved(count):
    """Moves the last child to the front a thousand times, beside a live range behind the children. Then removes these, and in the end all."""
    yield pair(0, "createRange", 0)
    yield pair(None, "setStart", 0, 1, count)
    for step in range(1000):
        moved = count + 1 - step
        yield pair(moved, "insertBefore", 1, moved, moved + 1 if step else 2)
        yield pair(0, "index", moved)
    yield pair([1, count, 1, count], "range", 0)
    for step in range(1000):
        first, left = count + 1 - 999, count - 1 - step
        yield pair(first + step, "removeChild", 1, first + step)
        yield pair([1, left, 1, left], "range", 0)
    yield pair(None, "replaceChildren", 1, None)
    yield pair([1, 0, 1, 0], "range", 0)
    yield pair(0, "index", 2)


def children(count):
    session = Session("children")
    session.ask("made", children_made(count))
    session.ask("moved", children_moved(count))
    session.end()


def ranges_made(count):
    yield pair(1, "createText", 0, "a" * UNITS)
    for number in range(count):
        yield pair(number, "createRange", 0)
        yield pair(None, "setStart", number, 1, number % UNITS)
        yield pair(None, "setEnd", number, 1, UNITS)


def ranges_moved(count):
    """Inserts two units at the front, which move each end that is not there. Then splits the Text, removes it from an element, and releases the ranges."""
    yield pair(None, "insertData", 1, 0, "bb")
    yield pair(2, "createElement", 0, "e")
    yield pair(1, "appendChild", 2, 1)
    yield pair(3, "splitText", 1, 2)
    for number in range(count):
        start = number % UNITS
        yield pair([3, start, 3, UNITS] if start else [1, 0, 3, UNITS], "range", number)
    yield pair(3, "removeChild", 2, 3)
    for number in range(count):
        yield pair([2, 1, 2, 1] if number % UNITS else [1, 0, 2, 1], "range", number)
    for number in range(count):
        yield pair(None, "releaseRange", number)
    yield pair(error("no-such-object"), "range", count - 1)
    yield pair(count, "createRange", 0)


def ranges(count):
    session = Session("ranges")
    session.ask("made", ranges_made(count))
    session.ask("moved", ranges_moved(count))
    session.end()


def round_of_nodes(at):
    """Makes and discards a tree of nodes; their numbers grow."""
    one = 3 * at + 1
    yield pair(one, "createElement", 0, "e")
    yield pair(one + 1, "createText", 0, "some text")
    yield pair(one + 2, "createComment", 0, "c")
    yield pair(one + 1, "appendChild", one, one + 1)
    yield pair(one + 2, "appendChild", one, one + 2)
    yield pair(None, "setAttribute", one, "name", "value")
    yield pair("some text", "textContent", one)
    yield pair(None, "discard", one)


def round_of_ranges(at):
    yield pair(at, "createRange", 0)
    yield pair(None, "setEnd", at, 0, 0)
    yield pair(None, "releaseRange", at)


def round_of_copies(at):
    """Makes and discards a copy of the element, and changes the element's Text, for which an observer gets a record."""
    yield pair(2 * at + 3, "cloneNode", 1, True)
    yield pair(None, "discard", 2 * at + 3)
    yield pair(None, "setData", 2, f"text {at}")
    yield pair([["characterData", 2, [], [], None, None, None, None]], "takeRecords", 0)


OBSERVED = [
    pair(1, "createElement", 0, "e"),
    pair(2, "createText", 0, "t"),
    pair(2, "appendChild", 1, 2),
    pair(0, "createObserver"),
    pair(None, "observe", 0, 2, {"characterData": True}),
]


def stays_level(name, start, part, rounds):
    """Runs a round again and again, and checks that memory hardly grows after a tenth of the rounds."""
    session, levels = Session(name), []
    session.ask("begun", [pair(EMPTY, "tree", 0), *start])
    for tenth in range(10):
        session.ask(f"part {tenth + 1}", (it for at in range(rounds * tenth // 10, rounds * (tenth + 1) // 10) for it in part(at)))
        levels.append(session.memory())
    session.end()
    grown = max(levels) - levels[0]
    print(f"{name}: {levels[0]:,} bytes of memory after a tenth, {levels[-1]:,} at the end", flush=True)
    if grown > LEVEL:
        sys.exit(f"{name}: memory grew by {grown:,} bytes in {rounds - rounds // 10:,} rounds")


def line_without_end():
    """Sends a line of 1 GiB, in a memory that holds a small part of it."""
    session = Session("line of 1 GiB", SPACE)
    session.ask("begun", [pair(EMPTY, "tree", 0)])
    before = session.memory("VmHWM")
    for _ in range(LONG >> 16):
        session.process.stdin.write(b"a" * (1 << 16))
    session.ask("ended", [("", error("line-too-long")), pair(EMPTY, "tree", 0)])
    grown = session.memory("VmHWM") - before
    session.end()
    if grown > 4 << 20:
        sys.exit(f"line of 1 GiB: memory grew by {grown:,} bytes")


def takes_count(parser):
    parser.add_argument("count", nargs="?", type=int, default=100_000, metavar="COUNT", help="how large the inputs are (100,000)")


def main():
    given = words_of(__doc__, takes_count)
    Session.program = given.program
    for part in (chain, children, ranges):
        part(given.count)
    stays_level("nodes that come and go", [], round_of_nodes, given.count)
    stays_level("ranges that come and go", [], round_of_ranges, 2 * given.count)
    stays_level("copies and records that come and go", OBSERVED, round_of_copies, 2 * given.count)
    line_without_end()
    print(f"{Session.seen:,} replies were as they are due")


if __name__ == "__main__":
    main()
