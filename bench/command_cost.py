#!/usr/bin/env python3
"""Counts the instructions of commands of the built program, in pairs that should be equal but for a tenth.

A word leaves only the pairs whose name has it. For each pair two scenes are made under callgrind, uncounted, and then the commands are counted. The cost
of one command (or of one node copied or taken) is printed, less the cost of an empty line. So a count is that of the command: its line's text beyond
an empty one, the edit and the reply. The run fails if the second count is more than a tenth above the first.
"""
import json
import os
import subprocess
import sys
import tempfile

sys.path.insert(0, os.path.join(os.path.dirname(os.path.dirname(os.path.abspath(__file__))), "tools"))
from command_scenes import PAIRS
from running import words_of

# so few lines that their replies fit into a pipe
BATCH = 100
# how many empty lines are counted
LINES = 1000


class Refused(list):
    """A line that is to be refused, as the tree may not be so."""


def begins(line):
    """How the reply to a line begins."""
    if isinstance(line, Refused):
        return b'{"error":"HierarchyRequestError"'
    return b'{"ok"' if line else b'{"error":"bad-json"'


def answered(program, lines):
    """The program's replies to lines, each read as it is given: as many lines are under way as a pipe holds. None stands for an empty line."""
    for at in range(0, len(lines), BATCH):
        batch = lines[at:at + BATCH]
        program.stdin.write("".join(("" if line is None else json.dumps(line, separators=(",", ":"))) + "\n" for line in batch).encode())
        program.stdin.flush()
        for line in batch:
            reply = program.stdout.readline()
            if not reply.startswith(begins(line)):
                sys.exit(f"the reply to {json.dumps(line)} was {reply.decode()[:80]!r}, and has to begin with {begins(line).decode()!r}")


def counted(state, program):
    """From here on instructions are counted, or not."""
    subprocess.run(["callgrind_control", "--instr=" + state, str(program.pid)], stdout=subprocess.DEVNULL, stderr=subprocess.DEVNULL, check=True)


def instructions(built, making, commands, work):
    """The instructions of the commands, in the scene that the lines before them make; those are not counted."""
    out = os.path.join(work, "out")
    words = ["valgrind", "-q", "--tool=callgrind", "--instr-atstart=no", "--callgrind-out-file=" + out, built]
    with subprocess.Popen(words, stdin=subprocess.PIPE, stdout=subprocess.PIPE, stderr=subprocess.DEVNULL) as program:
        answered(program, making)
        counted("on", program)
        answered(program, commands)
        counted("off", program)
        program.stdin.close()
        program.stdout.read()
    with open(out) as profile:
        for line in profile:
            if line.startswith("totals:"):
                return int(line.split()[1])
    sys.exit("callgrind wrote no count of instructions")


def empty_line(built, work):
    """The instructions of a line with nothing in it; the program has answered one ahead of them."""
    return instructions(built, [None], [None] * LINES, work) / LINES


def takes_words(parser):
    parser.add_argument("words", nargs="*", metavar="WORD", help="only the pairs whose name has each of these words")


def is_apart(name, sides, counts):
    """Prints the counts of a pair, and returns whether the second is more than a tenth above the first."""
    first, second = counts
    too_many = second > 1.1 * first
    print(f"{name}: {first:.0f} {sides[0]}, {second:.0f} {sides[1]}{': more than a tenth apart' if too_many else ''}", flush=True)
    return too_many


def main():
    given, apart = words_of(__doc__, takes_words), False
    pairs = [pair for pair in PAIRS if all(word in pair[0] for word in given.words)]
    if not pairs:
        sys.exit(f"there is no pair whose name has {' and '.join(given.words)}: {', '.join(dict.fromkeys(it[0] for it in PAIRS))}")
    with tempfile.TemporaryDirectory() as work:
        empty = empty_line(given.program, work)
        print(f"an empty line: {empty:.0f}, which is subtracted from the others", flush=True)
        for name, sides, scene, sizes in pairs:
            scenes = [scene(size) for size in sizes]
            counts = [(instructions(given.program, making, lines, work) - len(lines) * empty) / count for making, lines, count in scenes]
            apart = is_apart(name, sides, counts) or apart
    sys.exit(apart)


if __name__ == "__main__":
    main()
