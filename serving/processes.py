#!/usr/bin/env python3
"""Many processes of the program at once: how long they take to start, how much memory they have, and how many lines a second they answer.

Each process makes a document of --nodes nodes. Memory is read from /proc twice: after a first reply alone, and with the documents. It is a process's
private memory, and that with its share of common memory (PSS). Then lines are sent in two ways. In a turn every process gets one line, and its
reply is read before the next turn. Then every process gets many lines in one piece. This one script sends and reads all, and its own time counts.
"""
import json
import os
import resource
import subprocess
import sys
import time

sys.path.insert(0, os.path.join(os.path.dirname(os.path.dirname(os.path.abspath(__file__))), "tools"))
from running import words_of

QUESTION = b'["root",0]\n'
# The number of turns that are measured, and the number of lines in one piece; both fit in a pipe.
TURNS, PIECE = 20, 1000


def takes_counts(parser):
    parser.add_argument("--processes", type=int, default=1000, metavar="N", help="how many processes (1000)")
    parser.add_argument("--nodes", type=int, default=100, metavar="N", help="how many nodes each document has beside its Document (100)")


def document(nodes):
    """Returns the lines that make a document: an element, and elements and Texts under it."""
    commands = [["createElement", 0, "root"], ["appendChild", 0, 1]]
    for number in range(2, nodes + 1):
        commands.append(["createElement", 0, "item"] if number % 2 else ["createText", 0, "some text"])
        commands.append(["appendChild", 1, number])
    return [json.dumps(it, separators=(",", ":")).encode() + b"\n" for it in commands]


def begun(program, count):
    """Starts `count` processes, and returns them once each has answered a line."""
    found = [subprocess.Popen([program], stdin=subprocess.PIPE, stdout=subprocess.PIPE) for _ in range(count)]
    turn(found, [QUESTION])
    return found


def turn(processes, lines):
    """Sends lines in one piece to every process, and reads as many replies of each."""
    piece = b"".join(lines)
    for it in processes:
        it.stdin.write(piece)
        it.stdin.flush()
    for it in processes:
        replies = [it.stdout.readline() for _ in lines]
        if not all(reply.startswith(b'{"ok":') for reply in replies):
            sys.exit(f"a line was not answered: {replies[-1]}")


def memory(processes):
    """Returns the kilobytes of all processes: their PSS, and the private ones."""
    found = {"Pss:": 0, "Private_Dirty:": 0}
    for it in processes:
        with open(f"/proc/{it.pid}/smaps_rollup", encoding="ascii") as file:
            for line in file:
                word, *rest = line.split()
                if word in found:
                    found[word] += int(rest[0])
    return found["Pss:"], found["Private_Dirty:"]


def timed(call):
    start = time.perf_counter()
    result = call()
    return time.perf_counter() - start, result


def tell_memory(what, processes):
    pss, private = memory(processes)
    count = len(processes)
    print(f"{what}: {pss / 1024:,.0f} MB in all; {pss / count:,.0f} KB a process, {private / count:,.0f} KB of them its own", flush=True)


def tell_lines(what, count, seconds):
    print(f"{what}: {count:,} lines in {seconds:.2f} seconds, {count / seconds:,.0f} a second", flush=True)


def main():
    given = words_of(__doc__, takes_counts)
    if given.processes < 1 or given.nodes < 1:
        sys.exit(f"--processes and --nodes have to be at least 1, not {given.processes} and {given.nodes}")
    hard = resource.getrlimit(resource.RLIMIT_NOFILE)[1]
    resource.setrlimit(resource.RLIMIT_NOFILE, (min(hard, 2 * given.processes + 64) if hard > 0 else hard, hard))
    seconds, processes = timed(lambda: begun(given.program, given.processes))
    print(f"{given.processes:,} processes started and answered in {seconds:.2f} seconds")
    tell_memory("with nothing in them", processes)
    lines = document(given.nodes)
    for start in range(0, len(lines), PIECE):
        turn(processes, lines[start : start + PIECE])
    tell_memory(f"with {given.nodes} nodes each", processes)
    seconds, _ = timed(lambda: [turn(processes, [QUESTION]) for _ in range(TURNS)])
    tell_lines("one line each in turn", TURNS * len(processes), seconds)
    seconds, _ = timed(lambda: turn(processes, [QUESTION] * PIECE))
    tell_lines(f"{PIECE} lines each in one piece", PIECE * len(processes), seconds)
    for it in processes:
        it.stdin.close()
    return max(abs(it.wait()) for it in processes)


if __name__ == "__main__":
    sys.exit(main())
