#!/usr/bin/env python3
"""Measures the nanoseconds of a call in scenes through the library for C, and the bytes that one more object of each kind takes.

If libxml2 is installed, building, moving and walking are measured through it too. It checks nothing and keeps no ranges, iterators or observers, and its
walk follows pointers in place of a call. Each scene runs a few times, each time in its own process, and the quickest run of each program is printed. The
ratio is ours over libxml2's. With --instructions valgrind counts the instructions of a call, once, since they are the same from run to run.
"""
import os
import subprocess
import sys
import tempfile

HERE = os.path.dirname(os.path.abspath(__file__))
sys.path.insert(0, os.path.join(os.path.dirname(os.path.dirname(HERE)), "bindings/c"))
from make import make, words_of

STRICT = ["-std=c11", "-O2", "-Wall", "-Wextra", "-Werror"]


def compiled(given, name, work, *words):
    to = os.path.join(work, name)
    made = subprocess.run([given.compiler, *STRICT, os.path.join(HERE, name + ".c"), "-o", to, *words])
    if made.returncode:
        sys.exit(f"{name}.c was not compiled")
    return to


def of_libxml2(given, name, work):
    """The program of that name over libxml2, or None where that is not there."""
    try:
        said = subprocess.run(["pkg-config", "--cflags", "--libs", "libxml-2.0"], stdout=subprocess.PIPE, stderr=subprocess.DEVNULL)
    except OSError:
        return None
    return None if said.returncode else compiled(given, name, work, *said.stdout.decode().split())


def lines(*words):
    return subprocess.run(words, stdout=subprocess.PIPE, check=True).stdout.decode().split("\n")[:-1]


def quickest(program, scene, given):
    """Nanoseconds a call."""
    found = []
    for _ in range(given.times):
        seconds, calls = lines(program, scene, str(given.count))[-1].split()
        found.append(float(seconds) / int(calls) * 1e9)
    return min(found)


def instructions(program, scene, given):
    """Instructions a call, from the call of begin to that of end."""
    with tempfile.TemporaryDirectory() as work:
        out = os.path.join(work, "out")
        words = ["valgrind", "-q", "--tool=callgrind", "--zero-before=begin", "--dump-before=end", "--callgrind-out-file=" + out]
        calls = lines(*words, program, scene, str(given.count))[-1].split()[1]
        with open(out + ".1") as profile:
            found = next(line.split()[1] for line in profile if line.startswith("totals:"))
    return int(found) / int(calls)


def table(ours, other, given):
    of_other = set(lines(other)) if other else set()
    measured, unit = (instructions, "instructions") if given.instructions else (quickest, "ns")
    print(f"| scene of {given.count} | {unit} a call | libxml2 | ratio |\n|---|---|---|---|")
    for scene in lines(ours):
        own = measured(ours, scene, given)
        its = measured(other, scene, given) if scene in of_other else None
        beside = f"{its:.1f} | {own / its:.2f}" if its else " | "
        print(f"| {scene} | {own:.1f} | {beside} |", flush=True)


def sizes(ours, other):
    """Bytes that one more of each kind takes, in ours and in the other."""
    its = dict(line.strip("| ").rsplit(" | ", 1) for line in lines(other)) if other else {}
    print("\n| one more | bytes | libxml2 |\n|---|---|---|")
    for line in lines(ours):
        name = line.strip("| ").rsplit(" | ", 1)[0]
        print(f"{line} {its.get(name, '')} |")


def main():
    parser = words_of(__doc__)
    parser.add_argument("--count", type=int, default=100000, help="how many nodes, moves or steps a scene has (100000)")
    parser.add_argument("--times", type=int, default=3, help="how often each scene is run (3)")
    parser.add_argument("--instructions", action="store_true", help="count instructions, by valgrind, in place of nanoseconds")
    given = parser.parse_args()
    if given.count < 100 or given.times < 1:
        parser.error(f"--count has to be at least 100 and --times at least 1, not {given.count} and {given.times}")
    folder, _ = make(given)
    with tempfile.TemporaryDirectory() as work:
        ours = compiled(given, "bench", work, f"-I{folder}", os.path.join(folder, "libhuckleport.a"))
        other = of_libxml2(given, "bench_libxml2", work)
        if not other:
            print("left out: libxml2, since pkg-config does not know libxml-2.0")
        table(ours, other, given)
        sizes(compiled(given, "sizes", work, f"-I{folder}", os.path.join(folder, "libhuckleport.a")), of_libxml2(given, "sizes_libxml2", work))


if __name__ == "__main__":
    main()
