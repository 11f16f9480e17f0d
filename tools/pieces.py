#!/usr/bin/env python3
"""Serves each dialogue by the program, byte for byte: whole, in pieces of 1, 7 and 65,536 bytes, and cut in two at places that are spread over it.

A pipe hands the pieces on one by one, so the program reads them as they were written. --every cuts at each byte. Lines that are nested deeper than any
that is read are served on a small stack. The last line says how many dialogues passed and failed.
"""
import concurrent.futures
import os
import resource
import subprocess
import sys

from running import LIMIT, dialogues, takes_folders, words_of

SIZES = (1, 7, 65536)
# The number of places at which a dialogue is cut in two.
CUTS = 12
# The bytes of stack that suffice for the program, as docs/commands.md says, and how deep lines are nested on it.
STACK, DEEPEST = 256 * 1024, 300


def takes(parser):
    takes_folders(parser)
    parser.add_argument("--cuts", type=int, default=CUTS, metavar="N", help=f"at how many places each is cut in two ({CUTS})")
    parser.add_argument("--every", action="store_true", help="cut in two at each byte")
    parser.add_argument("--before", default="", metavar="WORD", help="a program that runs it, as qemu-aarch64-static")


def ways(given, cuts):
    """Yields the ways in which a dialogue is written to the program: a name, and the pieces."""
    yield "whole", [given] if given else []
    for size in SIZES:
        yield f"in pieces of {size}", [given[at : at + size] for at in range(0, len(given), size)]
    for at in sorted({len(given) * it // (cuts + 1) for it in range(1, cuts + 1)}):
        yield f"cut at {at}", [it for it in (given[:at], given[at:]) if it]


def served(words, pieces):
    """Returns the status and the output of a run. Each piece is one read."""
    reading, writing = os.pipe2(os.O_DIRECT)
    with subprocess.Popen(words, stdin=reading, stdout=subprocess.PIPE, stderr=subprocess.STDOUT) as ran:
        os.close(reading)
        with concurrent.futures.ThreadPoolExecutor(1) as pool:
            wrote = pool.submit(write, writing, pieces)
            out = ran.communicate(timeout=LIMIT)[0]
            wrote.result()
    return ran.returncode, out


def write(pipe, pieces):
    with os.fdopen(pipe, "wb", buffering=0) as file:
        for it in pieces:
            # (the kernel has packets of a page at most)
            for at in range(0, len(it), 4096):
                try:
                    file.write(it[at : at + 4096])
                except BrokenPipeError:
                    return


def fault_of(given, dialogue):
    """Returns how many ways a dialogue was served in, and the fault of the last one, or None."""
    words = [*given.before.split(), given.program, *dialogue.words]
    count = 0
    for way, pieces in ways(dialogue.given, len(dialogue.given) if given.every else given.cuts):
        status, out = served(words, pieces)
        count += 1
        if (status, out) != (0, dialogue.due):
            return count, f"{dialogue.name}, {way}: status {status}, {out[-300:]!r}"
    return count, None


def nested_lines():
    """Returns lines that are nested in arrays and objects, each depth once; each is refused."""
    made = [line for it in range(2, DEEPEST) for line in ("[" * it + "]" * it, '["observe",0,0,' + '{"a":' * it + "0" + "}" * it + "]")]
    return "".join(f"{it}\n" for it in made).encode()


def fault_on_a_small_stack(given):
    """Returns the fault of nested lines that are served on a small stack, if there is any."""
    lines = nested_lines()
    limit = lambda: resource.setrlimit(resource.RLIMIT_STACK, (STACK, STACK))
    ran = subprocess.run([given.program], input=lines, stdout=subprocess.PIPE, stderr=subprocess.STDOUT, preexec_fn=limit, timeout=LIMIT, check=False)
    replies = ran.stdout.splitlines()
    if ran.returncode or len(replies) != lines.count(b"\n") or any(not it.startswith(b'{"error":') for it in replies):
        return f"nested lines on a stack of {STACK} bytes: status {ran.returncode}, {ran.stdout[-300:]!r}"
    return None


def main():
    given = words_of(__doc__, takes)
    found = dialogues(given.folders)
    runs = failed = 0
    with concurrent.futures.ThreadPoolExecutor(os.cpu_count() or 1) as pool:
        for count, fault in pool.map(lambda it: fault_of(given, it), found):
            runs, failed = runs + count, failed + bool(fault)
            if fault:
                print(fault, flush=True)
    fault = None if given.before else fault_on_a_small_stack(given)
    if fault:
        failed += 1
        print(fault, flush=True)
    print(f"{len(found)} dialogues, {runs} runs")
    print(f"{len(found) + (not given.before) - failed} passed, {failed} failed")
    return 1 if failed else 0


if __name__ == "__main__":
    sys.exit(main())
