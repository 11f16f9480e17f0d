#!/usr/bin/env python3
"""Runs a command, prints its output as it arrives, and lists the tests that were left out ahead of the last line. It ends with the command's status.

A test that leaves something out prints a line `left out: WHAT, since WHY`. The lines of node's and Python's own runners about a skipped test are taken
as the same. Each reason is listed once, with all that was left out for it.
"""
import re
import signal
import subprocess
import sys

FORMS = (
    re.compile(r"\s*left out: (?P<what>.*?)(?:, since |: |, which is )(?P<why>.*)"),
    re.compile(r"\s*left out: (?P<what>.*)(?P<why>)"),
    re.compile(r"\s*﹣ (?P<what>.*?) \([\d.]+ms\) # (?P<why>.*)"),
    re.compile(r"(?P<what>\S.*?) \.\.\. skipped ['\"](?:left out, since )?(?P<why>.*)['\"]"),
)

# How many names are listed for one reason.
MOST = 8


def left_out(line):
    """Returns the name of a test that a line says was left out, and why; or None."""
    found = next((it for it in (form.fullmatch(line) for form in FORMS) if it), None)
    return (found["what"], found["why"] or "no reason is given") if found else None


def shortened(names):
    """Returns the first names of a list, and how many more there are."""
    return "; ".join(names[:MOST]) + (f"; and {len(names) - MOST} more" if len(names) > MOST else "")


def listed(found):
    """Returns the list, as lines: each reason with all that was left out for it."""
    by_reason = {}
    for what, why in found:
        by_reason.setdefault(why, []).append(what)
    lines = [f"  {why}: {shortened([*dict.fromkeys(names)])}" for why, names in by_reason.items()]
    return ["left out, by the reason:", *lines] if lines else ["nothing was left out"]


def handed_on(source, to):
    """Writes lines as they arrive, but for the last one. Returns the last one, and the tests that lines say were left out."""
    last, found = b"", []
    for line in source:
        to.write(last)
        to.flush()
        last = line
        it = left_out(line.decode(errors="replace").rstrip("\n"))
        found += [it] if it else []
    return last, found


def main():
    if len(sys.argv) < 2 or sys.argv[1] in ("-h", "--help"):
        print(__doc__)
        return 2 if len(sys.argv) < 2 else 0
    with subprocess.Popen(sys.argv[1:], stdout=subprocess.PIPE) as running:
        for it in (signal.SIGTERM, signal.SIGHUP, signal.SIGINT):
            signal.signal(it, lambda number, _: running.send_signal(number))
        last, found = handed_on(running.stdout, sys.stdout.buffer)
    sys.stdout.buffer.write("".join(f"{it}\n" for it in listed(found)).encode() + last)
    return running.returncode if running.returncode >= 0 else 128 - running.returncode


if __name__ == "__main__":
    sys.exit(main())
