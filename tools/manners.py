#!/usr/bin/env python3
"""Runs the program over streams that fail, that nobody reads, that are not ready and that are a terminal, and tests what it says and its statuses.

Its options, limits and version are tested too. The last line says how many tests passed and failed.
"""
import contextlib
import json
import os
import pty
import re
import resource
import select
import signal
import subprocess
import sys
import tempfile
import threading
import time

from running import LIMIT, ROOT, words_of

LINES = b'["createElement",0,"p"]\n["appendChild",0,1]\n["tree",0]\n'
REPLIES = b'{"ok":1}\n{"ok":1}\n{"ok":[[0,0,9,"#document"],[1,1,1,"p",[]]]}\n'
ONE, ITS_REPLY = b'["children",0]\n', b'{"ok":[]}\n'
CLOSED_PIPE = 128 + signal.SIGPIPE
FOR_MORE = b"\n\nFor more information, try '--help'.\n"
RANGES = {"--line": 1073741824, "--numbers": 4294967295}
MAN = f"{ROOT}/release/share/man/man1/domserve.1"


class Wrong(Exception):
    """Something is otherwise than is due."""


def equal(found, due):
    if found != due:
        raise Wrong(f"{found!r}, where {due!r} is due")


def run(program, *words, **streams):
    """Returns the status of a run, with what it wrote and said; by `given`, `stdin` and `stdout` its streams are others."""
    how = {"stdout": subprocess.PIPE, "stderr": subprocess.PIPE, "timeout": LIMIT, **streams}
    if "stdin" not in how:
        how["input"] = how.pop("given", LINES)
    ran = subprocess.run([program, *words], check=False, **how)
    return ran.returncode, ran.stdout, ran.stderr


def failed(call, reason):
    return f"domserve: {call} failed: {reason}\n".encode()


@contextlib.contextmanager
def pipe(is_blocking=True):
    """Yields the ends of a pipe as files: for reading, and for writing."""
    ends = os.pipe()
    for it in () if is_blocking else ends:
        os.set_blocking(it, False)
    with os.fdopen(ends[0], "rb", buffering=0) as reading, os.fdopen(ends[1], "wb", buffering=0) as writing:
        yield reading, writing


# ---- streams that fail


def a_full_disk(program):
    with open("/dev/full", "wb") as full:
        for words in ((), ("--help",)):
            equal(run(program, *words, stdout=full), (3, None, failed("write", "No space left on device")))


def a_file_that_may_not_grow(program):
    """The part that fits is written."""
    def bounded():
        signal.signal(signal.SIGXFSZ, signal.SIG_IGN)
        resource.setrlimit(resource.RLIMIT_FSIZE, (12, 12))

    with tempfile.TemporaryFile() as file:
        equal(run(program, stdout=file, preexec_fn=bounded), (3, None, failed("write", "File too large")))
        file.seek(0)
        equal(file.read(), REPLIES[:12])


def a_directory_as_input(program):
    folder = os.open("/", os.O_RDONLY)
    try:
        equal(run(program, stdin=folder), (3, b"", failed("read", "Is a directory")))
    finally:
        os.close(folder)


def closed_streams(program):
    words = ("sh", "-c", 'exec "$0" <&-', program)
    equal(run(*words), (3, b"", failed("read", "Bad file descriptor")))
    words = ("sh", "-c", 'exec "$0" >&-', program)
    equal(run(*words), (3, b"", failed("write", "Bad file descriptor")))
    words = ("sh", "-c", 'exec "$0" 2>&-', program)
    equal(run(*words), (0, REPLIES, b""))
    with open("/dev/full", "wb") as full:
        equal(run(program, stdout=full, stderr=full), (3, None, None))


# ---- an output that nobody reads


def a_closed_pipe(program):
    """It is silent, whatever the signal SIGPIPE does in it."""
    for words in ((), ("--help",), ("--version",)):
        for restores in (True, False):
            with pipe() as (reading, writing):
                reading.close()
                equal(run(program, *words, stdout=writing, restore_signals=restores), (CLOSED_PIPE, None, b""))


def a_reader_that_ends_early(program):
    words = f"while echo '[\"children\",0]'; do :; done 2>/dev/null | {program} | head -n 1; echo ${{PIPESTATUS[1]}}"
    equal(run("bash", "-c", words), (0, ITS_REPLY + b"141\n", b""))


# ---- streams that are not ready


def an_input_that_is_not_ready(program):
    with pipe() as (reading, writing):
        os.set_blocking(reading.fileno(), False)
        with subprocess.Popen([program], stdin=reading, stdout=subprocess.PIPE, stderr=subprocess.PIPE) as ran:
            for _ in range(3):
                time.sleep(0.05)
                writing.write(ONE)
                equal(ran.stdout.readline(), ITS_REPLY)
            writing.close()
            equal((*ran.communicate(timeout=LIMIT), ran.returncode), (b"", b"", 0))


def an_output_that_is_not_ready(program):
    """The pipe is full before anybody reads, and all replies get through."""
    count = 30_000
    with pipe() as (reading, writing):
        os.set_blocking(writing.fileno(), False)
        with subprocess.Popen([program], stdin=subprocess.PIPE, stdout=writing, stderr=subprocess.PIPE) as ran:
            threading.Thread(target=lambda: (ran.stdin.write(ONE * count), ran.stdin.close())).start()
            while select.select([], [writing], [], 0)[1]:
                time.sleep(0.01)
            time.sleep(0.1)
            equal(ran.poll(), None)
            writing.close()
            out = b"".join(iter(lambda: reading.read(65536), b""))
            equal((ran.wait(timeout=LIMIT), ran.stderr.read(), out == ITS_REPLY * count), (0, b"", True))


# ---- a terminal


def at_a_terminal(program):
    """One line says how to begin; with --help and at a mistake there is none."""
    hint = b'domserve reads one JSON command a line, as ["createElement",0,"p"]; domserve --help has more, and Ctrl-D ends it\n'
    outside, inside = pty.openpty()
    try:
        os.write(outside, LINES + b"\x04")
        equal(run(program, stdin=inside), (0, REPLIES, hint))
        status, out, said = run(program, "--help", stdin=inside)
        equal((status, out.startswith(b"Keeps documents"), said), (0, True, b""))
        equal(run(program, "--line", "0", stdin=inside)[2].count(b"JSON"), 0)
    finally:
        os.close(outside)
        os.close(inside)


# ---- options


def limits_in_plain_words(program):
    for option, most in RANGES.items():
        for value in ("x", "0", str(most + 1), "9" * 30, "1.5", "", "1..=3", "' for '--line <BYTES>': ", "' for '--numbers <N>': 1"):
            due = f"error: {option} wants a whole number from 1 to {most}, not '{value}'".encode() + FOR_MORE
            for words in ((option, value), (f"{option}={value}",)):
                equal(run(program, *words), (2, b"", due))
        equal(run(program, option, str(most)), (0, REPLIES, b""))


def mistakes_of_other_kinds(program):
    for words, due in (
        (("--lines", "1"), b"error: unexpected argument '--lines' found"),
        (("x",), b"error: unexpected argument 'x' found"),
        (("--line",), b"error: a value is required for '--line <BYTES>' but none was supplied"),
        (("--line", "1", "--line", "2"), b"error: the argument '--line <BYTES>' cannot be used multiple times"),
    ):
        status, out, said = run(program, *words)
        equal((status, out, said.splitlines()[0]), (2, b"", due))


def version(program):
    """The package's, and the logic of the kit as it names itself, or as generated/ notes it if there is no kit."""
    with open(f"{ROOT}/bindings/VERSION", encoding="utf-8") as file:
        number = file.read().strip()
    try:
        kit = subprocess.run(["rt", "version"], capture_output=True, text=True, check=True).stdout.strip()
    except (OSError, subprocess.CalledProcessError):
        with open(f"{ROOT}/generated/SUMS", encoding="utf-8") as file:
            kit = re.search(r"(?m)^# kit: (.*)$", file.read())[1]
    for word in ("--version", "-V"):
        equal(run(program, word), (0, f"domserve {number} (rattle-kit {kit[kit.index('logic') :]})\n".encode(), b""))


def statuses_of_the_pages(program):
    """--help, the man page and commands.md name the same ones."""
    due = ["0", "1", "2", "3", str(CLOSED_PIPE)]
    told = run(program, "--help")[1].decode().partition("Exit status:")[2].partition("\n\n")[0]
    equal(re.findall(r"\b\d+\b", told), due)
    with open(MAN, encoding="utf-8") as file:
        equal(re.findall(r"(?m)^\.It (\d+)$", file.read().partition(".Sh EXIT STATUS")[2].partition(".Sh ")[0]), due)
    with open(f"{ROOT}/docs/commands.md", encoding="utf-8") as file:
        equal(re.findall(r"(?m)^\| (\d+) \|", file.read().partition("| status | when |")[2]), due)


def table_of_commands(_):
    """`domserve-explain --commands` has each command of the table once, with the names of its arguments."""
    with open(f"{ROOT}/docs/commands.json", encoding="utf-8") as file:
        due = [json.dumps([it["name"], *(argument["name"].upper() for argument in it["arguments"])]) for it in json.load(file)["commands"]]
    status, out, said = run(sys.executable, f"{ROOT}/release/domserve-explain", "--commands")
    equal((status, re.findall(r"(?m)^  (\[.*?\])(?::| takes)", out.decode()), said), (0, due, b""))


def example_of_help(program):
    """The example that --help shows prints the lines below it."""
    shown = run(program, "--help")[1].decode().partition("Example:\n")[2].partition("\n\n")[0]
    if not shown:
        raise Wrong("there is no example")
    command, *due = [it[2:] for it in shown.splitlines()]
    folder = os.path.dirname(os.path.abspath(program))
    said = subprocess.run(["bash", "-c", command.removeprefix("$ ")], env={**os.environ, "PATH": f"{folder}:{os.environ['PATH']}"}, capture_output=True, text=True, check=True)
    equal(said.stdout.splitlines(), due)


TESTS = (
    a_full_disk,
    a_file_that_may_not_grow,
    a_directory_as_input,
    closed_streams,
    a_closed_pipe,
    a_reader_that_ends_early,
    an_input_that_is_not_ready,
    an_output_that_is_not_ready,
    at_a_terminal,
    limits_in_plain_words,
    mistakes_of_other_kinds,
    version,
    statuses_of_the_pages,
    table_of_commands,
    example_of_help,
)


def main():
    given = words_of(__doc__)
    wrong = 0
    for test in TESTS:
        try:
            test(given.program)
        except (Wrong, subprocess.SubprocessError) as fault:
            wrong += 1
            print(f"{test.__name__}: {fault}", flush=True)
    print(f"{len(TESTS) - wrong} passed, {wrong} failed")
    return 1 if wrong else 0


if __name__ == "__main__":
    sys.exit(main())
