"""The built program, the dialogues, and runs of the one over the other, for the scripts beside this file and those of bench.

Each script takes --help, and --program for another program than crates/domserve/out/domserve, and refuses words that it does not know.
"""
import argparse
import os
import resource
import signal
import subprocess
import sys
from collections import namedtuple

ROOT = os.path.dirname(os.path.dirname(os.path.abspath(__file__)))
PROGRAM = os.path.join(ROOT, "crates/domserve/out/domserve")
DIALOGUES = os.path.join(ROOT, "dialogues")

# The longest that one run may take, in seconds.
LIMIT = 600

OUT_OF_MEMORY = b'{"error":"out-of-memory"}\n'

# An input's file and bytes, the program's words, and the bytes that are due.
Dialogue = namedtuple("Dialogue", "name path given words due")

# A run's status, and its output and errors.
Run = namedtuple("Run", "status out err")


def words_of(description, add=lambda parser: None):
    """Returns the words that a script was given: those that every script takes, and those that `add` adds."""
    parser = argparse.ArgumentParser(description=description, formatter_class=argparse.RawDescriptionHelpFormatter)
    parser.add_argument("--program", default=PROGRAM, help="the program that is run (crates/domserve/out/domserve)")
    add(parser)
    given = parser.parse_args()
    if not os.access(given.program, os.X_OK):
        sys.exit(f"{given.program} is not built: run ./domserve once")
    return given


def takes_folders(parser):
    parser.add_argument("folders", nargs="*", metavar="FOLDER", help="the dialogues below these folders (dialogues)")


def content(path):
    with open(path, "rb") as file:
        return file.read()


def dialogue(path):
    front = path[: -len(".in")]
    words = content(front + ".opts").decode().split() if os.path.exists(front + ".opts") else []
    return Dialogue(os.path.relpath(front, ROOT), path, content(path), words, content(front + ".out"))


def dialogues(folders):
    """Returns the dialogues below the folders, or those of the repository if none is given."""
    found = []
    for top in folders or [DIALOGUES]:
        for folder, _, names in sorted(os.walk(top)):
            found += [dialogue(os.path.join(folder, name)) for name in sorted(names) if name.endswith(".in")]
    if not found:
        sys.exit(f"there is no dialogue (NAME.in) below {' or '.join(folders or [DIALOGUES])}")
    return found


def refusing_malloc(folder):
    """Compiles the malloc that counts growths and blocks, and refuses growths."""
    library = os.path.join(folder, "refusing.so")
    source = os.path.join(ROOT, "tools/refusing.c")
    subprocess.run(["cc", "-shared", "-fPIC", "-O2", "-Wall", "-o", library, source], check=True)
    return library


def read_all(pipe):
    """Returns all bytes of a pipe up to its end."""
    with os.fdopen(pipe, "rb") as file:
        return file.read()


def wait_for(process, pipe):
    """Returns the status of a process and its output on a pipe. A process that takes too long is ended."""
    signal.signal(signal.SIGALRM, lambda *_: os.kill(process, signal.SIGKILL))
    signal.alarm(LIMIT)
    said = read_all(pipe)
    _, status = os.waitpid(process, 0)
    signal.alarm(0)
    return os.waitstatus_to_exitcode(status), said


def run(program, given, words, folder, environment=None, output=None, room=None):
    """Runs the program over a file. `output` is another file to write to, or False for none; `room` is how many bytes a file can hold."""
    out = os.path.join(folder, "out")
    reading, writing = os.pipe()
    writes = os.O_WRONLY | os.O_CREAT | os.O_TRUNC
    files = [
        (os.POSIX_SPAWN_OPEN, 0, given, os.O_RDONLY, 0),
        (os.POSIX_SPAWN_OPEN, 1, output or out, writes, 0o600),
        (os.POSIX_SPAWN_DUP2, writing, 2),
    ]
    if output is False:
        files.append((os.POSIX_SPAWN_CLOSE, 1))
    before = resource.getrlimit(resource.RLIMIT_FSIZE)
    if room is not None:
        # A write past the room fails; Python ignores the signal for that, and so do the processes that it starts.
        resource.setrlimit(resource.RLIMIT_FSIZE, (room, before[1]))
    process = os.posix_spawn(program, [program, *words], {**os.environ, **(environment or {})}, file_actions=files)
    resource.setrlimit(resource.RLIMIT_FSIZE, before)
    os.close(writing)
    status, said = wait_for(process, reading)
    return Run(status, content(out) if output is None else b"", said)
