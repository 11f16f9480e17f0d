"""A document in a process of its own, whose memory and whose time for a line are bounded.

The two share a file in memory, into which a job is written. A job is either lines to be answered, or lines to be replayed with their replies.
The process that begins it never waits: it starts a job, and reads the result once `is_done`.
"""

from __future__ import annotations

import os
import resource
import signal
import struct
import subprocess
import sys
from typing import BinaryIO, List, Optional, Sequence

from .worlds import LEFT_OUT, OUT_OF_MEMORY, OUT_OF_TIME, Unanswered, World, resident, split

ANSWER, REPLAY = 1, 2
JOB = struct.Struct("<BdQQ")
"""A job: its kind, the processor seconds of a line, and the bytes of lines and of replies in the shared file."""

LENGTH = struct.Struct("<I")
SAME, SHORT = 0xFFFFFFFF, 0xFFFFFFFE
"""Results of a replay: all replies were the same, or memory ran out. Any other number is the index of the first one that differed."""

OUT_OF_MEMORY_REPLY = LENGTH.pack(len(OUT_OF_MEMORY)) + OUT_OF_MEMORY

ITSELF = 64 << 20
"""The bytes that the process takes beside the world: Python, and a job."""

REPLAYING = 4
"""How many times the time of a line a replay has for each. (Lines that were answered just within their bounds are to be replayed.)"""


ENDING: List[subprocess.Popen[bytes]] = []
"""Processes that were killed, and may not have ended."""


class Killed(Exception):
    """Something else than its bounds has ended the process of a document."""


class Alone:
    """The world of a document in a process of its own."""

    def __init__(self, numbers: int, line: int, memory: int, seconds: float) -> None:
        self.memory, self.seconds = memory, seconds
        self._file = os.memfd_create("job")
        folder = os.path.dirname(os.path.dirname(os.path.abspath(__file__)))
        words = [sys.executable, "-c", "import sys; sys.path[:] = sys.argv[4:]; from huckleport_serving.alone import main; main()"]
        given = [str(numbers), str(line), str(self._file), folder, *sys.path]
        try:
            self._process = subprocess.Popen(
                [*words, *given], stdin=subprocess.PIPE, stdout=subprocess.PIPE, pass_fds=(self._file,), bufsize=0, start_new_session=True
            )
        except BaseException:
            os.close(self._file)
            raise
        assert self._process.stdin is not None and self._process.stdout is not None
        self._bound(memory + memory // 4)
        os.set_blocking(self._process.stdout.fileno(), False)
        self.is_busy = False
        self._kind, self._count = 0, 0
        self._read = bytearray()
        self._found: List[bytes] = []
        self._ended = False

    def fileno(self) -> int:
        assert self._process.stdout is not None
        return self._process.stdout.fileno()

    def _bound(self, memory: int) -> None:
        hard = resource.prlimit(self._process.pid, resource.RLIMIT_DATA)[1]
        wanted = memory + ITSELF
        resource.prlimit(self._process.pid, resource.RLIMIT_DATA, (wanted if hard < 0 else min(wanted, hard), hard))

    def resident(self) -> int:
        return resident(str(self._process.pid))

    # jobs

    def answer(self, lines: bytes, count: int) -> None:
        """Starts to answer lines, which are joined by newlines."""
        self._start(ANSWER, self.memory, self.seconds, lines, b"", count)

    def replay(self, lines: bytes, replies: bytes, count: int) -> None:
        """Starts to replay lines. It has more memory and time than they had when they were answered."""
        self._start(REPLAY, self.memory + self.memory // 4, REPLAYING * self.seconds, lines, replies, count)

    def _start(self, kind: int, memory: int, seconds: float, lines: bytes, replies: bytes, count: int) -> None:
        assert self._process.stdin is not None
        self._kind, self._count, self.is_busy = kind, count, True
        self._read.clear()
        self._found = []
        os.ftruncate(self._file, 0)
        os.lseek(self._file, 0, os.SEEK_SET)
        for part in (lines, replies):
            given = memoryview(part)
            while given:
                given = given[os.write(self._file, given) :]
        try:
            self._bound(memory)
            self._process.stdin.write(JOB.pack(kind, seconds, len(lines), len(replies)))
        except (BrokenPipeError, ProcessLookupError):
            self._ended = True

    def is_done(self) -> bool:
        """Reads the results that are there, and returns whether they are all, or the process has ended."""
        assert self._process.stdout is not None
        while not self._ended:
            try:
                part = os.read(self.fileno(), 1 << 20)
            except BlockingIOError:
                break
            self._ended = not part
            self._read += part
        return self._are_all() or self._ended

    def _are_all(self) -> bool:
        if self._kind == REPLAY:
            return len(self._read) >= LENGTH.size
        at = 0
        while at + LENGTH.size <= len(self._read):
            end = at + LENGTH.size + LENGTH.unpack_from(self._read, at)[0]
            if end > len(self._read):
                break
            self._found.append(bytes(self._read[at + LENGTH.size : end]))
            at = end
        del self._read[:at]
        return len(self._found) >= self._count

    def replies(self) -> List[bytes]:
        """Returns the replies to the lines. They end with the first line that was past a bound, whose reply says so.

        Raises `Killed` if something else ended the process before it answered any.
        """
        self.is_busy = False
        found = self._found
        if self._ended and len(found) < self._count:
            why = self._process.wait()
            if why == -signal.SIGPROF:
                found.append(OUT_OF_TIME)
            elif not found:
                raise Killed(f"its process ended with status {why}")
        return found

    def difference(self) -> Optional[int]:
        """Returns the index of the first line with another reply in a replay, if there is one."""
        self.is_busy = False
        if len(self._read) < LENGTH.size:
            why = self._process.wait()
            if why != -signal.SIGPROF:
                raise Killed(f"its process ended with status {why}")
            raise Unanswered("its replay was stopped: it took more processor time than its bound")
        (found,) = LENGTH.unpack_from(self._read, 0)
        if found == SHORT:
            raise Unanswered("its replay ran out of memory")
        return None if found == SAME else int(found)

    def close(self) -> None:
        """Ends it, and does not wait until its memory is given back: on a busy machine that takes long."""
        assert self._process.stdin is not None and self._process.stdout is not None
        self._process.kill()
        self._process.stdin.close()
        self._process.stdout.close()
        os.close(self._file)
        ENDING.append(self._process)
        ENDING[:] = [it for it in ENDING if it.poll() is None]


# ---- the process itself


def work(world: World, file: int, out: BinaryIO) -> None:
    """Does jobs until no more are given, or until a bound is passed."""
    while True:
        given = os.read(0, JOB.size)
        if len(given) < JOB.size:
            return
        kind, seconds, lines, replies = JOB.unpack(given)
        job = os.pread(file, lines + replies, 0)
        if kind == REPLAY:
            out.write(LENGTH.pack(replayed(world, seconds, split(job[:lines]), split(job[lines:]))))
            out.flush()
        else:
            answer_lines(world, seconds, split(job), out)
        signal.setitimer(signal.ITIMER_PROF, 0)


def replayed(world: World, seconds: float, lines: Sequence[bytes], replies: Sequence[bytes]) -> int:
    try:
        for at, (line, reply) in enumerate(zip(lines, replies)):
            signal.setitimer(signal.ITIMER_PROF, seconds)
            if reply not in LEFT_OUT and world.answer(line) != reply:
                return at
    except (Unanswered, MemoryError):
        return SHORT
    return SAME


def answer_lines(world: World, seconds: float, lines: Sequence[bytes], out: BinaryIO) -> None:
    for line in lines:
        signal.setitimer(signal.ITIMER_PROF, seconds)
        reply = world.answer(line)
        out.write(LENGTH.pack(len(reply)) + reply)
        out.flush()


def main() -> None:
    numbers, line, file = map(int, sys.argv[1:4])
    # (it is not to take the processor from the others, and its parent ends it)
    os.nice(5)
    for it in (signal.SIGINT, signal.SIGTERM):
        signal.signal(it, signal.SIG_IGN)
    try:
        work(World(numbers, line), file, sys.stdout.buffer)
    except (Unanswered, MemoryError):
        os.write(1, OUT_OF_MEMORY_REPLY)
