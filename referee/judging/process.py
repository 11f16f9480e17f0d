"""A process that replies to lines: one reply for each, within a time limit."""
import itertools
import json
import os
import selectors
import signal
import subprocess
import time


class Fault(Exception):
    """A reply is missing: the process died, hung, or printed something else. `said` describes it."""

    kind = "fault"

    def __init__(self, said):
        super().__init__(said)
        self.said = said

    def told(self):
        """Returns the fault in the place of a reply."""
        return {"fault": self.kind, "said": self.said}


class Died(Fault):
    kind = "died"


class Hung(Fault):
    kind = "hung"


class Rubbish(Fault):
    kind = "rubbish"


# How long a process may take to start.
STARTS = 60.0
WRITTEN = json.JSONEncoder(separators=(",", ":")).encode


class Lines:
    """A process of its own group, so that the processes that it starts end with it."""

    # The bytes that may wait in a pipe without being read.
    PIECE = 32768

    def __init__(self, words, seconds=10.0, environment=None, folder=None):
        self.words, self.seconds = words, seconds
        pipe = subprocess.PIPE
        settings = {"stdin": pipe, "stdout": pipe, "stderr": subprocess.DEVNULL, "bufsize": 0, "cwd": folder}
        self.process = subprocess.Popen(words, env=environment, start_new_session=True, **settings)
        self.kept = b""
        self.lines = []
        self.ready = selectors.DefaultSelector()
        self.ready.register(self.process.stdout, selectors.EVENT_READ)

    def send(self, data):
        try:
            while data:
                data = data[self.process.stdin.write(data) :]
        except BrokenPipeError:
            raise Died(self.ending()) from None

    def receive(self, seconds=None):
        """Returns the next line."""
        seconds = seconds or self.seconds
        limit = time.monotonic() + seconds
        while not self.lines:
            self.read(limit, seconds)
        return self.lines.pop(0)

    def read(self, limit, seconds):
        left = limit - time.monotonic()
        if left <= 0 or not self.ready.select(left):
            raise Hung(f"no reply within {seconds:g} seconds")
        data = os.read(self.process.stdout.fileno(), 1 << 16)
        if not data:
            raise Died(self.ending())
        *whole, self.kept = (self.kept + data).split(b"\n")
        self.lines += whole

    def ending(self):
        try:
            status = self.process.wait(1)
        except subprocess.TimeoutExpired:
            return "it closed its output"
        return f"it ended by signal {-status}" if status < 0 else f"it ended with status {status}"

    def ask(self, line, seconds=None):
        self.send(line + b"\n")
        return self.receive(seconds)

    def ask_all(self, lines, waits=None):
        """Yields the replies to all lines, which are written in pieces that fit into any pipe. `waits` are the seconds of each reply."""
        size, pending = 0, []
        for line, seconds in zip(lines, waits or itertools.repeat(self.seconds)):
            if pending and size + len(line) >= self.PIECE:
                yield from self.answered(pending)
                size, pending = 0, []
            pending.append((line, seconds))
            size += len(line) + 1
        if pending:
            yield from self.answered(pending)

    def answered(self, pending):
        self.send(b"\n".join(line for line, _ in pending) + b"\n")
        for _, seconds in pending:
            yield self.receive(seconds)

    def end(self):
        """Ends the process and those that it started."""
        self.ready.close()
        try:
            os.killpg(self.process.pid, signal.SIGKILL)
        except ProcessLookupError:
            pass
        self.process.wait()
        self.process.stdin.close()
        self.process.stdout.close()


def read_reply(line):
    """Returns a reply: an object with ok, error or skip."""
    try:
        reply = json.loads(line.decode())
    except ValueError:
        reply = None
    if not isinstance(reply, dict) or not reply.keys() & {"ok", "error", "skip", "player"}:
        raise Rubbish(line[:300].decode(errors="backslashreplace"))
    return reply


def line_of(value):
    return WRITTEN(value).encode()
