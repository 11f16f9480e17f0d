"""The progress of long work, and about how long is left: on a terminal as a bar that moves, otherwise as a line a minute on standard error."""
import contextlib
import json
import os
import sys
import threading
import time

# How often it is written, in seconds: on a terminal, and elsewhere.
MOVES, LINES = 1, 60
WIDTH = 30


def clock(seconds):
    """Returns seconds as minutes and seconds, or hours and minutes."""
    whole = int(seconds)
    return f"{whole // 3600}:{whole // 60 % 60:02} h" if whole >= 3600 else f"{whole // 60}:{whole % 60:02}"


class Figures:
    """The seconds that parts took at an earlier time, in a file that may be lost."""

    def __init__(self, path):
        self.path, self.of, self.changing = path, {}, threading.Lock()
        with contextlib.suppress(OSError, ValueError), open(path, encoding="utf-8") as file:
            self.of = {str(name): float(it) for name, it in json.load(file).items()}

    def keep(self, name, seconds):
        with self.changing, contextlib.suppress(OSError):
            self.of[name] = round(seconds, 1)
            os.makedirs(os.path.dirname(self.path), exist_ok=True)
            new = f"{self.path}.{os.getpid()}"
            with open(new, "w", encoding="utf-8") as file:
                json.dump(self.of, file, indent=1, sort_keys=True)
            os.replace(new, self.path)


class Progress:
    """The progress of parts, each with the seconds that it is likely to take. `lanes` of them run side by side."""

    def __init__(self, name, seconds, lanes, to=None):
        self.name, self.seconds, self.lanes, self.to = name, dict(seconds), lanes, to or sys.stderr
        self.began, self.running, self.done = time.monotonic(), {}, set()
        self.ended, self.changing = threading.Event(), threading.Lock()
        self.is_bar = self.to.isatty()

    def begin(self, part):
        with self.changing:
            self.running[part] = time.monotonic()

    def end(self, part):
        with self.changing:
            self.running.pop(part, None)
            self.done.add(part)

    def left(self):
        """Returns about how many seconds are left: those of all parts, shared by the lanes, and no fewer than those of one part."""
        now = time.monotonic()
        with self.changing:
            # (one that takes longer than it did is taken for nearly done)
            running = [max(self.seconds[it] - (now - since), 0.1 * self.seconds[it]) for it, since in self.running.items()]
            waiting = [its for it, its in self.seconds.items() if it not in self.running and it not in self.done]
        return max([sum(running + waiting) / self.lanes, *running, *waiting], default=0)

    def text(self):
        passed, left = time.monotonic() - self.began, self.left()
        part = passed / (passed + left) if passed + left else 1
        at = ", ".join(sorted(self.running))
        if not self.is_bar:
            return f"{self.name}: {int(100 * part)}% after {clock(passed)}, about {clock(left)} left: {at}"
        marks = "#" * int(WIDTH * part)
        return f"{self.name} [{marks:<{WIDTH}}] {int(100 * part):>3}%  {clock(passed)}, about {clock(left)} left: {at}"

    def tell(self):
        while not self.ended.wait(MOVES if self.is_bar else LINES):
            self.write()

    def write(self):
        if not self.is_bar:
            print(self.text(), file=self.to, flush=True)
            return
        with contextlib.suppress(OSError):
            room = os.get_terminal_size(self.to.fileno()).columns - 1
            self.to.write(f"\r{self.text()[:room]}\x1b[K")
            self.to.flush()

    def clear(self):
        """Clears the bar, for another line."""
        if self.is_bar:
            self.to.write("\r\x1b[K")
            self.to.flush()

    def __enter__(self):
        threading.Thread(target=self.tell, daemon=True).start()
        return self

    def __exit__(self, *_):
        self.ended.set()
        self.clear()
