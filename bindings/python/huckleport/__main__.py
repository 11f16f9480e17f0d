"""Reads commands, and shows after each the reply, the trees, and where the ends of live ranges stand.

A command is a line of JSON, or its name and its arguments: appendChild 0 1, createText 0 "some text". Try: help
"""

from __future__ import annotations

import argparse
import json
import os
import sys
from typing import IO, Callable, Iterator, List, Optional, Set, TypeVar

from . import Session, __version__
from ._commands import COMMANDS
from .errors import Error, NoSuchObject
from .objects import SessionObject
from .showing import drawn, plain

K = TypeVar("K", bound=SessionObject)

COLOURS = {"element": "36", "text": "32", "mark": "1;33", "number": "2", "error": "31"}
# How many nodes are shown of all trees together.
MOST = 200


def coloured(text: str, of: str) -> str:
    return f"\x1b[{COLOURS[of]}m{text}\x1b[0m"


def words(line: str) -> List[object]:
    """The words of a command: values of JSON, and else strings up to the next space."""
    found: List[object] = []
    decoder, at = json.JSONDecoder(), 0
    while at < len(line):
        if line[at].isspace():
            at += 1
            continue
        try:
            value, end = decoder.raw_decode(line, at)
        except ValueError:
            end = at
        if end == at or end < len(line) and not line[end].isspace():
            end = next((it for it in range(at, len(line)) if line[it].isspace()), len(line))
            value = line[at:end]
        found.append(value)
        at = end
    return found


def as_line(text: str) -> bytes:
    """Returns the typed text as a line of JSON."""
    text = text.strip()
    if not text.startswith("["):
        text = json.dumps(words(text))
    return text.encode("utf-8", "surrogateescape")


def help_text() -> str:
    """All commands by their groups."""
    found, group = [__doc__.strip() if __doc__ else "", ""], ""
    for it in COMMANDS:
        if it.group != group:
            group = it.group
            found += ["", group]
        found.append(f"  {' '.join((it.name, *it.arguments)):<48} {it.answer}")
    return "\n".join([*found, "", "help, quit"])


class Terminal:
    """A session that is shown."""

    def __init__(self, session: Session, out: IO[str], is_coloured: bool, has_trees: bool) -> None:
        self.session, self.out, self.has_trees = session, out, has_trees
        self.paint = coloured if is_coloured else plain
        self.seen = {"node": 0, "range": 0}

    def say(self, text: str) -> None:
        self.out.write(text + "\n")

    def answer(self, text: str) -> None:
        reply = self.session.line(as_line(text)).decode().rstrip("\n")
        self.say(self.paint(reply, "error") if reply.startswith('{"error"') else reply)
        if self.has_trees:
            self.show()

    def there(self, find: Callable[[int], K], kind: str) -> Iterator[K]:
        """The objects that are there. Numbers are given in order, so past those that were seen the first gap is the end."""
        number = 0
        while True:
            try:
                yield find(number)
                self.seen[kind] = max(self.seen[kind], number + 1)
            except NoSuchObject:
                if number >= self.seen[kind]:
                    return
            number += 1

    def show(self) -> None:
        ranges = list(self.there(self.session.range, "range"))
        shown: Set[int] = set()
        for node in self.there(self.session.node, "node"):
            if node.number in shown:
                continue
            root = node.get_root_node()
            shown.update(it.node.number for it in root.tree())
            for line in drawn(root, ranges, self.paint, MOST):
                self.say(line)
            if len(shown) > MOST:
                self.say("...")
                break
        for it in ranges:
            self.say(f"range {it.number}: {it._said()} {str(it)!r}")


def typed(is_terminal: bool) -> Iterator[str]:
    """The lines that are typed, or of standard input."""
    if not is_terminal:
        for raw in sys.stdin.buffer:
            yield raw.decode("utf-8", "surrogateescape").rstrip("\n")
        return
    try:
        import readline

        names = [it.name for it in COMMANDS] + ["help", "quit"]
        readline.set_completer(lambda text, at: dict(enumerate(it + " " for it in names if it.startswith(text))).get(at))
        readline.parse_and_bind("tab: complete")
    except ImportError:
        pass
    while True:
        try:
            yield input("> ")
        except (EOFError, KeyboardInterrupt):
            print()
            return


def run(session: Session, given: argparse.Namespace) -> None:
    is_terminal = sys.stdin.isatty()
    is_coloured = sys.stdout.isatty() and not os.environ.get("NO_COLOR") and os.environ.get("TERM") != "dumb"
    terminal = Terminal(session, sys.stdout, is_coloured, not given.replies)
    for line in typed(is_terminal):
        if not is_terminal and not given.replies:
            terminal.say(f"> {line}")
        word = line.strip()
        if word in ("quit", "exit"):
            return
        if word == "help":
            terminal.say(help_text())
        elif word or given.replies:
            terminal.answer(line)


def main(arguments: Optional[List[str]] = None) -> int:
    parser = argparse.ArgumentParser(prog="python3 -m huckleport", description=__doc__, formatter_class=argparse.RawDescriptionHelpFormatter)
    parser.add_argument("--numbers", type=int, default=4294967295, metavar="N", help="how many numbers each kind of object has")
    parser.add_argument("--line", type=int, default=1048576, metavar="BYTES", help="the longest line")
    parser.add_argument("--replies", action="store_true", help="show replies alone")
    parser.add_argument("--version", action="version", version=f"huckleport {__version__}")
    given = parser.parse_args(arguments)
    for stream in (sys.stdout, sys.stderr):
        if hasattr(stream, "reconfigure"):
            stream.reconfigure(errors="backslashreplace")
    try:
        with Session(given.numbers, given.line) as session:
            run(session, given)
            sys.stdout.flush()
    except (Error, OverflowError) as fault:
        print(f"huckleport: {fault}", file=sys.stderr)
        return 1
    except BrokenPipeError:
        os.dup2(os.open(os.devnull, os.O_WRONLY), 1)
    return 0


if __name__ == "__main__":
    sys.exit(main())
