"""A run: it plays streams one after another, shrinks and keeps the differences, and shows its progress. A stop keeps all that was found."""
import json
import signal
import sys
import time
from collections import Counter
from dataclasses import dataclass

from judging.found import Found, case_of
from judging.judge import Judge, key_of
from judging.known import entry_of, entry_of_case
from judging.moments import last_moments, moments_of, place_of
from judging.playing_on import Stream
from judging.process import Fault
from judging.report import counted, group_of
from judging.shown import Shown
from judging.shrink import shrunk

TELLS_EACH = 2.0
# The number of differences with the same key that are shrunk; of later ones each whose count is a power of two.
SHRUNK = 2
# The number of cases that are kept of a known difference, for each command that it comes from.
ENOUGH = 2


@dataclass
class Limits:
    """The limits of a run: seconds, lines, streams and new differences. It ends at the first that it reaches."""

    seconds: float | None = None
    lines: int | None = None
    streams: int | None = None
    new: int | None = None


class CoreFailed(Exception):
    """The core gave no reply."""


class Stop:
    """A flag that Ctrl-C and the signal to end set. The run checks it between streams."""

    def __init__(self):
        self.asked = False
        for it in (signal.SIGINT, signal.SIGTERM):
            signal.signal(it, self.ask)

    def ask(self, *_):
        if self.asked:
            raise KeyboardInterrupt
        self.asked = True


def looked_at(judge, least, group="", seed=""):
    """Returns the case of a shrunk difference, with the state behind each of its commands. A line without a reply is not played once more."""
    turns = least.difference.turns[: len(least.difference.turns) - ("fault" in least.difference.told)]
    moments = moments_of(judge, [it.command for it in turns])
    return case_of(least.difference, judge.player, group, seed, moments, least.again)


class Run:
    def __init__(self, cores, player, known, folder, limits, quiet=False, save=None):
        self.judge, self.player, self.known = Judge(cores, player), player, known
        self.found, self.limits, self.quiet = Found(folder), limits, quiet
        self.save = open(save, "w", encoding="utf-8") if save else None
        self.stop = Stop()
        self.begun = self.told = time.monotonic()
        # For each kind of difference: how often it was seen, and the last case to which it was shrunk.
        self.seen, self.cases, self.differing = {}, {}, 0
        # The seeds of the streams that show each difference.
        self.first, self.shown = Counter(), {}
        self.ended = "all streams were played"

    # progress

    def seconds(self):
        return time.monotonic() - self.begun

    def line(self):
        seconds, judge = max(self.seconds(), 0.001), self.judge
        new = len(self.found.new())
        parts = [counted(judge.streams, "stream"), counted(judge.lines, "line"), f"{judge.lines / seconds:,.0f} lines/s"]
        differ = f"{self.differing:,} {'differs' if self.differing == 1 else 'differ'}"
        return ", ".join([*parts, differ, counted(len(self.found.cases), "case"), f"{new:,} new"])

    def tell(self, at_once=False):
        if not self.quiet and (at_once or time.monotonic() - self.told > TELLS_EACH):
            self.told = time.monotonic()
            print(f"{self.seconds():7.1f} s: {self.line()}", file=sys.stderr, flush=True)

    def over(self):
        """Returns why the run ends, or None if it goes on."""
        limits, judge = self.limits, self.judge
        if self.stop.asked:
            return "it was stopped"
        if limits.seconds and self.seconds() >= limits.seconds:
            return "its time was over"
        if limits.lines and judge.lines >= limits.lines:
            return "its lines were played"
        if limits.streams and judge.streams >= limits.streams:
            return "its streams were played"
        return "it found what it was asked for" if limits.new and len(self.found.new()) >= limits.new else None

    # streams

    def play(self, streams):
        """Plays streams, each a group, a seed and a function that plays it to a core, up to a limit or to their end."""
        for group, seed, played in streams:
            over = self.over()
            if over:
                self.ended = over
                break
            self.play_one(group, seed, played)
            self.tell()
        return self.end()

    def play_one(self, group, seed, played):
        try:
            with self.judge.core() as core:
                turns = played(core)
        except Fault as fault:
            raise CoreFailed(f"the core {fault.kind}: {fault.said} (group {group}, seed {seed})") from None
        if self.save:
            json.dump([group, seed, [[it.command, it.reply, it.places, it.next] for it in turns]], self.save, separators=(",", ":"))
            self.save.write("\n")
        self.compare(Stream(self.judge, turns), group, seed)

    def compare(self, stream, group, seed):
        """Compares a stream to its end, through any differences."""
        before = Counter(self.judge.by_command)
        found = stream.compare()
        self.first.update(self.judge.by_command - before)
        self.differing += found.difference is not None
        while found.place is not None and not self.stop.asked and self.goes_on(stream, found, group, seed):
            found = stream.compare()

    def goes_on(self, stream, found, group, seed):
        """Handles a difference, if there is one, so that the rest of the stream can be compared. Returns whether it can."""
        if found.difference:
            case = self.look_at(found.difference, group, seed)
            around = next((it.get("around") for it in self.known if it["name"] == case.known), None)
            if stream.pass_over(found.difference, case) or stream.go_around(around):
                return True
        return stream.leave_out(found.place)

    def look_at(self, difference, group, seed):
        """Returns the case of a difference. The difference is shrunk, unless many that look the same were."""
        key = key_of(difference)
        count = self.seen[key] = self.seen.get(key, 0) + 1
        if count <= SHRUNK or not count & (count - 1):
            self.cases[key] = self.one_of_enough(difference) or self.shrink(difference, group, seed)
        case = self.cases[key]
        case.count += 1
        self.shown.setdefault(group_of(case), set()).add(seed)
        return case

    def one_of_enough(self, difference):
        """Returns a case of the known difference that fits an unshrunk one, if there are enough cases of it."""
        apart = Judge(self.judge.cores, self.player)
        moments = last_moments(apart, difference)
        entry = None if moments is None else entry_of(self.known, self.player.name, Shown(apart, difference, moments))
        if entry is None:
            return None
        cause = difference.turns[place_of(moments, len(difference.turns) - 1)].command[0]
        cases = [it for it in self.found.cases.values() if it.known == entry["name"] and it.key["cause"] == cause]
        return cases[0] if len(cases) >= ENOUGH else None

    def shrink(self, difference, group, seed):
        """Shrinks a difference and returns its case, which is kept if it is a new one."""
        apart = Judge(self.judge.cores, self.player)
        least = shrunk(apart, difference)
        case = self.found.case(least.difference)
        if case:
            return case
        case = looked_at(apart, least, group, seed)
        entry = entry_of_case(self.known, self.player.name, apart, case) if case.again else None
        case.known = entry and entry["name"]
        self.found.keep(case)
        if not self.quiet and not entry:
            once = "" if case.again else ", which did not come again"
            print(f"new: {case.key['cause']} shown by {case.key['shows']}, {len(case.commands)} commands{once}", file=sys.stderr, flush=True)
        return case

    def summary(self):
        judge, player = self.judge, self.player
        return {
            "player": player.name,
            "version": player.version,
            "serves": sorted(player.serves) if player.serves is not None else None,
            "itself": player.itself,
            "streams": judge.streams,
            "lines": judge.lines,
            "compared": judge.compared,
            "compared by command": dict(judge.by_command.most_common()),
            "compared with a filter": judge.with_filter,
            "up to the first difference": dict(self.first.most_common()),
            "left out": judge.left_out,
            "opened": player.opened,
            "seconds": round(self.seconds(), 1),
            "differing streams": self.differing,
            "streams by difference": {name: len(seeds) for name, seeds in self.shown.items()},
            "cases": len(self.found.cases),
            "new": len(self.found.new()),
            "ended": self.ended,
        }

    def end(self):
        told = self.summary()
        if self.save:
            self.save.close()
        self.found.end(told)
        self.tell(at_once=True)
        return told
