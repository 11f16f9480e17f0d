"""The words of the command line, and what each subcommand does."""
import argparse
import itertools
import json
import os
import sys

from judging.commands import COMMANDS
from judging.core import Cores, Turn
from judging.drawing import GROUPS, drawn_stream
from judging.found import cases_of
from judging.hanging import hanging_of
from judging.judge import Judge, same
from judging.issues import REPORTS, faults_of
from judging.junit import junit_of
from judging.known import KNOWN, WHY, entry_of_case, read_known
from judging.players import BY_NAME, LIBRARY, PROGRAM, NotThere, player_of
from judging.process import Fault
from judging.report import line, page_of
from judging.running import CoreFailed, Limits, Run, looked_at
from judging.scenes import KINDS, NEEDS, scenes
from judging.shrink import shrunk
from judging.streams import play_commands

SAME, DIFFERS, WRONG_WORDS, NOT_THERE = range(4)

STATUSES = """
Statuses: 0 if nothing new was found, 1 if something was, 2 for wrong words, 3 if the core or the player is missing or fails to start.
"""


def words_of_player(parser):
    parser.add_argument("--player", default="player", metavar="NAME", help=f"{', '.join(BY_NAME)}, or node:MODULE")
    parser.add_argument("--command", metavar="WORDS", help="a command line that answers lines, in place of a player's name")
    parser.add_argument("--program", help="the core: a program like domserve, or a libhuckleport.so, which is quicker (the library where it is made, else the program)")
    parser.add_argument("--library", default=LIBRARY, metavar="FOLDER", help="the folder of libhuckleport.so (bindings/c/out)")
    parser.add_argument("--wait", dest="seconds", type=float, default=10.0, metavar="SECONDS", help="how long a reply may take (10)")


def words_of_known(parser):
    parser.add_argument("--known", default=KNOWN, metavar="FILE", help="the known differences (referee/known.json)")


def words_of_run(parser):
    words_of_player(parser)
    parser.add_argument("--for", dest="time", type=float, metavar="SECONDS", help="ends after this many seconds")
    parser.add_argument("--lines", type=int, metavar="N", help="ends after N lines")
    parser.add_argument("--new", type=int, metavar="N", help="ends after N new differences")
    words_of_known(parser)
    parser.add_argument("--out", default="referee-out", metavar="FOLDER", help="the folder for the cases found (referee-out)")
    parser.add_argument("--junit", metavar="FILE", help="writes the run as JUnit XML too")
    parser.add_argument("--quiet", action="store_true", help="shows no progress")


def weight(word):
    name, _, value = word.partition("=")
    try:
        found = float(value)
    except ValueError:
        found = -1.0
    if name not in COMMANDS or found < 0:
        raise argparse.ArgumentTypeError(f"{word} is no COMMAND=WEIGHT")
    return name, found


def parser_of():
    raw = {"formatter_class": argparse.RawDescriptionHelpFormatter, "epilog": STATUSES}
    parser = argparse.ArgumentParser(prog="referee", description="Plays streams of commands to the core and to a player, and compares reply by reply.", **raw)
    parts = parser.add_subparsers(dest="part", required=True, metavar="SUBCOMMAND")
    play = parts.add_parser("play", help="plays streams drawn by chance", **raw)
    words_of_run(play)
    play.add_argument("--group", action="append", choices=list(GROUPS), help="only streams of this group; may be given more than once")
    play.add_argument("--weight", action="append", type=weight, metavar="COMMAND=WEIGHT", help="how often a command is drawn; 0 leaves it out")
    play.add_argument("--seed", default="1", help="the seed of the streams (1)")
    play.add_argument("--first", type=int, default=0, metavar="N", help="begins with the stream of that number (0)")
    play.add_argument("--length", type=int, default=80, metavar="N", help="how long a stream gets (80)")
    play.add_argument("--save", metavar="FILE", help="keeps the streams with the core's replies, for other players")
    play.add_argument("--from", dest="saved", metavar="FILE", help="plays the streams that a file keeps, and draws none")
    play.add_argument("--streams", type=int, metavar="N", help="ends after N streams")
    exhaust = parts.add_parser("exhaust", help="plays all short scenes of a kind", **raw)
    words_of_run(exhaust)
    exhaust.add_argument("--kind", action="append", choices=list(KINDS), help="only scenes of this kind; may be given more than once")
    for name, what in (("replay", "plays a file of lines, or a case that was kept, and shows both replies"), ("shrink", "makes a file of lines that differs as short as it gets")):
        part = parts.add_parser(name, help=what, **raw)
        words_of_player(part)
        words_of_known(part)
        part.add_argument("file", help="lines, one command each, or a kept case")
    report = parts.add_parser("report", help="writes the page of a run's cases", **raw)
    report.add_argument("folder", help="the folder that play or exhaust wrote")
    words_of_known(report)
    report.add_argument("-o", dest="to", metavar="FILE", help="the page (report.html in the folder)")
    issue = parts.add_parser("issue", help="writes a fault of a report as text for its maintainers' tracker, or lists the faults", **raw)
    issue.add_argument("name", choices=sorted(REPORTS), help="the report")
    issue.add_argument("number", type=int, nargs="?", metavar="N", help="the number of the fault; without it all are listed")
    players = parts.add_parser("players", help="lists the installed players, with their adapters' own work", **raw)
    words_of_player(players)
    return parser


def saved(path):
    """Yields the streams that a file keeps."""
    with open(path, encoding="utf-8") as file:
        for line in file:
            group, seed, turns = json.loads(line)
            yield group, seed, lambda core, turns=turns: [Turn(command, reply, [], places, last) for command, reply, places, last in turns]


def drawn(given, player):
    """Yields streams without an end, of the groups in turn; or those that a file keeps."""
    if given.saved:
        yield from saved(given.saved)
        return
    groups = given.group or list(GROUPS)
    for at in itertools.count(given.first):
        group, seed = groups[at % len(groups)], f"{given.seed}/{groups[at % len(groups)]}/{at}"
        yield group, seed, lambda core, group=group, seed=seed: drawn_stream(core, seed, group, given.length, player, dict(given.weight or ()))


def exhausted(given, player):
    """Yields all scenes of the kinds that the player serves."""
    for kind in given.kind or list(KINDS):
        if player.serves is not None and not NEEDS[kind] <= player.serves:
            print(f"left out: {kind}, since {player.name} has no {', '.join(sorted(NEEDS[kind] - player.serves))}", file=sys.stderr)
            continue
        for name, played in scenes(kind):
            yield kind, f"{kind}/{name}", played


def run_of(given, streams):
    known, player = read_known(given.known), player_of(given)
    player.hanging = hanging_of(known, player.name)
    limits = Limits(given.time, given.lines, getattr(given, "streams", None), given.new)
    cores = Cores(given.program)
    run = Run(cores, player, known, given.out, limits, given.quiet, getattr(given, "save", None))
    try:
        told = run.play(streams(given, player))
    finally:
        player.end()
        cores.end()
    cases = list(run.found.cases.values())
    if given.junit:
        with open(given.junit, "w", encoding="utf-8") as file:
            file.write(junit_of(cases, told))
    print(f"{player.name} {player.version}".strip() + f": {run.line()}; {told['ended']}")
    return DIFFERS if run.found.new() else SAME


def commands_of(path):
    """Returns the commands of a file of lines, or of a case."""
    kept = case_in(path)
    if kept:
        return kept["commands"]
    with open(path, encoding="utf-8") as file:
        return [json.loads(it) for it in file if it.strip()]


def case_in(path):
    """Returns the case that a file keeps, or None if it has lines."""
    with open(path, encoding="utf-8") as file:
        try:
            found = json.load(file)
        except ValueError:
            return None
    return found if isinstance(found, dict) and "commands" in found else None


def replay(given):
    player = player_of(given)
    with Cores(given.program).open() as core:
        turns = play_commands(core, commands_of(given.file))
    told = dict(player.replies(turns))
    player.end()
    differs = False
    kept = case_in(given.file)
    for at, turn in enumerate(turns):
        other = told.get(at, {"skip": "not given to this player"})
        here = "skip" not in other and not same(turn.reply, other)
        differs = differs or here
        print(line(turn.command), line(turn.reply), *(["BUT", line(other)] if here or "skip" in other else []), sep="\t")
    if kept and not differs:
        print(f"the reply to the last line when the case was kept, {line(kept['told'])}, did not come again", file=sys.stderr)
    return DIFFERS if differs else SAME


def shrink(given):
    player = player_of(given)
    judge = Judge(Cores(given.program), player)
    try:
        with judge.core() as core:
            found = judge.difference(play_commands(core, commands_of(given.file)))
        if not found:
            print("the player gives the same replies", file=sys.stderr)
            return SAME
        least = shrunk(judge, found, 60.0)
        case = looked_at(judge, least)
    finally:
        player.end()
    for command in case.commands:
        print(line(command))
    entry = entry_of_case(read_known(given.known), player.name, judge, case)
    told = f"known: {entry['name']} ({WHY[entry['why']]})" if entry else "new"
    print(f"core   {line(case.replies[-1])}\nplayer {line(case.told)}\n{told if case.again else 'it did not come again when the lines were played anew'}", file=sys.stderr)
    return DIFFERS


def report(given):
    cases, told = cases_of(given.folder)
    path = given.to or os.path.join(given.folder, "report.html")
    with open(path, "w", encoding="utf-8") as file:
        file.write(page_of(cases, told, read_known(given.known)))
    print(path)
    return SAME


def players(given):
    for name in BY_NAME:
        if name == "page":
            continue
        given.player = name
        try:
            found = player_of(given)
        except NotThere as fault:
            print(f"{name}: not here: {fault}")
            continue
        found.end()
        print(f"{name} {found.version}".strip() + f": {'all' if found.serves is None else len(found.serves)} commands")
        for it in found.itself:
            print(f"  itself: {it}")
    return SAME


def issue(given):
    found = faults_of(given.name)
    if given.number is None:
        for at, fault in enumerate(found, 1):
            print(f"{at}  {fault.title}")
        return SAME
    if not 1 <= given.number <= len(found):
        print(f"referee: {given.name} has the faults 1 to {len(found)}", file=sys.stderr)
        return WRONG_WORDS
    print(found[given.number - 1].text(), end="")
    return SAME


PARTS = {
    "play": lambda given: run_of(given, drawn),
    "exhaust": lambda given: run_of(given, exhausted),
    "replay": replay,
    "shrink": shrink,
    "report": report,
    "players": players,
    "issue": issue,
}


def main():
    given = parser_of().parse_args()
    needs_core = given.part not in ("report", "issue")
    if needs_core and not given.program:
        made = os.path.join(given.library, "libhuckleport.so")
        given.program = made if os.path.exists(made) else PROGRAM
    if needs_core and not os.access(given.program, os.X_OK):
        print(f"{given.program} is not built: run ./domserve once, or name another by --program", file=sys.stderr)
        return NOT_THERE
    try:
        return PARTS[given.part](given)
    except (NotThere, CoreFailed, Fault) as fault:
        print(f"referee: {fault}", file=sys.stderr)
        return NOT_THERE
    except (OSError, ValueError) as fault:
        print(f"referee: {fault}", file=sys.stderr)
        return WRONG_WORDS
