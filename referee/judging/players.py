"""Players, which reply to lines: how each is started, and which lines it is given."""
import json
import os
import shlex
import shutil
import subprocess
import sys

from judging.hanging import Hanging
from judging.pages import Page
from judging.process import STARTS, Died, Fault, Lines, line_of, read_reply

HERE = os.path.dirname(os.path.dirname(os.path.abspath(__file__)))
ROOT = os.path.dirname(HERE)
PLAYERS = os.path.join(HERE, "players")
MODULES = "/usr/share/nodejs"
LIBRARY = os.path.join(ROOT, "bindings/c/out")
PROGRAM = os.path.join(ROOT, "crates/domserve/out/domserve")

# Refusals of surroundContents ahead of its first step. At any other the standard has done the steps before it, and this profile has changed nothing.
AHEAD_OF_STEPS = {"InvalidStateError", "InvalidNodeTypeError"}
# Refusals that an adapter of the standard's interfaces can't give: of a line's form, of numbers, and of this profile's own commands.
NOT_OF_THE_STANDARD = {"line-too-long", "bad-json", "bad-command", "bad-arguments", "no-such-object", "limit", "in-use", "out-of-memory"}


class NotThere(Exception):
    """A player is not installed."""


def told_by(line, turn):
    """Returns a line's reply. A line that equals the expected reply to the byte is not parsed."""
    return turn.reply if line == line_of(turn.reply) else read_reply(line)


def is_for_adapters(turn):
    """Returns whether a line can be given to an adapter. A line refused for kinds alone has changed nothing, so it can be left out."""
    refused = turn.reply.get("error")
    return refused not in NOT_OF_THE_STANDARD and (refused != "TypeError" or turn.command[0] == "observe")


class Player:
    """The interface of all players.

    - `serves`: the commands that it has, or None for all
    - `itself`: its adapter's own work
    - `ours`: whether it is a library of this project
    - `seconds`: how long a reply may take
    """

    name, version, serves, itself, ours, seconds = "player", "", None, [], False, 10.0
    # Its name by the words of the command line.
    called = None
    # Whether it numbers by place the nodes that a command makes inside, and whether its Documents have children.
    numbers, documents = False, True
    # The known hangs, the faults that its adapter can play around, those of them that it does now, and how its own users get a document.
    hanging, can_go_around, around, opened = Hanging(), (), (), None

    def introduce(self, told):
        self.name, self.version = self.called or told.get("name", self.name), told.get("version", "")
        self.serves = set(told["serves"]) if "serves" in told else None
        self.itself, self.numbers = told.get("itself", []), told.get("numbers", False)
        self.documents, self.can_go_around = told.get("documents", True), told.get("around", ())
        self.opened = told.get("opened")

    def lines(self, turns):
        """Returns the lines for a new world, each with the place of its turn, or None if its reply is not compared."""
        found = [(None, {"world": {"around": sorted(self.around)} if self.around else {}})]
        for at, turn in enumerate(turns):
            if self.numbers and not is_for_adapters(turn):
                continue
            found.append((at, turn.command))
            if self.numbers and turn.places:
                found.append((None, {"numbers": turn.places, "next": turn.next}))
            if self.parts_at(turn):
                break
        return found

    def parts_at(self, turn):
        """Returns whether the standard does a part of a command that is refused as a whole here. The two worlds differ after such a command."""
        refused = turn.command[0] == "surroundContents" and turn.reply.get("error", "InvalidStateError") not in AHEAD_OF_STEPS
        return refused and self.numbers and not self.ours

    def fault_at(self, given, count, fault):
        """Returns the place of the turn at which a fault is in place of a reply, after `count` replies, and the fault."""
        places = [at for at, _ in given if at is not None]
        return next((at for at, _ in given[count:] if at is not None), places[-1] if places else 0), fault


class Spoken(Player):
    """A process that replies to hello, and begins a world at the line for that."""

    def __init__(self, words, seconds, environment=None, name=None, ours=False):
        self.words, self.seconds, self.environment = words, seconds, environment
        self.process, self.called, self.ours = None, name, ours
        self.open()

    def open(self):
        try:
            self.process = Lines(self.words, self.seconds, self.environment)
            told = read_reply(self.process.ask(line_of({"hello": {}}), STARTS))
        except (OSError, Fault) as fault:
            self.end()
            raise NotThere(f"{shlex.join(self.words)} does not say hello: {fault}") from None
        if "player" not in told:
            self.end()
            raise NotThere(f"{shlex.join(self.words)} does not say hello: {told.get('message', line_of(told).decode())}")
        self.introduce(told["player"])

    def replies(self, turns):
        if self.process is None:
            self.open()
        given, found = self.lines(turns), []
        self.process.seconds = self.seconds
        waits = [self.seconds if at is None else self.hanging.seconds(turns[at].command, turns[at].reply, self.seconds) for at, _ in given]
        try:
            for (at, _), line in zip(given, self.process.ask_all((line_of(it) for _, it in given), waits)):
                found.append((at, read_reply(line) if at is None else told_by(line, turns[at])))
        except Fault as fault:
            self.end()
            found.append(self.fault_at(given, len(found), fault.told()))
        return [it for it in found if it[0] is not None]

    def end(self):
        if self.process:
            self.process.end()
        self.process = None


class Program(Player):
    """A process that knows only commands: it is started anew for each world."""

    def __init__(self, words, seconds, name=None):
        self.words, self.seconds = words, seconds
        self.name = name or os.path.basename(words[0])

    def replies(self, turns):
        process = Lines(self.words, self.seconds)
        found = []
        try:
            for line in process.ask_all(line_of(it.command) for it in turns):
                found.append((len(found), told_by(line, turns[len(found)])))
        except Fault as fault:
            found.append((len(found), fault.told()))
        finally:
            process.end()
        return found

    def end(self):
        pass


def says_hello(words, seconds):
    """Returns whether a process replies to hello with its name as a player."""
    try:
        process = Lines(words, seconds)
    except OSError as fault:
        raise NotThere(f"{words[0]}: {fault.strerror}") from None
    try:
        return "player" in json.loads(process.ask(line_of({"hello": {}}), STARTS))
    except Died as fault:
        raise NotThere(f"{shlex.join(words)}: {fault}") from None
    except (Fault, ValueError, TypeError):
        return False
    finally:
        process.end()


def of_words(words, seconds, name=None):
    return Spoken(words, seconds, name=name) if says_hello(words, seconds) else Program(words, seconds, name)


def modules_of_node():
    """Returns the folders besides node's own in which modules are searched: NODE_PATH, and Debian's."""
    return os.pathsep.join(it for it in (os.environ.get("NODE_PATH"), MODULES) if it)


def of_node(module, name=None, ours=False):
    """Returns the maker of a player for a module of node. The module is searched as node does, in NODE_PATH, and in Debian's folder."""

    def made(given):
        if not shutil.which("node"):
            raise NotThere("there is no node")
        if os.path.isabs(module) and not os.path.exists(module):
            raise NotThere(f"there is no {module}")
        environment = {**os.environ, "NODE_PATH": modules_of_node()}
        return Spoken(["node", os.path.join(PLAYERS, "node.js"), module, name or module], given.seconds, environment, ours=ours)

    return made


def pythons():
    """Returns the interpreters that may have a module of Debian's."""
    return dict.fromkeys(it for it in (sys.executable, "/usr/bin/python3") if it and os.access(it, os.X_OK))


def of_python(script, *needs):
    """Returns the maker of a player in Python, which runs by the first interpreter that has the modules."""

    def made(given):
        for python in pythons():
            tried = subprocess.run([python, "-c", "import " + ",".join(("sys", *needs))], stderr=subprocess.DEVNULL, check=False)
            if tried.returncode == 0:
                environment = {**os.environ, "HUCKLEPORT_LIB_DIR": given.library}
                return Spoken([python, os.path.join(PLAYERS, script)], given.seconds, environment)
        raise NotThere(f"no Python here has {' and '.join(needs)}")

    return made


def of_rust(given):
    if not shutil.which("cargo"):
        raise NotThere("there is no cargo")
    folder = os.path.join(PLAYERS, "rust")
    environment = {**os.environ, "HUCKLEPORT_LIB_DIR": given.library, "LD_LIBRARY_PATH": given.library}
    words = ["cargo", "build", "--quiet", "--offline", "--release"]
    built = subprocess.run(words, cwd=folder, env=environment, stdout=subprocess.PIPE, stderr=subprocess.STDOUT, text=True, check=False)
    if built.returncode:
        why = next((it for it in built.stdout.splitlines() if it.startswith("error")), "it gave no reason")
        raise NotThere(f"cargo can't build the player in Rust: {why}")
    return Spoken([os.path.join(folder, "target/release/player")], given.seconds, environment)


def of_page(browser):
    return lambda given: Page(browser, given.seconds)


def of_program(given):
    program = PROGRAM if given.program.endswith(".so") else given.program
    if not os.access(program, os.X_OK):
        raise NotThere(f"{program} is not built")
    return Program([program], given.seconds, "program")


BY_NAME = {
    "jsdom": of_node("jsdom"),
    "happy-dom": of_node("happy-dom"),
    "linkedom": of_node("linkedom"),
    "domino": of_node("domino"),
    "xmldom": of_node("@xmldom/xmldom", "xmldom"),
    "chromium": of_page("chromium"),
    "firefox": of_page("firefox"),
    "page": of_page(None),
    "minidom": of_python("by_minidom.py"),
    "lxml": of_python("by_lxml.py", "lxml.etree"),
    "libxml2": of_python("by_libxml2.py"),
    "program": of_program,
    "c-lines": of_python("by_c_lines.py"),
    "c-calls": of_python("by_c_calls.py"),
    "python": of_python("by_package.py"),
    "rust": of_rust,
    "javascript": of_node(os.path.join(ROOT, "bindings/javascript/lib/index.js"), "javascript", ours=True),
}


def player_of(given):
    """Returns the player that the words name: one of the list, `node:MODULE`, or any command line."""
    if given.command:
        return of_words(shlex.split(given.command), given.seconds, None if given.player == "player" else given.player)
    if given.player.startswith("node:"):
        return of_node(given.player[len("node:") :])(given)
    if given.player not in BY_NAME:
        raise NotThere(f"no player has the name {given.player}; there are {', '.join(BY_NAME)}, node:MODULE, and --command")
    return BY_NAME[given.player](given)
