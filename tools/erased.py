"""Dialogues with an observer erased, or with all that watches the tree erased, as theorems; tools/rows.py writes them.

NAME.erased beside a dialogue lists the erased watchers: numbers of observers, each erased alone, and the word `watchers`. The replies that are left are
those of NAME.out without the replies to erased commands, and without the erased observer's part of the answers of notify and pending.
"""
import json
import os
import re

import layout

COMMANDS = "docs/commands.json"
WATCHING = "crates/dom_model/specs/Erasure/Erasing.antt"
THEOREMS = "crates/dom_model/proofs/Erasure/ErasedDialogues.antt"
BY_OBSERVER = ("observe", "disconnect", "takeRecords")

HEADER = """\
-- Dialogues with an observer erased, or with all watchers erased: the replies that are left are the same, and they are those that stand here,
-- beside the commands. Written by tools/rows.py.
use Rattle.std.proofs.Common.{{◌≡◌, refl, codes, ℕ, ◌==◌, List, [], ◌∷◌, map, flat_map, Some, None, true}}
use Rattle.dom_model.specs.Definitions.{{first_world, Command, {constructors}, no_options, Reply, replies_to, without_observers, replies_without_observers, without_watchers, replies_without_watchers}}
use Rattle.dom_model.proofs.Dialogues.{{Exchanges.usual_bounds, Released.Replies.printed, Released.Replies.printed_replies}}

-- what is printed without the erased commands is what is left of what is printed with them
abbrev IsLeft : (List Command → List Command) → (List Command → List Reply → List Reply) → List Command → List ℕ → Type 0
IsLeft without left commands bytes =
    (printed_replies (without commands) ≡ bytes) × (printed (left commands (replies_to usual_bounds first_world commands)) ≡ bytes)

abbrev IsLeftWithoutObserver : ℕ → List Command → List ℕ → Type 0
IsLeftWithoutObserver n commands bytes = IsLeft (without_observers (λ o. o == n)) (replies_without_observers (λ o. o == n)) commands bytes

abbrev IsLeftWithoutWatchers : List Command → List ℕ → Type 0
IsLeftWithoutWatchers commands bytes = IsLeft without_watchers replies_without_watchers commands bytes
"""


def read(root, path):
    with open(os.path.join(root, path), encoding="utf-8") as it:
        return it.read()


def quoted(text):
    """Returns a text as antt has it."""
    marks = text.replace("\\", "\\\\").replace('"', '\\"').replace("\n", "\\n")
    return f'codes "{marks}"' if text else "[]"


def argument(text):
    return f"({quoted(text)})" if text else "[]"


def option(value):
    """Returns an argument that may be missing."""
    if value is None:
        return "None"
    return f"(Some {str(value).lower()})"


class Table:
    """The table of commands, as the definitions have it."""

    def __init__(self, root):
        table = json.loads(read(root, COMMANDS))
        self.rows = {it["name"]: ([argument["shape"] for argument in it["arguments"]], it["command"]) for it in table["commands"]}
        self.members = [*table["flags"], *table["lists"]]
        self.watching = set(re.findall(r"^only_watches \((\w+).*\) = true$", read(root, WATCHING), re.M))

    def options(self, given):
        """Returns the options of an observer, in the order of the record."""
        told = []
        for name in sorted(given, key=self.members.index):
            value, field = given[name], re.sub(r"[A-Z]", lambda found: f"_{found[0].lower()}", name)
            names = isinstance(value, list) and " ∷ ".join([quoted(it) for it in value] + ["[]"])
            told.append(f"{field} = Some {f'({names})' if names else str(value).lower()}")
        return f"(record no_options {{ {'; '.join(told)} }})"

    def constructor(self, line):
        return self.rows[line[0]][1].split()[0]

    def command(self, line):
        """Returns a line as the constructor that its row makes of it."""
        shapes, term = self.rows[line[0]]
        given = line[1:]
        words = {
            "a_text": ("a.text", argument),
            "a_text_or_null": ("a.text", lambda text: argument(text or "")),
            "a_number_or_null": ("a.number", option),
            "a_flag": ("a.flag", lambda flag: str(flag).lower()),
            "a_flag_or_null": ("a.flag_or_null", option),
            "a_filter": ("a.rules", lambda rules: {0: "[]"}[len(rules)]),
            "the_options": ("a.options", self.options),
        }
        for place, (shape, value) in enumerate(zip(shapes, given)):
            if shape == "a_number":
                term = re.sub(rf"\(number_at a {place}\)|number_at a {place}", str(value), term)
            elif shape == "a_string":
                term = term.replace(f"(string_at a {place})", argument(value))
            else:
                word, told = words[shape]
                term = re.sub(rf"{re.escape(word)}(?!_)", lambda _: told(value), term)
        return term


def left(word, line, reply, table):
    """Returns the rest of the reply to a line if the watchers that a word names are erased, or None if the line is erased."""
    if word == "watchers":
        return None if table.constructor(line) in table.watching else reply
    erased = int(word)
    if line[0] in BY_OBSERVER and line[1] == erased:
        return None
    if line[0] == "notify":
        return {"ok": [told for told in reply["ok"] if told[0] != erased]}
    if line[0] == "pending":
        return {"ok": [number for number in reply["ok"] if number != erased]}
    return reply


def printed(reply):
    return "[]" if reply is None else quoted(json.dumps(reply, separators=(",", ":"), ensure_ascii=False) + "\n")


def theorems(name, erased, lines, replies, table):
    """Yields the commands of one dialogue, each with the rest of its reply for each erased watcher, and the theorems."""
    row = " × ".join(["Command", *("List ℕ" for _ in erased)])
    rows = ([table.command(line), *(printed(left(word, line, reply, table)) for word in erased)] for line, reply in zip(lines, replies))
    yield f"\nabbrev {name} : List ({row})\n{name} ={layout.listing(rows)}\n"
    for place, word in enumerate(erased, 1):
        title, claim = ("unwatched", "IsLeftWithoutWatchers") if word == "watchers" else (f"without_{word}", f"IsLeftWithoutObserver {word}")
        yield (
            f"\n{name}_{title} : {claim} (map (λ e. e.0) {name}) (flat_map (λ e. e.{place}) {name})\n"
            f"unfolding printed\n{name}_{title} = (refl, refl)\n"
        )


def write(root, dialogues):
    """Writes the theorems of the dialogues. Each dialogue is its name, its erased watchers, its bytes and the expected ones."""
    table, used, made = Table(root), set(), []
    for name, erased, given, due in dialogues:
        lines = [json.loads(line) for line in given.splitlines()]
        replies = [json.loads(line) for line in due.splitlines()]
        used.update(table.constructor(line) for line in lines)
        made += theorems(name, erased, lines, replies, table)
    with open(os.path.join(root, THEOREMS), "w", encoding="utf-8") as out:
        out.write(HEADER.format(constructors=", ".join(sorted(used))) + "".join(made))
