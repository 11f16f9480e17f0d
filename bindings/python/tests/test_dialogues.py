"""Each dialogue by lines, and again by objects, byte for byte; and each command by objects in one of them."""
import json
import os
import unittest

import huckleport
from huckleport._commands import COMMANDS
from tests.by_objects import Speaker

HERE = os.path.dirname(os.path.abspath(__file__))
DIALOGUES = os.path.join(os.path.dirname(os.path.dirname(os.path.dirname(HERE))), "dialogues")
# Refusals of a line's form, which no call can say.
OF_LINES = {"line-too-long", "bad-json", "bad-command", "bad-arguments"}


def content(path):
    with open(path, "rb") as file:
        return file.read()


def dialogues():
    for folder, _, names in sorted(os.walk(DIALOGUES)):
        for name in sorted(names):
            if name.endswith(".in"):
                front = os.path.join(folder, name[:-3])
                words = content(front + ".opts").decode().split() if os.path.exists(front + ".opts") else []
                limits = {it[2:]: int(value) for it, value in zip(words[::2], words[1::2])}
                yield os.path.relpath(front, DIALOGUES), content(front + ".in"), content(front + ".out"), limits


def lines_of(given):
    """The lines as the program cuts them: a last piece that is not empty is a line too."""
    found = given.split(b"\n")
    return found if found[-1] else found[:-1]


def line_of(reply):
    return json.dumps(reply, ensure_ascii=False, separators=(",", ":")).encode() + b"\n"


class Dialogues(unittest.TestCase):
    def test_lines(self):
        count = 0
        for name, given, due, limits in dialogues():
            with self.subTest(name), huckleport.Session(**limits) as session:
                self.assertEqual(b"".join(map(session.line, lines_of(given))), due)
            count += 1
        self.assertGreater(count, 80)

    def test_objects(self):
        seen = set()
        for name, given, due, limits in dialogues():
            with self.subTest(name), huckleport.Session(**limits) as session:
                speaker = Speaker(session)
                for line, reply in zip(lines_of(given), due.splitlines(True)):
                    if json.loads(reply).get("error") not in OF_LINES:
                        command, *values = json.loads(line)
                        seen.add(command)
                        self.assertEqual(self.said(speaker, command, values), reply, line)
        self.assertEqual(seen, {it.name for it in COMMANDS})
        self.assertEqual(len(COMMANDS), 83)

    def said(self, speaker, command, values):
        try:
            return line_of({"ok": getattr(speaker, command)(*values)})
        except huckleport.Error as fault:
            return line_of({"error": fault.name})


if __name__ == "__main__":
    unittest.main()
