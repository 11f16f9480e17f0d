"""The command line, as a program of its own."""
import os
import subprocess
import sys
import unittest

import huckleport
from huckleport.__main__ import coloured, words

HERE = os.path.dirname(os.path.dirname(os.path.abspath(__file__)))
GIVEN = b"""\
createElement 0 p
createText 0 "some text"
["appendChild",1,2]
createRange 0
setStart 0 2 5
nosuch
"""


def run(given, *arguments, **environment):
    words = [sys.executable, "-m", "huckleport", *arguments]
    found = {**os.environ, "PYTHONPATH": HERE, **environment}
    return subprocess.run(words, input=given, stdout=subprocess.PIPE, stderr=subprocess.PIPE, env=found, timeout=60)


class Terminal(unittest.TestCase):
    def test_shown(self):
        ran = run(GIVEN)
        self.assertEqual((ran.returncode, ran.stderr), (0, b""))
        parts = ran.stdout.decode().split("> ")
        due = "setStart 0 2 5\n" '{"ok":null}\n' "0 <Document>\n1 <p>\n2   'some ' [0 0] 'text'\nrange 0: (2, 5)-(2, 5) ''\n"
        self.assertEqual(ran.stdout.decode().split("\n> ")[4].rstrip("\n") + "\n", due)
        self.assertIn('{"error":"bad-command"}', parts[-1])
        self.assertNotIn("\x1b", ran.stdout.decode())

    def test_replies(self):
        ran = run(b'["createElement",0,"p"]\n["tree",1]\n', "--replies")
        self.assertEqual(ran.stdout, b'{"ok":1}\n{"ok":[[0,1,1,"p",[]]]}\n')

    def test_help(self):
        said = run(b"help\n").stdout.decode()
        self.assertIn("insertBefore parent node child?", said)

    def test_version(self):
        self.assertEqual(run(b"", "--version").stdout.decode(), f"huckleport {huckleport.__version__}\n")

    def test_words(self):
        self.assertEqual(words('a 0 "b c" true null [1,2] d"e 1x'), ["a", 0, "b c", True, None, [1, 2], 'd"e', "1x"])

    def test_colours(self):
        self.assertEqual(coloured("p", "text"), "\x1b[32mp\x1b[0m")


if __name__ == "__main__":
    unittest.main()
