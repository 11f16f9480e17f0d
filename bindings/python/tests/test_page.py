"""docs/python.md and README.md: their examples print the text beside them, and each name that the former lists is there."""
import contextlib
import io
import os
import re
import unittest

import huckleport

PACKAGE = os.path.dirname(os.path.dirname(os.path.abspath(__file__)))
PAGE = os.path.join(PACKAGE, "..", "..", "docs", "python.md")


def printed(program):
    said = io.StringIO()
    with contextlib.redirect_stdout(said):
        exec(program, {"huckleport": huckleport})
    return said.getvalue()


class Page(unittest.TestCase):
    def setUp(self):
        with open(PAGE, encoding="utf-8") as file:
            self.text = file.read()

    def test_examples(self):
        found = re.findall(r"```python\n(.*?)```\n\n```text\n(.*?)```", self.text, re.S)
        self.assertEqual(len(found), 5)
        for program, due in found:
            if "html.parse" in program and not huckleport.html.PARSER:
                continue
            self.assertEqual(printed(program), due)

    def test_readme(self):
        with open(os.path.join(PACKAGE, "README.md"), encoding="utf-8") as file:
            program = re.search(r"```python\n(.*?)```", file.read(), re.S)[1]
        self.assertEqual(printed(program), re.search("  # (.*\n)", program)[1])

    def test_names(self):
        kinds = [it for it in vars(huckleport).values() if isinstance(it, type)]
        known = {name for it in kinds for name in dir(it)} | {"session", "number", *huckleport.__all__}
        known.update(huckleport.html.__all__, huckleport.xml.__all__)
        rows = re.search(r"^## All of it\n(.*?)^## ", self.text, re.S | re.M)[1]
        listed = set(re.findall(r"`(?:\w+\.)?([a-z_]+)(?:\([^`]*\))?`", rows))
        self.assertGreater(len(listed), 100)
        self.assertEqual(listed - known - {"str", "for"}, set())

    def test_all_public_names_are_listed(self):
        rows = re.search(r"^## All of it\n(.*?)^## ", self.text, re.S | re.M)[1]
        words = set(re.findall(r"\w+", rows))
        for kind in (huckleport.Session, *huckleport.objects.SessionObject.__subclasses__()):
            for it in (kind, *kind.__subclasses__()):
                found = {name for name in vars(it) if name.islower() and not name.startswith("_")}
                self.assertEqual(found - words, set(), it)


if __name__ == "__main__":
    unittest.main()
