"""Programs of lxml, minidom and BeautifulSoup, and the same programs by the package: both say the same."""
import importlib
import importlib.util
import unittest


def has_all(*names):
    return all(importlib.util.find_spec(it) for it in names)


class Ports(unittest.TestCase):
    def said(self, name):
        lines = []
        importlib.import_module(f"tests.ports.{name}").main(lambda *words: lines.append(" ".join(map(str, words))))
        return lines

    def compare(self, theirs, ours, count):
        due, found = self.said(theirs), self.said(ours)
        self.assertGreater(len(due), count)
        for at, (one, other) in enumerate(zip(due, found)):
            self.assertEqual(other, one, at)
        self.assertEqual(len(found), len(due))

    @unittest.skipUnless(has_all("lxml", "cssselect", "bs4", "soupsieve", "elementpath"), "lxml, cssselect, soupsieve, bs4 or elementpath is not here")
    def test_lxml(self):
        self.compare("shelf_lxml", "shelf", 25)

    def test_minidom(self):
        self.compare("invoice_minidom", "invoice", 40)

    @unittest.skipUnless(has_all("bs4", "soupsieve", "html5lib"), "bs4, soupsieve or html5lib is not here")
    def test_beautiful_soup(self):
        self.compare("market_soup", "market", 35)


if __name__ == "__main__":
    unittest.main()
