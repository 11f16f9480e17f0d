"""The faults of the reports, each as text for its maintainers' tracker: a title, and a script that runs by itself, with its output and the expected one."""
import os
import re
from collections import namedtuple

FOLDER = os.path.join(os.path.dirname(os.path.dirname(os.path.abspath(__file__))), "reports")
REPORTS = {it.removesuffix(".md") for it in os.listdir(FOLDER)}
NO_FAULTS = ("The letter of the standard", "Ours")
# A paragraph that is none of the player's faults says so.
NO_FAULT = re.compile(r"\(the letter|comments say|as DOM Level 2 says", re.IGNORECASE)
PARAGRAPH = re.compile(r"^\*\*(.+?)\*\*(.*?)(?=^\*\*|^## |\Z)", re.MULTILINE | re.DOTALL)
CODE = re.compile(r"```(\w+)\n(.*?)```", re.DOTALL)


class Fault(namedtuple("Fault", "heading title words language opening code")):
    """A fault of a report. `opening` is the code that each piece of the report's code runs behind."""

    def text(self):
        script = f"```{self.language}\n{self.opening}{self.code}```"
        return f"{self.title}\n\n{self.words}\n\nVersion: {self.heading}. This script shows it:\n\n{script}\n"


def faults_of(name):
    """Returns the faults of a report, in its order, without the paragraphs that are about no fault."""
    with open(os.path.join(FOLDER, f"{name}.md"), encoding="utf-8") as file:
        text = file.read()
    heading = text.splitlines()[0].removeprefix("# ").removesuffix(" beside the DOM Standard")
    opening = CODE.search(text)
    found = []
    for chapter in re.split(r"^## ", text, flags=re.MULTILINE):
        if not chapter.startswith(NO_FAULTS):
            found += [fault_of(it, heading, opening) for it in PARAGRAPH.finditer(chapter) if not NO_FAULT.search(it[0])]
    return [it for it in found if it]


def fault_of(paragraph, heading, opening):
    code = [it[2] for it in CODE.finditer(paragraph[2])]
    if not code:
        return None
    title = re.sub(r"`", "", paragraph[1]).strip().rstrip(".")
    words = CODE.sub("", f"**{paragraph[1]}**{paragraph[2]}").strip()
    return Fault(heading, title, re.sub(r"\n{2,}", "\n\n", words), opening[1], opening[2], "\n".join(code))
