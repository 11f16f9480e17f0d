"""The commands that streams are made of: the forms of their arguments, the objects that they make, and whether they change anything.

Their names and arguments are those of docs/commands.json; docs/commands.md describes each. This module has no answers: those are the core's alone.
"""
import json
import os
from collections import namedtuple

Command = namedtuple("Command", "name arguments makes changes")

with open(os.path.join(os.path.dirname(os.path.abspath(__file__)), "../../docs/commands.json"), encoding="utf-8") as file:
    TABLE = json.load(file)

# Forms of arguments that name an object, by the kind of object. A form with ? may be null.
OBJECTS = {
    "document": "node",
    "node": "node",
    "parent": "node",
    "child": "node",
    "element": "node",
    "data": "node",
    "text": "node",
    "range": "range",
    "iterator": "iterator",
    "walker": "walker",
    "observer": "observer",
    "static": "static",
}

# The form of an argument, if it is not its name in the table; and those in a group or a command.
FORMS = {"root": "node", "other": "node", "text": "units", "value": "units", "public": "id", "system": "id", "deep": "flag", "to_start": "flag"}
FORMS_IN = {
    ("data", "node"): "data",
    ("splitText", "node"): "text",
    ("attributes", "name"): "attribute",
    ("createDoctype", "name"): "doctype",
    ("compareBoundaryPoints", "other"): "range",
}
# Forms whose values are null too, beside others, as they are drawn.
WITH_NULL = ("force",)

# The commands that make an object, by its kind; those of "nodes" may make more nodes inside.
MAKES = {
    "node": "newDocument createElement createText createComment createPI createDoctype createFragment",
    "nodes": "importNode cloneNode setTextContent splitText extractContents cloneContents insertNode surroundContents",
    "range": "createRange cloneRange",
    "static": "createStaticRange",
    "iterator": "createIterator",
    "walker": "createWalker",
    "observer": "createObserver",
}
# The commands that change nothing in later replies.
ASKS = """
node children index length root contains isEqual comparePosition textContent tree data substringData getAttribute hasAttribute attributeNames range
compareBoundaryPoints comparePoint isPointInRange intersectsNode commonAncestor staticRange rangeText iterator walker pending
""".split()

# Commands that change something and report it at once: a step of an iterator or a walker, and those that empty a queue.
TELLS_ITSELF = {"nextNode", "previousNode", "walk", "takeRecords", "notify"}

MOVES, FLAGS = TABLE["moves"], TABLE["flags"]
ELEMENT, TEXT, PI, COMMENT, DOCUMENT, DOCTYPE, FRAGMENT = 1, 3, 7, 8, 9, 10, 11
PARENTS = (ELEMENT, FRAGMENT, DOCUMENT)
WITH_DATA = (TEXT, PI, COMMENT)
# The command that makes a node of each kind, and the kind that each maker makes.
MAKERS = {ELEMENT: "createElement", TEXT: "createText", COMMENT: "createComment", PI: "createPI", DOCTYPE: "createDoctype", FRAGMENT: "createFragment"}
MADE = {**{name: kind for kind, name in MAKERS.items()}, "newDocument": DOCUMENT}


def form_in(row, argument):
    """Returns the form of an argument of a row of the table."""
    name = argument["name"]
    form = FORMS_IN.get((row["name"], name)) or FORMS_IN.get((row["group"], name)) or FORMS.get(name, name)
    return form + "?" if argument["nullable"] and form not in WITH_NULL else form


def command(row):
    makes = next((kind for kind, names in MAKES.items() if row["name"] in names.split()), None)
    return Command(row["name"], [form_in(row, it) for it in row["arguments"]], makes, row["name"] not in ASKS)


COMMANDS = {it["name"]: command(it) for it in TABLE["commands"]}


def kind_of(form):
    """Returns the kind of object that an argument of this form names, or None if it names none."""
    return OBJECTS.get(form.rstrip("?"))
