"""Replies in the form that the script of a case prints: nodes by their names there, and each answer as its call returns it."""
import json
import re

from judging.commands import TABLE

ANOTHER = "another node"
ANSWERS = {it["name"]: it["answer"] for it in TABLE["commands"]}
MAKERS = ("createElement", "createText", "createComment", "createPI", "createDoctype", "createFragment", "newDocument", "importNode", "cloneNode")
MAKERS += ("splitText", "extractContents", "cloneContents")
# Commands whose answer is a node, and those whose answer is null if nothing is refused.
NODE = {"insertBefore", "appendChild", "adoptNode", "replaceChild", "removeChild", "root", "commonAncestor", "nextNode", "previousNode", "walk"}
VOID = {name for name, answer in ANSWERS.items() if answer == "null"}
DATA = (3, 7, 8)
DONE = "done"


def number_like(value):
    return isinstance(value, int) and not isinstance(value, bool)


def nodes_in(command, reply):
    """Returns the numbers of nodes in a reply."""
    answer, name = reply.get("ok"), command[0]
    if name in NODE:
        found = [answer]
    elif name == "tree":
        found = [row[1] for row in answer or ()]
    elif name == "node" and isinstance(answer, dict):
        found = [answer.get(it) for it in ("parent", "previous", "next", "document")]
    elif name == "children":
        found = answer or []
    elif name in ("range", "iterator", "walker"):
        found = [answer[at] for at in {"range": (0, 2)}.get(name, (0, 1))] if answer else []
    else:
        found = [it for row in records_in(name, answer) for it in (row[1], *row[2], *row[3], row[4], row[5])]
    return {it for it in found if number_like(it)}


def records_in(name, answer):
    if name == "takeRecords":
        return answer or []
    return [row for _, rows in answer or () for row in rows] if name == "notify" else []


class Printed:
    """The output of a script's last line. `made` are the numbers of the nodes that have names."""

    def __init__(self, command, made):
        self.name, self.made = command[0], made

    def form(self, reply):
        """Returns the printed text of a reply. A fault prints nothing, and the text says why."""
        if "fault" in reply:
            return {"hung": "nothing: it never comes back", "died": "nothing: it ends"}.get(reply["fault"], "nothing")
        if "error" in reply:
            return written({"a tree without an end": "RangeError"}.get(reply["error"], reply["error"]))
        if self.name == "notify":
            return " and ".join(written([number, [self.record(it) for it in rows]]) for number, rows in reply["ok"]) or "nothing"
        return written(self.answer(reply["ok"]))

    def node(self, value):
        if value is None:
            return None
        return f"n{value}" if number_like(value) and value in self.made else ANOTHER

    def answer(self, value):
        if self.name in VOID:
            return DONE
        if self.name in MAKERS:
            return ANOTHER
        if self.name in NODE:
            return self.node(value)
        return getattr(self, "of_" + self.name, text_of)(value)

    def of_node(self, it):
        document = it.get("document") if it.get("type") != 9 else None
        return [it.get("name"), *(self.node(value) for value in (it.get("parent"), it.get("previous"), it.get("next"), document))]

    def of_children(self, numbers):
        return [self.node(it) for it in numbers]

    def of_range(self, it):
        return [self.node(it[0]), it[1], self.node(it[2]), it[3]]

    def of_iterator(self, it):
        return [self.node(it[0]), self.node(it[1]), it[2]]

    def of_walker(self, it):
        return [self.node(it[0]), self.node(it[1])]

    def of_takeRecords(self, rows):
        return [self.record(it) for it in rows]

    def record(self, it):
        kind, target, added, removed, before, after, *rest = it
        nodes = [self.of_children(added), self.of_children(removed), self.node(before), self.node(after)]
        return [kind, self.node(target), *nodes, *map(text_of, rest)]

    def label(self, row):
        _, number, kind, name, *rest = row
        own = f" {written(text_of(rest[0]))}" if kind in DATA else ""
        attributes = "".join(f" {one}={written(text_of(value))}" for one, value in rest[0]) if kind == 1 else ""
        return f"{self.node(number)} {'undefined' if name is None else name}{own}{attributes}"

    def of_tree(self, rows):
        path = []
        for row in rows:
            found = [self.label(row)]
            del path[row[0] :]
            if path:
                path[-1].append(found)
            path.append(found)
        return path[0]


def text_of(value):
    """Returns a text of a reply, which is a list of units if it is not well-formed."""
    units = isinstance(value, list) and value and all(map(number_like, value))
    return b"".join(it.to_bytes(2, "little") for it in value).decode("utf-16-le", "surrogatepass") if units else value


def written(value):
    """Returns a value as JSON.stringify writes it."""
    found = json.dumps(value, separators=(",", ":"), ensure_ascii=False)
    return re.sub("[\ud800-\udfff]", lambda it: f"\\u{ord(it[0]):04x}", found)
