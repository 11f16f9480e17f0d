"""The work of every player in Python: it reads a line, answers it, and begins a new world at the line for that."""
import json
import sys


class Skip(Exception):
    """A command has no answer here. The message is the reason."""


class Refused(Exception):
    """A refusal, by its name in the standard."""

    def __init__(self, name):
        super().__init__(name)
        self.name = name


# A tree with more nodes is taken for one that contains itself.
MOST = 2000


def walk(top, children):
    """Yields the depths and nodes of a tree, in tree order. `children` returns those of a node, in order."""
    waiting, count = [(0, top)], 0
    while waiting:
        count += 1
        if count > MOST:
            raise Refused("a tree without an end")
        depth, node = waiting.pop()
        yield depth, node
        waiting += [(depth + 1, it) for it in children(node)][::-1]


def known_by_place(speaker, trees, last):
    """Numbers the nodes that a command made inside, by the numbers of the nodes of each tree in tree order."""
    speaker.nodes += [None] * (last - len(speaker.nodes))
    for top, numbers in trees:
        found = speaker._walk(speaker.nodes[top]) if speaker.nodes[top] is not None else ()
        for number, (_, node) in zip(numbers, found):
            if speaker._key(node) not in speaker.number:
                speaker.nodes[number], speaker.number[speaker._key(node)] = node, number


def text_in(value):
    """Returns a text of a line as Python's text."""
    if isinstance(value, list):
        return b"".join(it.to_bytes(2, "little") for it in value).decode("utf-16-le", "surrogatepass")
    return value


def reply_of(speaker, name, values):
    """Returns the reply of a speaker, whose methods have the names of the commands."""
    method = getattr(speaker, name, None) if name[:1] != "_" else None
    if method is None:
        return {"skip": "has no such command"}
    try:
        return {"ok": method(*values)}
    except Skip as skip:
        return {"skip": str(skip)}
    except Refused as refused:
        return {"error": refused.name}
    except Exception as fault:
        return {"error": type(fault).__name__, "message": str(fault)}


def serve(begin, told, reply=reply_of):
    """Answers all lines. `begin` returns the speaker of a new world; `told` describes the player in the reply to hello."""
    speaker = begin()
    for line in sys.stdin:
        given = json.loads(line)
        if isinstance(given, list):
            found = reply(speaker, given[0], given[1:])
        elif "hello" in given:
            found = {"player": told}
        elif "world" in given:
            speaker, found = begin(), {"ok": None}
        else:
            known_by_place(speaker, given["numbers"], given["next"])
            found = {"ok": None}
        if isinstance(found, bytes):
            sys.stdout.write(found.decode())
        else:
            json.dump(found, sys.stdout, separators=(",", ":"))
            sys.stdout.write("\n")
        sys.stdout.flush()


def commands_of(kind):
    """Returns the commands of a speaker: its public methods."""
    return sorted(it for it in dir(kind) if it[0] != "_" and callable(getattr(kind, it)))
