"""Scenes of `bench/hostile.py` in a Document with a doctype or an element among many comments, for the checks of the order of its children.

A scene returns the lines that make it, and the lines that are counted. Lines of the class `Refused` are to be refused.
"""
from command_cost import Refused

DOCTYPE = ["createDoctype", 0, "html", "", ""]
ELEMENT = ["createElement", 0, "e"]


def document(count, first=None, last=None):
    """Returns lines that make a Document of as many comments, between a first and a last node if given; the comments' numbers; and the next number."""
    made = [*([first] if first else []), *[["createComment", 0, ""]] * count, *([last] if last else [])]
    at = 2 if first else 1
    return [*made, *[["appendChild", 0, it + 1] for it in range(len(made))]], range(at, at + count), len(made) + 1


def comes_and_goes(count):
    """An element is inserted before one comment after another, behind the doctype, and removed again."""
    making, comments, element = document(count, first=DOCTYPE)
    return [*making, ELEMENT], [line for it in comments for line in (["insertBefore", 0, element, it], ["remove", element])]


def replaces_comments(count):
    """An element replaces one comment after another, behind the doctype, and gives way to it again."""
    making, comments, element = document(count, first=DOCTYPE)
    return [*making, ELEMENT], [line for it in comments for line in (["replaceChild", 0, element, it], ["replaceChild", 0, it, element])]


def replaces_an_element(count):
    """Two elements replace one another behind the doctype and the comments."""
    making, _, other = document(count, first=DOCTYPE, last=ELEMENT)
    element = other - 1
    return [*making, ELEMENT], [line for _ in range(count // 2) for line in (["replaceChild", 0, other, element], ["replaceChild", 0, element, other])]


def refused(made, *behind, first=None, last=None):
    """Returns a scene in which the node that a line makes is refused before one comment after another."""

    def scene(count):
        making, comments, node = document(count, first, last)
        return [*making, made, *behind], [Refused(["insertBefore", 0, node, it]) for it in comments]

    return scene


def refused_in_place(count):
    """An element is refused in the place of one comment after another, as the doctype follows."""
    making, comments, element = document(count, last=DOCTYPE)
    return [*making, ELEMENT], [Refused(["replaceChild", 0, element, it]) for it in comments]


def refused_fragment(count):
    """A fragment with an element is refused before one comment after another, as the doctype follows."""
    making, comments, fragment = document(count, last=DOCTYPE)
    making += [["createFragment", 0], ELEMENT, ["appendChild", fragment, fragment + 1]]
    return making, [Refused(["insertBefore", 0, fragment, it]) for it in comments]


DOCUMENT_SCENES = (
    ("an element before one comment of a Document after another, and out again", comes_and_goes, 400),
    ("an element in the place of one comment of a Document after another, and back", replaces_comments, 400),
    ("elements of a Document that replace one another", replaces_an_element, 400),
    ("elements that a Document refuses, as the doctype follows", refused(ELEMENT, last=DOCTYPE), 400),
    ("the same in the place of a comment", refused_in_place, 400),
    ("doctypes that a Document refuses, as the element precedes them", refused(DOCTYPE, first=ELEMENT), 400),
    ("fragments that a Document refuses, as the doctype follows", refused_fragment, 400),
)
