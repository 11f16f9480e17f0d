"""Scenes of `bench/hostile.py` in the midst of a long list of children, as an editor makes them, and in a Document with many comments.

A scene returns the lines that make it, and the lines that are counted. Element 1 has the children 2 and on; nodes that are inserted later have the
numbers behind them. Places are random, and the same in each run.
"""
import random

TURN = 7


def listed(count, *made):
    """Element 1 with as many children, and as many that have no parent yet."""
    made = list(made) or ["createElement", 0, "e"]
    return [["createElement", 0, "r"], *[made] * (2 * count), *[["appendChild", 1, it] for it in range(2, count + 2)]]


def leaves_under(parent, count):
    """Lines that make as many elements, with the numbers behind the parent's, and append them to it one by one."""
    return [*[["createElement", 0, "e"]] * count, *[["appendChild", parent, it] for it in range(parent + 1, parent + count + 1)]]


def of_a_fragment(count):
    """Lines that make a list that came of a fragment; its parent, and its first child."""
    return [["createElement", 0, "r"], ["createFragment", 0], *leaves_under(2, count), ["appendChild", 1, 2]], 1, 3


def of_replaced(count):
    return [["createElement", 0, "r"], ["createFragment", 0], *leaves_under(2, count), ["replaceChildren", 1, 2]], 1, 3


def of_a_clone(count):
    return [["createElement", 0, "r"], *leaves_under(1, count), ["cloneNode", 1, True]], count + 2, count + 3


def of_an_import(count):
    return [["createElement", 0, "r"], *leaves_under(1, count), ["importNode", 0, 1, True]], count + 2, count + 3


def of_extracted(count):
    extracted = [["createRange", 0], ["selectNodeContents", 0, 1], ["extractContents", 0]]
    return [["createElement", 0, "r"], *leaves_under(1, count), *extracted], count + 2, 2


def asked_once_the_first_went(came):
    """Each first child of a list that came at once goes, and each time something is asked in its midst."""

    def scene(count):
        making, parent, first = came(2 * count)
        middle = first + count + count // 2
        making += [["createRange", 0], ["setEndAfter", 0, middle + 1]]
        asked = ["index", middle], ["setStartBefore", 0, middle], ["comparePosition", middle, middle + count // 4], ["comparePoint", 0, parent, count // 2]
        return making, [line for at in range(count) for line in (["remove", first + at], asked[at % 4])]

    return scene


def gone_from_what_came_at_once(count):
    """Children go at the front and in the midst in turn, beside one end, of a list that came of a fragment."""
    making, _, first = of_a_fragment(count)
    half = count // 2
    lines = [["remove", it] for pair in zip(range(first, first + half // 2), range(first + half, first + half + half // 2)) for it in pair]
    return making + ranged(0, half, half), lines


def board(count):
    """A child moves from the front of one list to that of the other, and an index in the midst of both is asked. Both lists came of a fragment."""
    making = [["createElement", 0, "r"]] * 2 + [["createFragment", 0]]
    columns = [range(4 + at * 2 * count, 4 + (at + 1) * 2 * count) for at in range(2)]
    for parent, column in enumerate(columns, 1):
        making += [["createElement", 0, "e"]] * len(column) + [["appendChild", 3, it] for it in column] + [["appendChild", parent, 3]]
    left, right = columns
    fronts = [right[0], *left]
    return making, [line for it, front in zip(left[:count], fronts) for line in (["insertBefore", 2, it, front], ["index", left[3 * count // 2]], ["index", right[count]])]


def one_cursor(count):
    """Children are inserted before one in the midst, and the index of each is asked."""
    return listed(count), [line for it in free(count) for line in (["insertBefore", 1, it, 2 + count // 2], ["index", it])]


def free(count):
    """The numbers of those that have no parent yet."""
    return range(count + 2, 2 * count + 2)


def ranged(number, start, end):
    """A live range that begins and ends in the list."""
    return [["createRange", 0], ["setStart", number, 1, start], ["setEnd", number, 1, end]]


def asked_in_the_midst(name):
    """One range in the midst is asked as many times, with no edit between."""

    def scene(count):
        return listed(count) + ranged(0, count // 2, count // 2 + 2), [[name, 0]] * count

    return scene


def inserted_in_the_midst(count):
    return listed(count) + ranged(0, count // 2, count // 2), [["insertNode", 0, it] for it in free(count)]


def inserted_by_two_in_turn(count):
    making = listed(count) + ranged(0, count // 3, count // 3) + ranged(1, 2 * count // 3, 2 * count // 3)
    return making, [["insertNode", at % 2, it] for at, it in enumerate(free(count))]


def surrounded_in_the_midst(count):
    """One child after another, from the midst on, gets an element around it."""
    inside = range(2 + count // 2, 2 + count)
    return listed(count) + ranged(0, 0, 0), [line for child, around in zip(inside, free(count)) for line in (["selectNode", 0, child], ["surroundContents", 0, around])]


def exchanged_in_the_midst(count):
    """The child at one place in the midst is deleted, and another is inserted there."""
    at = count // 2
    lines = [line for it in free(count) for line in (["setStart", 0, 1, at], ["setEnd", 0, 1, at + 1], ["deleteContents", 0], ["insertNode", 0, it])]
    return listed(count) + ranged(0, 0, 0), lines


def gone_in_turn(count):
    """Children go at the front and in the midst in turn, beside one end."""
    half = count // 2
    lines = [["remove", it] for pair in zip(range(2, 2 + half // 2), range(2 + half, 2 + half + half // 2)) for it in pair]
    return listed(count) + ranged(0, half, half), lines


def come_in_turn(count):
    """Children are inserted at the front and in the midst in turn, beside one end."""
    lines = [["insertBefore", 1, it, 2 if at % 2 else 2 + count // 2] for at, it in enumerate(free(count))]
    return listed(count) + ranged(0, count // 2, count // 2), lines


def index_behind_the_front(count):
    """After each insertion at the front, the index of a child in the midst is asked."""
    return listed(count), [line for it in free(count) for line in (["insertBefore", 1, it, 2], ["index", 2 + count // 2])]


def at_random(asked, *made):
    """Children move to places drawn, and each time something is asked at another."""

    def scene(count):
        drawn = random.Random(TURN)
        lines = []
        for at in range(count):
            moved, before = drawn.sample(range(2, count + 2), 2)
            lines += [["insertBefore", 1, moved, before], *asked(drawn, count, at)]
        return listed(count, *made) + ranged(0, 0, count // 2) + [["createStaticRange", 2, 0, count + 1, 0]], lines

    return scene


def index(drawn, count, _):
    return [["index", drawn.randrange(2, count + 2)]]


def ends(drawn, count, _):
    return [["setEndAfter", 0, drawn.randrange(2, count + 2)]]


def splits(_, count, at):
    """A Text of two units is split, each of them once."""
    return [["splitText", at + 2, 1]]


def is_valid(drawn, count, at):
    first, second = drawn.sample(range(2, count + 2), 2)
    return [["createStaticRange", first, 0, second, 0], ["staticRange", at + 1]]


def positions(drawn, count, _):
    return [["comparePosition", *drawn.sample(range(2, count + 2), 2)]]


def compared(drawn, count, _):
    return [["comparePoint", 0, 1, drawn.randrange(count)]]


def in_a_document(*first):
    """Returns a scene in which an element is appended to a Document of many comments, and removed, again and again; the given nodes are before the comments."""

    def scene(count):
        making = [*first, *[["appendChild", 0, it + 1] for it in range(len(first))]]
        comments = range(len(first) + 1, len(first) + count + 1)
        making += [["createComment", 0, ""]] * count + [["appendChild", 0, it] for it in comments] + [["createElement", 0, "e"]]
        node = len(first) + count + 1
        return making, [["appendChild", 0, node], ["remove", node]] * count

    return scene


# (where the midst is named, it stands where a block of children begins; some sizes are past what a block may have before it is made anew)
MIDST_SCENES = (
    ("rangeText of one range in the midst", asked_in_the_midst("rangeText"), 256),
    ("cloneContents of one range in the midst", asked_in_the_midst("cloneContents"), 256),
    ("insertNode at one place in the midst", inserted_in_the_midst, 512),
    ("insertNode at two places in turn", inserted_by_two_in_turn, 2048),
    ("surroundContents of one child after another in the midst", surrounded_in_the_midst, 4096),
    ("deleteContents and insertNode at one place in the midst", exchanged_in_the_midst, 256),
    ("removals at the front and in the midst in turn, beside an end", gone_in_turn, 512),
    ("insertions at the front and in the midst in turn, beside an end", come_in_turn, 2048),
    ("index in the midst, behind insertions at the front", index_behind_the_front, 256),
    ("questions in the midst of a list that came of a fragment, as its first children go", asked_once_the_first_went(of_a_fragment), 512),
    ("the same of a clone", asked_once_the_first_went(of_a_clone), 512),
    ("the same of an import", asked_once_the_first_went(of_an_import), 512),
    ("the same of an extracted fragment", asked_once_the_first_went(of_extracted), 512),
    ("the same of replaced children", asked_once_the_first_went(of_replaced), 512),
    ("removals beside an end, of a list that came of a fragment", gone_from_what_came_at_once, 1024),
    ("a board: from one list's front to the other's, and an index in both", board, 512),
    ("index of each child that is inserted before one in the midst", one_cursor, 4096),
    ("index at random places, between moves", at_random(index), 250),
    ("ends set at random places, between moves", at_random(ends), 250),
    ("splitText at random places, between moves", at_random(splits, "createText", 0, "ab"), 250),
    ("static ranges between random children, between moves", at_random(is_valid), 250),
    ("positions of random children, between moves", at_random(positions), 250),
    ("points compared at random places, between moves", at_random(compared), 250),
    ("an element in and out of a Document with many comments", in_a_document(), 250),
    ("the same behind a doctype", in_a_document(["createDoctype", 0, "html", "", ""]), 250),
)
