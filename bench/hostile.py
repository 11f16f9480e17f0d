#!/usr/bin/env python3
"""Counts the instructions of scenes that once cost the square of their size, or worse, at three sizes, each twice the one before.

A word leaves only the scenes whose name has it. The lines that make a scene are not counted, and the cost of an empty line is subtracted for each counted
line. The run fails if twice the size takes more than 2.3 times as much: twice, and a margin for a logarithm or the pages of a table. The sizes below are
those of the gate, which are small; --size multiplies them.
"""
import concurrent.futures
import os
import shutil
import sys
import tempfile

from command_cost import empty_line, instructions, takes_words
from command_scenes import deleted_after_the_first, inserted_beside_an_end, normalized_beside_an_end, normalized_chain, removed_beside_an_end, split_beside_an_end
from document_scenes import DOCUMENT_SCENES
from midst_scenes import MIDST_SCENES
from running import words_of

MOST = 2.3
SUBTREE = {"childList": True, "subtree": True}


def elements(first, count):
    return [["createElement", 0, "e"]] * count, range(first, first + count)


def chain(count):
    """Elements 1 to count, each in the one before it."""
    made, numbers = elements(1, count)
    return made + [["appendChild", it - 1, it] for it in reversed(numbers) if it > 1]


def moves_in_a_chain(count):
    """Nodes of an observed chain are removed and put back, with no notify."""
    making = chain(count) + [["createObserver"], ["observe", 0, 1, SUBTREE]]
    return making, [line for _ in range(2) for it in range(count - 20, count) for line in (["remove", it], ["appendChild", it - 1, it], ["takeRecords", 0])]


def watchers_at_depth(made):
    """A flat tree of a few more nodes is removed, beside a watcher of each node of a chain."""

    def scene(count):
        making = chain(count) + [line for at in range(count) for line in made(at, at + 1)]
        top = count + 1
        making += [["createElement", 0, "e"]] * (count + 52) + [["appendChild", top, it] for it in range(top + 1, top + count + 51)]
        return making + [["appendChild", top + count + 51, top]], [["remove", top], ["discard", top]]

    return scene


def iterators_on_a_text(count):
    making = chain(count) + [["createText", 0, "a"], ["appendChild", count, count + 1]]
    for at in range(count):
        making += [["createIterator", 1, 4, []], ["nextNode", at]]
    return making, [["remove", count + 1]]


def leaves_of_one_place(count):
    """Leaves go whose numbers leave the same remainder as that of the node, deep in a chain, at which iterators stand."""
    places = 2 ** count.bit_length() - 1
    leaves = [count + places * at for at in range(1, 9)]
    making = chain(count) + [["createElement", 0, "e"]] * (8 * places) + [["appendChild", 1, it] for it in leaves]
    return making + [["createIterator", count, 1, []]] * count, [["remove", it] for it in leaves]


def transients_of_one_observer(count):
    making = chain(count) + [["createObserver"], *(["observe", 0, it, SUBTREE] for it in range(1, count)), ["remove", count]]
    return making, [["notify"]]


def transients_of_as_many_observers(count):
    """A node leaves again, below as many observers as it has transient registrations of."""
    making = chain(2) + [line for at in range(count) for line in (["createObserver"], ["observe", at, 1, {"attributes": True, "subtree": True}])]
    return making + [["remove", 2], ["appendChild", 1, 2]], [["remove", 2]]


def transients_told_at_once(count):
    """Leaves go below as many observers as then have transient registrations on each of them."""
    making = [["createElement", 0, "e"]] * 21 + [["appendChild", 1, it] for it in range(2, 22)]
    making += [line for at in range(count) for line in (["createObserver"], ["observe", at, 1, {"attributes": True, "subtree": True}])]
    return making + [["remove", it] for it in range(2, 22)], [["notify"]]


def observers_of_a_node(count):
    return [["createElement", 0, "e"]] + [["createObserver"]] * count, [["observe", at, 1, SUBTREE] for at in range(count)]


def observers_that_let_go(count):
    """As many observers of one node are disconnected, each in its turn."""
    making, lines = observers_of_a_node(count)
    return making + lines, [["disconnect", at] for at in range(count)]


def rules_of_a_filter(count):
    rules = [[f"n{at}", "skip"] for at in range(count)]
    making = [["createElement", 0, "r"]] + [["createElement", 0, f"n{at}"] for at in range(count)]
    making += [["appendChild", 1, it] for it in range(2, count + 2)] + [["createWalker", 1, 4294967295, rules]]
    return making, [["walk", 0, "nextNode"]]


def removals_under_a_long_filter(count):
    leaves = [["createElement", 0, "e"]] * 101 + [["appendChild", 1, it] for it in range(2, 102)]
    options = {"attributeFilter": [f"a{at}" for at in range(count)], "subtree": True}
    return leaves + [["createObserver"], ["observe", 0, 1, options]], [["remove", it] for it in range(2, 102)]


def attributes_under_a_long_filter(count):
    """The attributes of a filter are set, the last of them first."""
    making = [["createElement", 0, "e"], ["createObserver"], ["observe", 0, 1, {"attributeFilter": [f"a{at}" for at in range(count)]}]]
    return making, [["setAttribute", 1, f"a{at}", ""] for at in reversed(range(count))]


def attributes_that_a_filter_lacks(count):
    making = [["createElement", 0, "e"], ["createObserver"], ["observe", 0, 1, {"attributeFilter": [f"a{at}" for at in range(count)]}]]
    return making, [["setAttribute", 1, f"b{at % 8}", str(at)] for at in range(count)]


def name_given_many_times(count):
    """One name stands as many times in a filter, and the attribute is set as many times."""
    making = [["createElement", 0, "e"], ["createObserver"]]
    return making, [["observe", 0, 1, {"attributeFilter": ["a"] * count}]] + [["setAttribute", 1, "a", str(at)] for at in range(count)]


def observed_anew_between_removals(count):
    """Leaves of an observed element go, and each time its observer comes to observe another node anew."""
    leaves = range(3, count + 3)
    making = [["createElement", 0, "e"]] * (count + 2) + [["appendChild", 1, it] for it in leaves] + [["createObserver"], ["observe", 0, 1, SUBTREE], ["observe", 0, 2, SUBTREE]]
    return making, [line for it in leaves for line in (["remove", it], ["observe", 0, 2, SUBTREE])]


def contents_of_an_observed_chain(count):
    making = chain(count) + [["createObserver"], ["observe", 0, 1, SUBTREE], ["createRange", 0], ["selectNodeContents", 0, 1], ["setStart", 0, count // 2, 0]]
    return making, [["deleteContents", 0]]


def leaves_let_go(count):
    """Elements without a parent, from number 2 on, and lines that discard them."""
    return [["createElement", 0, "e"]] * (count + 1), [["discard", it] for it in range(2, count + 2)]


def discards_behind_steps(made, step):
    """Each iterator, or walker, takes a step, and then leaves are discarded."""

    def scene(count):
        leaves, lines = leaves_let_go(count)
        making = [*leaves, ["createElement", 0, "e"], ["appendChild", 1, count + 2], *[made] * count]
        return making, [[*step[:1], at, *step[1:]] for at in range(count)] + lines

    return scene


def discards_beside_records(count):
    """Leaves are discarded while as many records wait."""
    leaves, lines = leaves_let_go(count)
    return [*leaves, ["createObserver"], ["observe", 0, 1, {"attributes": True}], *[["setAttribute", 1, "a", "b"]] * count], lines


def texts_cut_to_a_unit(count):
    return [["createText", 0, "a" * 1000]] * count, [["deleteData", it, 1, 999] for it in range(1, count + 1)]


def split_into_lines(count):
    """A Text of lines of 80 units is cut into these, front to back."""
    making = [["createElement", 0, "e"], ["createText", 0, "a" * 80 * count], ["appendChild", 1, 2]]
    return making, [["splitText", it, 80] for it in range(2, count + 1)]


def split_at_both_ends(count):
    """The same, a line from the front and one from the back in turn."""
    making = [["createElement", 0, "e"], ["createText", 0, "a" * 80 * count], ["appendChild", 1, 2]]
    lines, rest = [], 2
    for at in range(0, count - 2, 2):
        lines += [["splitText", rest, 80], ["splitText", at + 3, 80 * (count - 2 - at)]]
        rest = at + 3
    return making, lines


def last_unit_goes(count):
    """The last unit of a Text goes, until one is left, and as many come again."""
    goes = [["deleteData", 1, it, 1] for it in range(count - 1, 0, -1)]
    return [["createText", 0, "a" * count]], goes + [["appendData", 1, "b"]] * (count - 1)


def last_attribute_goes(count):
    """The last attribute of an element goes, until one is left, and as many come again."""
    comes = [["setAttribute", 1, f"a{it}", ""] for it in range(count)]
    return [["createElement", 0, "e"], *comes], [["removeAttribute", 1, f"a{it}"] for it in range(count - 1, 0, -1)] + comes[1:]


RANGE = watchers_at_depth(lambda at, node: [["createRange", 0], ["setStart", at, node, 0], ["setEnd", at, node, 0]])
SCENES = (
    ("moves in a chain, observed from its top, without notify", moves_in_a_chain, 50),
    ("removals beside an end in the parent, every second child", removed_beside_an_end, 1000),
    ("insertions beside an end in the parent, before every second child", inserted_beside_an_end, 1000),
    ("splitText beside an end in the parent", split_beside_an_end, 500),
    ("normalize beside an end in the parent", normalized_beside_an_end, 300),
    ("deleteContents of half of the children, after the first child was removed", deleted_after_the_first, 1000),
    ("normalize of a chain with a Text in each element", normalized_chain, 500),
    ("removal and discard beside live ranges at depth", RANGE, 300),
    ("the same beside iterators", watchers_at_depth(lambda at, node: [["createIterator", node, 1, []]]), 300),
    ("the same beside walkers", watchers_at_depth(lambda at, node: [["createWalker", node, 1, []]]), 300),
    ("the same beside static ranges", watchers_at_depth(lambda at, node: [["createStaticRange", node, 0, node, 0]]), 300),
    ("the same beside observed nodes", watchers_at_depth(lambda at, node: [["createObserver"], ["observe", at, node, {"attributes": True}]]), 300),
    ("removal of a Text at depth on which iterators stand", iterators_on_a_text, 300),
    ("removals of leaves that share the place of iterators at depth", leaves_of_one_place, 300),
    ("notify with transient registrations of one observer on one node", transients_of_one_observer, 500),
    ("removal of a node that has transient registrations of as many observers as are above", transients_of_as_many_observers, 300),
    ("transients of many observers told at once", transients_told_at_once, 100),
    ("observers that come to observe one node", observers_of_a_node, 500),
    ("observers of one node that are disconnected", observers_that_let_go, 250),
    ("one step of a walker with as many rules as nodes", rules_of_a_filter, 300),
    ("removals under an observer of many attributes", removals_under_a_long_filter, 200),
    ("setAttribute of each attribute that an observer asks for", attributes_under_a_long_filter, 500),
    ("setAttribute of attributes that a long filter lacks", attributes_that_a_filter_lacks, 500),
    ("setAttribute of a name that a filter has many times", name_given_many_times, 500),
    ("removals, and the observer observes another node anew", observed_anew_between_removals, 250),
    ("deleteContents of half of an observed chain", contents_of_an_observed_chain, 300),
    ("steps of as many iterators, and as many discards", discards_behind_steps(["createIterator", 1, 1, []], ["nextNode"]), 300),
    ("steps of as many walkers, and as many discards", discards_behind_steps(["createWalker", 1, 1, []], ["walk", "nextNode"]), 300),
    ("discards while as many records wait", discards_beside_records, 500),
    ("deleteData of all but one unit of each of some Texts", texts_cut_to_a_unit, 250),
    ("splitText of one Text into lines, front to back", split_into_lines, 250),
    ("splitText of one Text into lines, from both ends in turn", split_at_both_ends, 250),
    ("deleteData of the last unit of a Text, and appendData", last_unit_goes, 1000),
    ("removeAttribute of the last attribute, and setAttribute", last_attribute_goes, 500),
    *MIDST_SCENES,
    *DOCUMENT_SCENES,
)


def takes_size(parser):
    takes_words(parser)
    parser.add_argument("--size", type=int, default=1, metavar="N", help="multiplies the sizes of the gate by N (1)")


def measured(scene, given, empty):
    """Returns the line of a scene at three sizes, and whether it takes too much at twice the size."""
    name, lines_of, least = scene
    sizes = [given.size * least * times for times in (1, 2, 4)]
    with tempfile.TemporaryDirectory() as work:
        counts = [instructions(given.program, making, lines, work) - len(lines) * empty for making, lines, *_ in map(lines_of, sizes)]
    ratios = [late / max(early, 1) for early, late in zip(counts, counts[1:])]
    is_over = max(ratios) > MOST
    told = ", ".join(f"{size:,}: {count:,.0f}" for size, count in zip(sizes, counts))
    return f"{name}: {told}; {ratios[0]:.2f} and {ratios[1]:.2f} times{': TOO MUCH' if is_over else ''}", is_over


def main():
    given, over = words_of(__doc__, takes_size), 0
    if not shutil.which("valgrind"):
        print("left out: what scenes cost, since there is no valgrind")
        return
    with tempfile.TemporaryDirectory() as work:
        empty = empty_line(given.program, work)
    chosen = [it for it in SCENES if all(word in it[0] for word in given.words)]
    with concurrent.futures.ThreadPoolExecutor(max(1, (os.cpu_count() or 1) // 2)) as pool:
        for told, is_over in pool.map(lambda it: measured(it, given, empty), chosen):
            print(told, flush=True)
            over += is_over
    print(f"{over} scenes take more than {MOST} times as much at twice the size")
    sys.exit(over > 0)


if __name__ == "__main__":
    main()
