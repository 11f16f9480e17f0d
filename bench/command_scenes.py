"""The scenes of `bench/command_cost.py`, in pairs: a few objects that a command does not touch, and many of them.

A scene returns the lines that make it, the commands that are counted in it, and the number of commands (or nodes, levels, units). The
tree has groups of a hundred leaves below element 1.
"""

COMMANDS = 1000
GROUP = 101


def tree(nodes):
    """The lines that make an element 1, groups under it, and a hundred leaves under each group."""
    yield ["createElement", 0, "r"]
    group = None
    for number in range(2, nodes):
        yield ["createElement", 0, "e"]
        if number % GROUP == 2:
            group = number
            yield ["appendChild", 1, number]
        else:
            yield ["appendChild", group, number]


def groups(nodes):
    return [number for number in range(2, nodes) if number % GROUP == 2 and number + GROUP - 1 < nodes]


def made_leaves(nodes):
    return [["createElement", 0, "n"] for _ in range(COMMANDS)]


def appended(nodes):
    at = groups(nodes)
    return [["appendChild", at[k % len(at)], nodes + k] for k in range(COMMANDS)]


def inserted(nodes):
    at = groups(nodes)
    return [["insertBefore", at[k % len(at)], nodes + k, at[k % len(at)] + 50] for k in range(COMMANDS)]


def removed(nodes):
    return [["remove", nodes + k] for k in range(COMMANDS)]


def append_scene(nodes):
    """New nodes go last under one group after another."""
    return list(tree(nodes)) + made_leaves(nodes), appended(nodes), COMMANDS


def insert_scene(nodes):
    """New nodes go in before a leaf in the middle of a group."""
    return list(tree(nodes)) + made_leaves(nodes), inserted(nodes), COMMANDS


def remove_scene(nodes):
    """Leaves that were put in last go again."""
    return list(tree(nodes)) + made_leaves(nodes) + appended(nodes), removed(nodes), COMMANDS


def ranges_elsewhere(ranges, text):
    """Live ranges in a Text of its own, under element 1; the Text is the node of that number."""
    lines = [["createText", 0, "a" * 1000], ["appendChild", 1, text]]
    for number in range(ranges):
        lines += [["createRange", 0], ["setStart", number, text, number % 500], ["setEnd", number, text, 500 + number % 500]]
    return lines


def inserts_beside(ranges):
    nodes = 1000
    making, commands, count = insert_scene(nodes)
    return making + ranges_elsewhere(ranges, nodes + COMMANDS), commands, count


def removes_beside(ranges):
    nodes = 1000
    making, commands, count = remove_scene(nodes)
    return making + ranges_elsewhere(ranges, nodes + COMMANDS), commands, count


def data_beside(ranges):
    """Units go one by one into Texts of a hundred units."""
    return [["createElement", 0, "r"]] + [["createText", 0, "b" * 100] for _ in range(COMMANDS)] + ranges_elsewhere(
        ranges, COMMANDS + 2), [["insertData", 2 + k, 50, "c"] for k in range(COMMANDS)], COMMANDS


def watched(nodes, observers):
    """Attributes of an element at depth 10 are set, with observers of element 1 and all below it."""
    deep = [["createElement", 0, "d"] for _ in range(8)]
    deep += [["appendChild", groups(nodes)[0] if k == 0 else nodes + k - 1, nodes + k] for k in range(8)]
    for number in range(observers):
        deep += [["createObserver"], ["observe", number, 1, {"attributes": True, "subtree": True}]]
    return list(tree(nodes)) + deep, [["setAttribute", nodes + 7, "a", "v"] for _ in range(COMMANDS)], COMMANDS


def compared(nodes):
    """Two live ranges in leaves of two groups are compared."""
    first, last = groups(nodes)[0], groups(nodes)[-1]
    ends = [["createRange", 0], ["createRange", 0], ["selectNodeContents", 0, first + 10], ["selectNodeContents", 1, last + 90]]
    return list(tree(nodes)) + ends, [["compareBoundaryPoints", 0, k % 4, 1] for k in range(COMMANDS)], COMMANDS


def steps(nodes):
    """An iterator goes over the tree from its first nodes on."""
    return list(tree(nodes)) + [["createIterator", 1, 4294967295, []]], [["nextNode", 0] for _ in range(900)], 900


def walks(nodes):
    """A walker goes over the tree from its first nodes on."""
    return list(tree(nodes)) + [["createWalker", 1, 4294967295, []]], [["walk", 0, "nextNode"] for _ in range(900)], 900


def cloned(nodes):
    """The whole tree is copied; counted for each node."""
    return list(tree(nodes)), [["cloneNode", 1, True]], nodes - 1


def paragraphs(count):
    """A body with paragraphs, each with a Text."""
    lines = [["createElement", 0, "body"], ["appendChild", 0, 1]]
    for k in range(count):
        lines += [["createElement", 0, "p"], ["appendChild", 1, 2 * k + 2], ["createText", 0, "some text"], ["appendChild", 2 * k + 2, 2 * k + 3]]
    return lines


def contents_deleted(count):
    """Ten paragraphs in the middle are deleted, from within a Text to within a Text; counted for each node taken."""
    first = 2 * (count // 2) + 3
    last = first + 22
    return paragraphs(count) + [["createRange", 0], ["setStart", 0, first, 4], ["setEnd", 0, last, 4]], [["deleteContents", 0]], 20


def chain(depth):
    """The lines that make a chain of elements below the Document, numbered from the top."""
    for number in range(1, depth + 1):
        yield ["createElement", 0, "e"]
        yield ["appendChild", number - 1, number]


def compared_in_a_chain(depth):
    """Two points of one chain, at its top and at its foot; counted for each level between them."""
    ends = [["createRange", 0], ["createRange", 0], ["selectNodeContents", 0, 1], ["setStart", 1, depth, 0]]
    return list(chain(depth)) + ends, [["compareBoundaryPoints", 0, k % 4, 1] for k in range(COMMANDS)], COMMANDS * depth


def root_of_a_chain(depth):
    return list(chain(depth)), [["root", depth] for _ in range(COMMANDS)], COMMANDS * depth


def contained_in_a_chain(depth):
    return list(chain(depth)), [["contains", 1, depth] for _ in range(COMMANDS)], COMMANDS * depth


def positions_in_a_chain(depth):
    return list(chain(depth)), [["comparePosition", 1, depth] for _ in range(COMMANDS)], COMMANDS * depth


def texts_read(units):
    """Texts of a number of units are made; counted for each unit, which is a byte of the line."""
    return [["createElement", 0, "e"]], [["createText", 0, "a" * units] for _ in range(20)], 20 * units


def removes_beside_iterators(iterators):
    """Leaves go while iterators stand elsewhere."""
    nodes = 1000
    making, commands, count = remove_scene(nodes)
    return making + [["createIterator", groups(nodes)[0], 4294967295, []] for _ in range(iterators)], commands, count


def changes_beside_observers(observers):
    """Attributes of an element are set that nobody observes, while observers of other nodes stand beside it."""
    nodes = 1000
    making = list(tree(nodes)) + [["createElement", 0, "o"] for _ in range(observers)]
    for number in range(observers):
        making += [["createObserver"], ["observe", number, nodes + number, {"attributes": True}]]
    return making, [["setAttribute", groups(nodes)[0] + 7, "a", "v"] for _ in range(COMMANDS)], COMMANDS


def disconnected(observers):
    """The first hundred observers are disconnected, one by one. Each observer observes a node of its own."""
    making = [["createElement", 0, "o"] for _ in range(observers)]
    for number in range(observers):
        making += [["createObserver"], ["observe", number, 1 + number, {"childList": True}]]
    return making, [["disconnect", number] for number in range(100)], 100


def notified(observers):
    """A notice with one transient registration to end, among observers of other nodes."""
    making = [["createElement", 0, "p"], ["createElement", 0, "c"], ["createObserver"], ["observe", 0, 1, {"childList": True, "subtree": True}]]
    making += [["createElement", 0, "o"] for _ in range(observers)]
    for number in range(observers):
        making += [["createObserver"], ["observe", 1 + number, 3 + number, {"childList": True}]]
    return making, [["appendChild", 1, 2], ["remove", 2], ["notify"]] * 100, 100


def observed_again(observers):
    """The first hundred observers observe their nodes again, one by one. Each observer observes a node of its own."""
    making, _, _ = disconnected(observers)
    return making, [["observe", number, 1 + number, {"attributes": True}] for number in range(100)], 100


def notified_after(removals):
    """A notice that ends one transient registration, after a notice that ended one for each removal."""
    making = [["createElement", 0, "p"], ["createElement", 0, "c"], ["createObserver"]]
    making += [["createElement", 0, "o"] for _ in range(removals)]
    making += [["appendChild", 1, 3 + k] for k in range(removals)] + [["observe", 0, 1, {"childList": True, "subtree": True}]]
    making += [["remove", 3 + k] for k in range(removals)] + [["notify"]]
    return making, [["appendChild", 1, 2], ["remove", 2], ["notify"]] * 100, 100


def discarded_beside_records(records):
    """Texts without a parent go, while records of other nodes wait. The first to go, uncounted, has the names of their nodes sorted."""
    texts = [["createText", 0, "a"] for _ in range(COMMANDS + 1)]
    watch = [["createElement", 0, "p"], ["createObserver"], ["observe", 0, 1, {"attributes": True}]]
    changes = [["setAttribute", 1, "a", "v"] for _ in range(records)]
    return watch + texts + changes + [["discard", 2]], [["discard", 3 + k] for k in range(COMMANDS)], COMMANDS


def discarded_beside_observed(nodes):
    """Texts without a parent go, while other nodes are observed."""
    making = [["createObserver"]] + [["createText", 0, "a"] for _ in range(COMMANDS)]
    for number in range(COMMANDS + 1, COMMANDS + nodes + 1):
        making += [["createElement", 0, "p"], ["observe", 0, number, {"attributes": True}]]
    return making, [["discard", 1 + k] for k in range(COMMANDS)], COMMANDS


def discarded_beside_static_ranges(ranges):
    """Texts without a parent go, while static ranges of another node stand."""
    texts = [["createText", 0, "a"] for _ in range(COMMANDS)]
    return [["createElement", 0, "p"]] + texts + [["createStaticRange", 1, 0, 1, 0] for _ in range(ranges)], [
        ["discard", 2 + k] for k in range(COMMANDS)], COMMANDS


def groups_discarded_beside_static_ranges(ranges):
    """Elements with two Texts in them go, while static ranges of another node stand."""
    making = [["createElement", 0, "p"]] + [["createStaticRange", 1, 0, 1, 0] for _ in range(ranges)]
    for top in range(2, 302, 3):
        making += [["createElement", 0, "g"], ["createText", 0, "a"], ["createText", 0, "b"], ["appendChild", top, top + 1], ["appendChild", top, top + 2]]
    return making, [["discard", top] for top in range(2, 302, 3)], 100


def discarded_beside_walks(walks):
    """Texts without a parent go, while iterators and walkers of another node stand."""
    texts = [["createText", 0, "a"] for _ in range(COMMANDS)]
    making = [["createElement", 0, "p"]] + texts
    for _ in range(walks):
        making += [["createIterator", 1, 4294967295, []], ["createWalker", 1, 4294967295, []]]
    return making, [["discard", 2 + k] for k in range(COMMANDS)], COMMANDS


def documents_discarded(gone):
    """Documents are discarded, after a number of other nodes were discarded."""
    making = []
    for number in range(1, gone + 1):
        making += [["createComment", 0, ""], ["discard", number]]
    making += [["newDocument"] for _ in range(100)]
    return making, [["discard", gone + 1 + k] for k in range(100)], 100


def put_in_front(children):
    """Children that were each put in front of those before."""
    making = [["createElement", 0, "p"]]
    for number in range(2, children + 2):
        making += [["createElement", 0, "e"], ["insertBefore", 1, number, number - 1 if number > 2 else None]]
    return making


def selected_in_the_midst(children):
    """A range is set around a child in the midst of children that were each put in front."""
    select = ["selectNode", 0, children // 2]
    return put_in_front(children) + [["createRange", 0], select], [["selectNode", 0, children // 2 + 1] for _ in range(100)], 100


def compared_in_the_midst(children):
    """Points among children that were each put in front are compared with a range inside a child in their midst."""
    ends = [["createRange", 0], ["selectNodeContents", 0, children // 2], ["comparePoint", 0, 1, 1]]
    return put_in_front(children) + ends, [["comparePoint", 0, 1, children // 2 + k % 3] for k in range(100)], 100


def set_far_from_the_end(children):
    """A range starts anew in children that were each put in front, while it ends in another, far from these."""
    there = 2 * children // 3
    ends = [["createRange", 0], ["setEnd", 0, children // 3, 0], ["setStart", 0, there, 0]]
    return put_in_front(children) + ends, [["setStart", 0, there + k % 3, 0] for k in range(100)], 100


def moved_beside_released(ranges):
    """A group of a hundred leaves moves to and fro, while ranges stand that were released, and one that is live."""
    nodes = 1000
    making = list(tree(nodes)) + [["createRange", 0] for _ in range(ranges)] + [["releaseRange", number] for number in range(ranges)]
    at = groups(nodes)
    moves = [["appendChild", at[1 + k % 2], at[0]] for k in range(100)]
    return making + [["createRange", 0], ["selectNode", ranges, at[3]]], moves, 100


def taken_out_of_a_chain(depth):
    """The contents from the foot of a chain to the end of its top are extracted; counted for each level."""
    making = list(chain(depth)) + [["createText", 0, "some text"], ["appendChild", depth, depth + 1]]
    making += [["createRange", 0], ["setStart", 0, depth + 1, 4], ["setEnd", 0, 0, 1]]
    return making, [["extractContents", 0]], depth


def cloned_out_of_a_chain(depth):
    making, _, count = taken_out_of_a_chain(depth)
    return making, [["cloneContents", 0]], count


def beside_an_end(children, make):
    """An element with children, each made by that command, front to back, and a live range around all of them."""
    making = [["createElement", 0, "p"]]
    for number in range(2, children + 2):
        making += [make, ["appendChild", 1, number]]
    return making + [["createRange", 0], ["selectNodeContents", 0, 1]]


def removed_beside_an_end(children):
    """Every second child goes, front to back."""
    return beside_an_end(children, ["createElement", 0, "e"]), [["remove", number] for number in range(2, children + 2, 2)], children // 2


def removed_from_behind(children):
    """Every second child goes, back to front."""
    making, commands, count = removed_beside_an_end(children)
    return making, commands[::-1], count


def inserted_beside_an_end(children):
    """A node is inserted before every second child, front to back."""
    making = beside_an_end(children, ["createElement", 0, "e"]) + [["createElement", 0, "n"] for _ in range(children // 2)]
    return making, [["insertBefore", 1, children + 2 + k, 2 + 2 * k] for k in range(children // 2)], children // 2


def split_beside_an_end(children):
    """Every Text is split, front to back."""
    return beside_an_end(children, ["createText", 0, "some text"]), [["splitText", 2 + k, 4] for k in range(children)], children


def normalized_beside_an_end(groups):
    """Groups of two Texts and an element are normalized beside an end in their parent; counted for each group."""
    making = [["createElement", 0, "p"]]
    for number in range(2, 3 * groups + 2):
        making += [["createText", 0, "t"] if number % 3 else ["createElement", 0, "e"], ["appendChild", 1, number]]
    return making + [["createRange", 0], ["selectNodeContents", 0, 1]], [["normalize", 1]], groups


def deleted_after_the_first(children):
    """Half of the children are deleted, from a fourth on, once the first went; counted for each."""
    ends = [["remove", 2], ["setStart", 0, 1, children // 4], ["setEnd", 0, 1, 3 * children // 4]]
    return beside_an_end(children, ["createElement", 0, "e"]) + ends, [["deleteContents", 0]], children // 2


def normalized_chain(depth):
    """A chain of elements with a Text in each is normalized; counted for each level."""
    making = [["createElement", 0, "e"]]
    for level in range(1, depth):
        above, element, text = max(1, 2 * level - 2), 2 * level, 2 * level + 1
        making += [["createElement", 0, "e"], ["createText", 0, "t"], ["appendChild", above, text], ["appendChild", above, element]]
    return making, [["normalize", 1]], depth


SIZES = ("among 1,000 nodes", "among 100,000")
LEVELS = ("300 deep", "3,000 deep")
RANGES = ("with no range elsewhere", "with 10,000 ends")

PAIRS = (
    ("append", SIZES, append_scene, (1000, 100000)),
    ("insert before", SIZES, insert_scene, (1000, 100000)),
    ("remove", SIZES, remove_scene, (1000, 100000)),
    ("insert before", RANGES, inserts_beside, (0, 5000)),
    ("remove", RANGES, removes_beside, (0, 5000)),
    ("insertData", ("with no range elsewhere", "with 10,000"), data_beside, (0, 10000)),
    ("a change that nobody watches", SIZES, lambda nodes: watched(nodes, 0), (1000, 100000)),
    ("a change that one observer watches", SIZES, lambda nodes: watched(nodes, 1), (1000, 100000)),
    ("compareBoundaryPoints", SIZES, compared, (1000, 100000)),
    ("nextNode of an iterator", SIZES, steps, (1000, 100000)),
    ("nextNode of a walker", SIZES, walks, (1000, 100000)),
    ("cloneNode, for each node", SIZES, cloned, (1000, 100000)),
    ("deleteContents, for each node", ("in 100 paragraphs", "in 100,000"), contents_deleted, (100, 100000)),
    ("compareBoundaryPoints in a chain, for each level", LEVELS, compared_in_a_chain, (300, 3000)),
    ("root in a chain, for each level", LEVELS, root_of_a_chain, (300, 3000)),
    ("contains in a chain, for each level", LEVELS, contained_in_a_chain, (300, 3000)),
    ("comparePosition in a chain, for each level", LEVELS, positions_in_a_chain, (300, 3000)),
    ("a Text that is made, for each unit", ("of 1,000", "of 100,000"), texts_read, (1000, 100000)),
    ("remove", ("with no iterator elsewhere", "with 10,000"), removes_beside_iterators, (0, 10000)),
    ("a change that nobody watches", ("beside one observer of another node", "beside 10,000"), changes_beside_observers, (1, 10000)),
    ("disconnect", ("among 100 observers", "among 10,000"), disconnected, (100, 10000)),
    ("append, remove and notify", ("with no other observer", "beside 10,000 of other nodes"), notified, (0, 10000)),
    ("observe of a node that is observed", ("among 100 observers", "among 10,000"), observed_again, (100, 10000)),
    ("append, remove and notify", ("after a notice of 1 removal", "after a notice of 3,000"), notified_after, (1, 3000)),
    ("append, remove and notify", ("after a notice of 1 removal", "after a notice of 10,000"), notified_after, (1, 10000)),
    ("discard of a Text", ("with no record that waits", "beside 50,000"), discarded_beside_records, (0, 50000)),
    ("discard of a Text", ("with no other node observed", "with 10,000"), discarded_beside_observed, (0, 10000)),
    ("discard of a Text", ("with no static range", "beside 50,000"), discarded_beside_static_ranges, (0, 50000)),
    ("discard of an element with two Texts", ("beside 10 static ranges", "beside 50,000"), groups_discarded_beside_static_ranges, (10, 50000)),
    ("discard of a Text", ("beside 10 iterators and walkers", "beside 10,000 of each"), discarded_beside_walks, (10, 10000)),
    ("discard of a Document", ("after 100 other nodes went", "after 100,000"), documents_discarded, (100, 100000)),
    ("selectNode in the midst", ("of 100 children", "of 50,000"), selected_in_the_midst, (100, 50000)),
    ("comparePoint in the midst", ("of 100 children", "of 50,000"), compared_in_the_midst, (100, 50000)),
    ("setStart far from the end", ("among 100 children", "among 50,000"), set_far_from_the_end, (100, 50000)),
    ("remove of every second child, front to back, beside a range", ("of 2,000 children", "of 20,000"), removed_beside_an_end, (2000, 20000)),
    ("remove of every second child, back to front, beside a range", ("of 200 children", "of 20,000"), removed_from_behind, (200, 20000)),
    ("insert before every second child beside a range", ("of 200 children", "of 20,000"), inserted_beside_an_end, (200, 20000)),
    ("splitText of each child beside a range", ("of 100 children", "of 10,000"), split_beside_an_end, (100, 10000)),
    ("normalize of (Text, Text, element) beside a range, for each", ("100 times", "10,000 times"), normalized_beside_an_end, (100, 10000)),
    ("deleteContents after the first child went, for each node", ("of 200 children", "of 20,000"), deleted_after_the_first, (200, 20000)),
    ("normalize of a chain with a Text in each, for each level", ("100 deep", "10,000 deep"), normalized_chain, (100, 10000)),
    ("a group that moves", ("with no released range", "beside 10,000"), moved_beside_released, (0, 10000)),
    ("extractContents out of a chain, for each level", ("40 deep", "4,000 deep"), taken_out_of_a_chain, (40, 4000)),
    ("cloneContents out of a chain, for each level", ("40 deep", "4,000 deep"), cloned_out_of_a_chain, (40, 4000)),
)
