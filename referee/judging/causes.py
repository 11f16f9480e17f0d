"""Causes of known differences, by name. Each describes how a player's replies depart from the expected ones, as far as the stream and both replies show.

A cause is checked on a shrunk difference, at the command that the difference comes from (judging.shown), never at the command that shows it. Only the
core's replies are expected; a cause describes the player's. If it needs the effects of other commands, it asks the core. It has to explain all that
differs after the command, so that another fault of the same command does not match.
"""
import re

from judging.commands import COMMANDS, DOCTYPE, DOCUMENT, ELEMENT, FRAGMENT, PARENTS, PI, TEXT
from judging.judge import changes
from judging.shown import left_out, same_records

# XML's production Name.
BEGINS = (
    ":A-Z_a-z\u00c0-\u00d6\u00d8-\u00f6\u00f8-\u02ff\u0370-\u037d\u037f-\u1fff\u200c-\u200d\u2070-\u218f\u2c00-\u2fef\u3001-\ud7ff\uf900-\ufdcf\ufdf0-\ufffd"
    "\U00010000-\U000effff"
)
XML_NAME = re.compile(f"[{BEGINS}][{BEGINS}\\-.0-9\u00b7\u0300-\u036f\u203f-\u2040]*")
BY_CHARACTER = "InvalidCharacterError"
BY_HIERARCHY = "HierarchyRequestError"
EDITS = ("appendChild", "insertBefore", "replaceChild")


def anything(shown):
    """Anything differs."""
    return True


# Names, texts and offsets.


def name_that_xml_has_not(shown):
    """A name that is none by XML's production is refused."""
    return shown.refuses(BY_CHARACTER) and not XML_NAME.fullmatch(name_of(shown))


def name_that_is_no_qname(shown):
    """A name that is none by XML's production QName is refused: one or two names without a colon, with a colon between."""
    parts = name_of(shown).split(":")
    return shown.refuses(BY_CHARACTER) and (len(parts) > 2 or not all(map(XML_NAME.fullmatch, parts)))


def name_beyond_ascii(shown):
    """A name by XML's production that has a character beyond ASCII is refused."""
    return shown.refuses(BY_CHARACTER) and bool(XML_NAME.fullmatch(name_of(shown))) and not name_of(shown).isascii()


def name_with_a_colon(shown):
    """A name that has a colon is refused."""
    return shown.refuses("*") and ":" in name_of(shown)


def any_name(shown):
    """A name that is due to be refused is taken."""
    return shown.accepts(BY_CHARACTER)


def name_of(shown):
    return next(it for it in shown.values if isinstance(it, str))


def name_of_a_copy(shown):
    """A copy of an element is refused for a name that has a colon or is xmlns."""
    names = [row[1] for number, row in shown.before.rows.items() if shown.before.within(number, shown.values[-2]) and row[0] == ELEMENT]
    return (shown.refuses("NamespaceError") or shown.refuses(BY_CHARACTER)) and any(":" in it or it == "xmlns" for it in names)


def ids_of_a_copy(shown):
    """A copied doctype is reported without its public id and its system id."""
    without = lambda rows: [[*row[:4], "", ""] for row in rows]
    is_copied = shown.name == "cloneNode" and shown.kind(shown.values[0]) == DOCTYPE
    return is_copied and shown.only("tree") and all(told.get("ok") == without(due["ok"]) for _, due, told in shown.here)


def text_not_well_formed(shown):
    """A text that has half of a surrogate pair is refused."""
    return shown.refuses("*") and any(isinstance(it, list) for it in shown.values)


def offset_at_the_end(shown):
    """An offset that is the length of the data is refused; appending has no other."""
    node, *values = shown.values
    return shown.refuses("IndexSizeError") and (shown.name == "appendData" or values[0] == units_of(shown.before.data(node)))


def units_of(data):
    """Returns the number of units of a text in the form of replies."""
    return len(data.encode("utf-16-le")) // 2 if isinstance(data, str) else len(data)


def offset_past_the_end(shown):
    """An offset beyond the length of the data is taken."""
    return shown.accepts("IndexSizeError")


def nothing_is_replaced(shown):
    """A text is to be inserted and no unit to be replaced: the data stay as they were."""
    _, _, count, text = shown.values if shown.name == "replaceData" else (None, None, None, None)
    return count == 0 and bool(text) and shown.only("tree") and shown.tells_as_after([])


def null_as_a_word(shown):
    """Text content that is set to null becomes the word."""
    return shown.name == "setTextContent" and shown.values[1] is None and all(question[0] in ("tree", "node", "children") for question, _, _ in shown.here)


def missing_attribute_is_empty(shown):
    """A missing attribute is reported as the empty text."""
    return shown.name == "getAttribute" and shown.is_at_end() and shown.due.get("ok", "") is None and shown.told.get("ok") == ""


def missing_attribute_is_refused(shown):
    """The removal of a missing attribute is refused."""
    return shown.refuses("NotFoundError") and shown.name == "removeAttribute"


# Nodes and their places.


def node_above_or_document(shown):
    """The node is the parent or its ancestor, or the parent is a Document. An edit that has to be refused is done, or refused for a missing child."""
    parent, _, _ = shown.edit()
    other = shown.accepts(BY_HIERARCHY) or shown.gives(BY_HIERARCHY, "NotFoundError")
    return other and (is_above(shown) or shown.kind(parent) == DOCUMENT)


def node_above_the_parent(shown):
    """The node is the parent or its ancestor. An edit that has to be refused is done, or never replied to."""
    return shown.gives(BY_HIERARCHY, None) and "error" not in shown.told and is_above(shown)


def is_above(shown):
    """Returns whether the node is the parent or its ancestor."""
    parent, node, _ = shown.edit()
    return parent == node or shown.before.within(parent, node)


def unasked_hierarchy(shown):
    """An edit that has to be refused for the place of a node has another reply."""
    return shown.gives(BY_HIERARCHY, None)


def node_taken_anywhere(shown):
    """An edit that has to be refused for the place of a node is done. If the node is the parent or its ancestor, it may be refused for a missing child."""
    return shown.accepts(BY_HIERARCHY) or (shown.gives(BY_HIERARCHY, "NotFoundError") and is_above(shown))


def document_into_itself(shown):
    """A Document is to be inserted into itself, at a node that is no child of it, and is refused for that child."""
    parent, node, _ = shown.edit()
    return shown.gives(BY_HIERARCHY, "NotFoundError") and parent == node and shown.kind(node) == DOCUMENT


def kind_ahead_of_child(shown):
    """The child is not the parent's, and the edit is refused for the node's kind."""
    return shown.gives("NotFoundError", BY_HIERARCHY)


def child_of_another(shown):
    """A node that is no child of the parent is removed or replaced."""
    return shown.accepts("NotFoundError")


def childless_parent_fails(shown):
    """An edit has to be refused because the node is no child. The parent can have no children, and the edit fails for that."""
    return shown.gives("NotFoundError", "TypeError") and shown.kind(shown.values[0]) not in PARENTS


def doctype_without_an_element(shown):
    """A doctype is refused beside or in place of a child of a Document that has no element."""
    parent, node, child = shown.edit()
    elements = [it for it in shown.before.children.get(parent, ()) if shown.kind(it) == ELEMENT]
    return shown.refuses(BY_HIERARCHY) and shown.kind(parent) == DOCUMENT and shown.kind(node) == DOCTYPE and child is not None and not elements


def nameless_refusal(shown):
    """A refusal has no name of the standard's."""
    return shown.gives(BY_HIERARCHY, "Error")


def endless_in_its_own_place(shown):
    """A node is to be inserted before itself, or in its own place: the command never returns, or fills a list until that is too long."""
    _, node, child = shown.edit()
    ended = shown.told.get("fault") in ("hung", "died") or shown.told.get("error") == "RangeError"
    return ended and shown.is_at_end() and node == child


def in_its_own_place(shown):
    """A node is inserted in its own place."""
    _, node, child = shown.edit()
    return shown.name == "replaceChild" and node == child


def fragment_is_adopted(shown):
    """A node is reported as if each inserted fragment were first adopted into the node document of its new parent."""
    if shown.name != "node" or not shown.is_at_end():
        return False
    with shown.judge.core() as core:
        for it in shown.turns[: shown.place]:
            parent, node = put_in(core, it.command) if "ok" in it.reply else (None, None)
            if node is not None and core.ask("node", node)["type"] == FRAGMENT:
                core.play(["adoptNode", core.ask("node", parent)["document"], node])
            core.play(it.command)
        return shown.tells(core.reply(shown.cause))


def put_in(core, command):
    """Returns the parent, or a node of its document, and the node that a command inserts; None if it inserts none."""
    name, *values = command
    if name == "insertNode":
        return core.ask("range", values[0])[0], values[1]
    return values[:2] if name in (*EDITS, "replaceChildren") else (None, None)


def links_that_stay(shown):
    """The inserted node was removed with all children of its parent at once. A sibling from there is inserted too, or the command never returns."""
    node = shown.values[0] if shown.name == "adoptNode" else shown.values[1]
    out = next((at for at in reversed(range(shown.place)) if shown.turns[at].command[0] == "setTextContent" and parted(shown, at, node)), None)
    return out is not None and ("fault" in shown.told or any(question[0] in ("tree", "node", "children") for question, _, _ in shown.here))


def parted(shown, at, node):
    """Returns whether a node had a parent and siblings before a command, and has no parent after it."""
    before, after = shown.state(at - 1), shown.state(at)
    parent = before.parent.get(node)
    return parent is not None and len(before.children[parent]) > 1 and after.parent.get(node) is None


def nameless_instruction(shown):
    """A processing instruction has no nodeName."""

    def named(question, reply):
        answer = reply.get("ok")
        rows = [answer] if question[0] == "node" else answer
        return [row if kind_in(row) != PI else without_name(row) for row in rows]

    last = [shown.turns[-1].command, shown.due, shown.told]
    return all(named(question, due) == named(question, told) for question, due, told in (shown.here or [last]))


def kind_in(row):
    return row["type"] if isinstance(row, dict) else row[2]


def without_name(row):
    return {**row, "name": None} if isinstance(row, dict) else [*row[:3], None, *row[4:]]


def nothing_is_answered(shown):
    """The reply is null, and not the child."""
    return shown.gives("ok", "ok") and shown.told["ok"] is None


def node_document_alone(shown):
    """Only the node document of a node differs."""
    if not shown.is_at_end() or not shown.gives("ok", "ok"):
        return False
    due, told = shown.due["ok"], shown.told["ok"]
    return {**due, "document": None} == {**told, "document": None}


def text_content_alone(shown):
    """The text content differs, or the length of a Document or doctype whose text content was set."""
    is_text = shown.name == "textContent" or shown.kind(shown.values[0]) in (DOCUMENT, DOCTYPE)
    return shown.is_at_end() and shown.gives("ok", "ok") and is_text


def document_is_copied(shown):
    """A Document is taken that cannot be imported."""
    return shown.accepts("NotSupportedError") and shown.kind(shown.values[1]) == DOCUMENT


def nothing_in_its_own_place(shown):
    """A child is to be replaced by itself, and the reply is null."""
    return in_its_own_place(shown) and nothing_is_answered(shown)


def no_list_of_children(shown):
    """The children of a node that can have none are asked for, and an empty list is expected."""
    return shown.refuses("TypeError") and shown.due["ok"] == []


def joined_to_empty_texts(shown):
    """In the trees each Text is joined to the one ahead of it, even to an empty one. No other Text is removed."""
    if shown.name != "normalize" or not shown.only("tree", "node", "children"):
        return False
    trees = [it for it in shown.here if it[0][0] == "tree"]
    with shown.judge.core() as core:
        for command in shown.commands(shown.place) + joins_to_any(shown.before, shown.values[0]):
            core.play(command)
        return all(core.reply(question) == told for question, _, told in trees)


def joins_to_any(state, top):
    """Returns the commands that join each Text below a node to the one ahead of it."""
    found, first = [], None
    for number in descendants(state, top):
        if state.kind(number) != TEXT:
            first = None
        elif first is not None and neighbours(state, first, number):
            found += [["remove", number], ["appendData", first, state.data(number)]]
        else:
            first = number
    return found


def node_is_the_child(shown):
    """A node is to be inserted before itself, or in its own place, and is not found."""
    _, node, child = shown.edit()
    return shown.refuses("NotFoundError") and node == child


def node_beside_itself(shown):
    """A node is to be inserted before itself, or before its next sibling, and is refused."""
    _, node, child = shown.edit()
    return shown.refuses("*") and child is not None and child in (node, shown.before.sibling(node, 1))


def fragment_is_answered(shown):
    """The reply is the inserted fragment, or null, and not the child."""
    _, node, _ = shown.edit()
    return shown.gives("ok", "ok") and shown.kind(node) == FRAGMENT and shown.told["ok"] in (node, None)


def text_beside_text(shown):
    """A Text is inserted beside another, or a node in its own place, and only the trees differ."""
    parent, node, child = shown.edit()
    if "ok" not in shown.turns[shown.place].reply or not shown.is_at_end() and not shown.only("tree", "node", "children"):
        return False
    around = shown.after.children.get(parent, [])
    return node == child or any(shown.after.kind(one) == shown.after.kind(other) == TEXT for one, other in zip(around, around[1:]))


def refused_and_taken_out(shown):
    """A refused edit has taken the node out of its old place."""
    if shown.name not in EDITS or "error" not in shown.turns[shown.place].reply or shown.is_at_end():
        return False
    return not any(map(changes, shown.turns[shown.place : -1])) and shown.tells(shown.asked([["remove", shown.values[1]]]))


def surrounded_half(shown):
    """A refused surroundContents has done its steps up to the one that refuses."""
    if shown.name != "surroundContents" or "error" not in shown.turns[shown.place].reply or any(map(changes, shown.turns[shown.place :])):
        return False
    number, node = shown.values
    return shown.tells(shown.asked([["extractContents", number], ["replaceChildren", node, None], ["insertNode", number, node]]))


# Filters, iterators and walkers.


def filter_was_given(shown):
    """A step of an iterator or a walker that has a filter throws."""
    number = shown.values[0]
    return shown.refuses("TypeError") and bool(shown.of("createWalker" if shown.name == "walk" else "createIterator")[number][3])


def reference_outside_the_root(shown):
    """References that have to be the roots of their iterators are reported as nodes outside of those."""

    def fits(due, told):
        root, reference, _ = due["ok"]
        return reference == root and not shown.player.within(told["ok"][1], root)

    return shown.only("iterator") and all(fits(due, told) for _, due, told in shown.here)


def reference_left_in_removed(shown):
    """All children of a node are removed at once, and references are reported as nodes in the removed trees."""

    def fits(due, told):
        root, _, _ = due["ok"]
        return shown.before.within(told["ok"][1], root) and not shown.after.within(told["ok"][1], root)

    return shown.only("iterator") and all(fits(due, told) for _, due, told in shown.here)


# Records.


def records_of_nothing(shown):
    """Besides the expected records there are records of children in which no node was added and none removed."""
    due, told = shown.records
    return shown.only("takeRecords") and same_records(due, something(told))


def something(records):
    """Returns the records in which a node was added or removed, or data or an attribute changed."""
    return [it for it in records if it.type != "childList" or it.added or it.removed]


def no_transients(shown):
    """The records are those without any transient registration, or lack the changes that the command made in nodes which it removed itself."""
    if not shown.only("takeRecords"):
        return False
    standing = standing_at(shown)
    anew = [["disconnect", it] for it in {it[1] for it in standing}] + standing
    observed = lambda it, state: any(state.within(it.target, top) for _, observer, top, _ in standing if observer == it.observer)
    taken_out = lambda it: observed(it, shown.before) and not observed(it, shown.after)
    ahead = shown.commands(shown.place) + anew
    return shown.records_are(shown.records_where([shown.cause], ahead)) or all_left_out(shown, taken_out)


def standing_at(shown):
    """Returns the commands of the registrations at the cause that are not transient."""
    found = []
    for turn in shown.turns[: shown.place]:
        name, *values = turn.command
        if name == "disconnect":
            found = [it for it in found if it[1] != values[0]]
        elif name == "observe" and "ok" in turn.reply:
            found = [it for it in found if it[1:3] != values[:2]] + [turn.command]
    return found


def old_parent_is_silent(shown):
    """The record of the inserted node's removal from its old parent is missing."""
    return all_left_out(shown, lambda it: it.type == "childList" and it.removed == [shown.values[1]] and not it.added)


def transients_outlive_notify(shown):
    """The records are those after a notify that ends the transient registrations of only those observers that it notifies."""
    at = next((at for at in reversed(range(shown.place)) if shown.turns[at].command[0] == "notify"), None)
    if at is None or not shown.only("takeRecords"):
        return False
    with shown.judge.core() as core:
        for it in shown.turns[:at]:
            core.play(it.command)
        pending = core.ask("pending")
    standing = [it.command for it in shown.turns[:at] if it.command[0] == "observe" and "ok" in it.reply and it.command[1] in pending]
    instead = [["takeRecords", it] for it in pending] + [["disconnect", it] for it in pending] + standing
    ahead = shown.commands(at) + instead + shown.commands(shown.place)[at + 1 :]
    return shown.records_are(shown.records_where([shown.cause], ahead))


def observers_by_age(shown):
    """notify returns the records of each observer, and the observers in the order in which they were made."""
    return shown.name == "notify" and shown.gives("ok", "ok") and sorted(shown.due["ok"], key=lambda it: it[0]) == shown.told["ok"]


def records_of_equal_data(shown):
    """The records of data that stayed as they were are missing."""
    return all_left_out(shown, lambda it: it.type == "characterData" and shown.before.data(it.target) == shown.after.data(it.target))


def all_left_out(shown, fits):
    lost = left_out(*shown.records)
    return shown.only("takeRecords") and bool(lost) and all(map(fits, lost))


def joined_one_by_one(shown):
    """By the records each Text is joined to the first by itself, with a record of the data each. Empty Texts are only removed."""
    return shown.name == "normalize" and shown.records_are(shown.records_where(joins_of(shown.before, shown.values[0])))


def joins_of(state, top):
    """Returns the commands that join the Texts below a node one by one."""
    found, first = [], None
    for number in descendants(state, top):
        kind, data = state.kind(number), state.data(number)
        if kind == TEXT and not data:
            found.append(["remove", number])
        elif kind == TEXT and first is not None and neighbours(state, first, number):
            found += [["appendData", first, data], ["remove", number]]
        else:
            first = number if kind == TEXT else None
    return found


def descendants(state, top):
    """Returns the descendants of a node, in tree order."""
    return [it for child in state.children.get(top, ()) for it in (child, *descendants(state, child))]


def neighbours(state, one, other):
    """Returns whether two siblings have only Texts between them."""
    around = state.children[state.parent[one]]
    return other in around and all(state.kind(it) == TEXT for it in around[around.index(one) : around.index(other)])


def taken_out_first(shown):
    """The records are those that result if the node is removed ahead of the command."""
    parent, node, *child = shown.values
    in_its_own_place = ["insertBefore", parent, node, shown.before.sibling(node, 1)]
    return node is not None and shown.records_are(shown.records_where([["remove", node], in_its_own_place if child == [node] else shown.cause]))


def data_ahead_of_the_new_text(shown):
    """The record of the split data is ahead of the record of the new Text. All else is as expected."""
    due, told = shown.records
    split = shown.values[0] if shown.name == "splitText" else shown.before.ends[shown.values[0], 0][0]
    found, at = list(told), 0
    while at + 1 < len(found):
        data, children = found[at : at + 2]
        if data.type == "characterData" and data.target == split and children.type == "childList" and children.previous == split:
            found[at : at + 2] = children, data
            at += 1
        at += 1
    return shown.only("takeRecords") and same_records(due, found)


def children_one_by_one(shown):
    """Children of the new parent are removed one by one, and not at once. But for records without nodes, the rest is as expected."""
    due, told = shown.records
    return shown.only("takeRecords") and joined(due, shown.values[1]) == joined(something(told), shown.values[1])


def joined(records, parent):
    """Returns the records, with successive ones of children that were removed from a parent combined into one."""
    found = []
    for it in records:
        gone = (it.observer, sorted(it.removed)) if it.target == parent and it.removed and not it.added else None
        if gone and found and len(found[-1]) == 2 and found[-1][0] == it.observer:
            found[-1] = (it.observer, sorted(found[-1][1] + it.removed))
        else:
            found.append(gone or it)
    return found


def data_sooner(shown):
    """Records of data are earlier than expected among those of children. Each kind is in its own order."""
    due, told = shown.records
    kinds = [[[it for it in records if (it.type == "characterData") == data] for data in (True, False)] for records in (due, told)]
    return shown.only("takeRecords") and all(same_records(*it) for it in zip(*kinds))


# Ends of ranges. A cause is checked on each end that differs, and nothing else may differ.


def sent_into_the_parent(shown):
    """Ends in other nodes are reported in the parent of the inserted node, which has the other end, as if their offsets counted its children. If the
    range of insertNode seems collapsed by that, its end is reported behind the node.
    """
    least = 0 if is_nothing_put_in(shown) else 1
    offset = lambda it: it.due[1] if it.due[0] == it.before[0] else it.before[1]
    sent = lambda it: it.before[0] != it.told[0] and it.told[0] in it.others and shown.after.kind(it.told[0]) != TEXT and it.told[1] >= offset(it) + least
    collapsed = lambda it: shown.name == "insertNode" and it.told == shown.player.behind(last_in(shown, shown.values[1]))
    return shown.all_moved(lambda it: sent(it) or collapsed(it)) and any(map(sent, shown.moved))


def is_nothing_put_in(shown):
    """Returns whether the inserted node is a fragment without children."""
    return shown.name in (*EDITS, "insertNode") and shown.kind(shown.values[1]) == FRAGMENT and not shown.before.children.get(shown.values[1])


def last_in(shown, node):
    """Returns the last node that is inserted with a node: a fragment's last child, or the node itself."""
    return shown.before.children[node][-1] if shown.kind(node) == FRAGMENT else node


def joined_end_in_the_parent(shown):
    """Ends that have to be in a Text to which others were joined are reported in its parent."""
    return shown.all_moved(lambda it: shown.after.kind(it.due[0]) == TEXT and shown.after.parent[it.due[0]] == it.told[0])


def end_in_an_empty_text(shown):
    """Ends were in an empty Text, and have to be in the Text to which that was joined. They are reported in the parent."""

    def fits(it):
        ahead = shown.before.sibling(it.before[0], -1)
        return shown.before.data(it.before[0]) == "" and shown.before.kind(ahead) == TEXT and it.told[0] == shown.before.parent[ahead]

    return shown.all_moved(fits)


def text_is_normalized(shown):
    """A Text is normalized."""
    return shown.name == "normalize" and shown.kind(shown.values[0]) == TEXT


def end_in_the_new_text(shown):
    """The split Text has no parent, and ends in it are reported in the new Text."""
    text, made = shown.values[0], shown.turns[shown.place].reply["ok"]
    return shown.before.parent[text] is None and shown.all_moved(lambda it: it.before[0] == it.due[0] == text and it.told[0] == made)


def sibling_from_ahead(shown):
    """A node that is in the parent already, ahead of the place, is refused for the offset."""
    return shown.refuses("IndexSizeError") and comes_from_ahead(shown)


def comes_from_ahead(shown):
    number, node = shown.values
    start, offset = shown.before.ends[number, 0]
    around = shown.before.children.get(shown.before.parent[node], [])
    place = offset if start == shown.before.parent[node] else around.index(start)
    return around.index(node) < place


def end_one_too_far(shown):
    """The inserted node was in the parent, ahead of the place, and the end is reported one place too far."""
    return comes_from_ahead(shown) and shown.all_moved(lambda it: it.told == (it.due[0], it.due[1] + 1))


LISTED = (
    (offset_past_the_end, null_as_a_word, child_of_another, nameless_refusal, endless_in_its_own_place, in_its_own_place, fragment_is_adopted, links_that_stay),
    (nothing_is_replaced, ids_of_a_copy, name_of_a_copy, childless_parent_fails, doctype_without_an_element),
    (document_into_itself, node_taken_anywhere, nameless_instruction, nothing_is_answered, no_list_of_children, joined_to_empty_texts),
    (nothing_in_its_own_place, node_document_alone, text_content_alone, document_is_copied),
    (anything, name_that_xml_has_not, name_that_is_no_qname, name_beyond_ascii, name_with_a_colon, any_name, text_not_well_formed, offset_at_the_end),
    (missing_attribute_is_empty, missing_attribute_is_refused, node_above_or_document, node_above_the_parent, unasked_hierarchy, kind_ahead_of_child),
    (node_is_the_child, node_beside_itself, fragment_is_answered, text_beside_text, refused_and_taken_out, surrounded_half, filter_was_given),
    (reference_outside_the_root, reference_left_in_removed, records_of_nothing, no_transients, old_parent_is_silent, transients_outlive_notify),
    (observers_by_age, records_of_equal_data, joined_one_by_one, taken_out_first, data_ahead_of_the_new_text, children_one_by_one, data_sooner),
    (sent_into_the_parent, joined_end_in_the_parent, end_in_an_empty_text, text_is_normalized, end_in_the_new_text, sibling_from_ahead, end_one_too_far),
)
CAUSES = {it.__name__.replace("_", " "): it for its in LISTED for it in its}


def holds(entry, shown):
    """Returns whether the cause of an entry holds. It does not if the difference lacks a thing that it asks for."""
    if shown.name not in COMMANDS or shown.name not in entry.get("of", [shown.name]):
        return False
    try:
        return bool(CAUSES[entry["cause"]](shown))
    except (LookupError, TypeError, ValueError):
        return False
