"""Conversions between values in lines and replies and the objects of the package."""
import huckleport as h

MOVES = {
    "parentNode": h.TreeWalker.parent_node,
    "firstChild": h.TreeWalker.first_child,
    "lastChild": h.TreeWalker.last_child,
    "previousSibling": h.TreeWalker.previous_sibling,
    "nextSibling": h.TreeWalker.next_sibling,
    "previousNode": h.TreeWalker.previous_node,
    "nextNode": h.TreeWalker.next_node,
}
VERDICTS = {"accept": h.NodeFilter.FILTER_ACCEPT, "reject": h.NodeFilter.FILTER_REJECT, "skip": h.NodeFilter.FILTER_SKIP}
OPTIONS = {
    "childList": "child_list",
    "attributes": "attributes",
    "characterData": "character_data",
    "subtree": "subtree",
    "attributeOldValue": "attribute_old_value",
    "characterDataOldValue": "character_data_old_value",
    "attributeFilter": "attribute_filter",
}


def text_in(value):
    """A text of a line as a str."""
    if not isinstance(value, list):
        return value
    return b"".join(it.to_bytes(2, "little") for it in value).decode("utf-16-le", "surrogatepass")


def text_out(value):
    """A str as replies print a text: units where it is not well-formed."""
    if value is None:
        return None
    raw = value.encode("utf-16-le", "surrogatepass")
    try:
        return raw.decode("utf-16-le")
    except UnicodeDecodeError:
        return [raw[at] | raw[at + 1] << 8 for at in range(0, len(raw), 2)]


def number(it):
    return None if it is None else it.number


def numbers(its):
    return [it.number for it in its]


def filter_in(rules):
    return [(name, VERDICTS[verdict]) for name, verdict in rules]


def record_out(it):
    nodes = [numbers(it.added_nodes), numbers(it.removed_nodes), number(it.previous_sibling), number(it.next_sibling)]
    return [it.type, it.target.number, *nodes, it.attribute_name, text_out(it.old_value)]


def row_out(row):
    node = row.node
    found = [row.depth, node.number, node.node_type, node.node_name]
    if isinstance(node, h.Element):
        return [*found, [[name, text_out(value)] for name, value in row.attributes]]
    if isinstance(node, h.DocumentType):
        return [*found, row.public_id, row.system_id]
    return found if row.data is None else [*found, text_out(row.data)]


def node_out(it):
    found = {"document": it.node_document.number, "name": it.node_name, "next": number(it.next_sibling)}
    found.update({"parent": number(it.parent_node), "previous": number(it.previous_sibling)})
    if isinstance(it, h.DocumentType):
        found.update({"public": it.public_id, "system": it.system_id})
    return {**found, "type": it.node_type}


def ends_out(it):
    return [it.start_container.number, it.start_offset, it.end_container.number, it.end_offset]
