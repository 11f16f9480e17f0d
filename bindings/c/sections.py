"""The sections of the DOM Standard on the calls: the interface and its member. Calls that are not here are ours."""

# By interface: calls whose member has their name in the standard's spelling, and those with another.
SAME = {
    "Node": "insert_before append_child replace_child remove_child clone_node normalize contains text_content",
    "Document": "adopt_node import_node create_element create_comment create_range",
    "CharacterData": "data append_data insert_data delete_data replace_data substring_data",
    "Text": "split_text",
    "Element": "set_attribute get_attribute has_attribute remove_attribute toggle_attribute",
    "Range": "clone_range set_start set_end set_start_before set_start_after set_end_before set_end_after collapse select_node "
    "select_node_contents compare_boundary_points compare_point is_point_in_range intersects_node delete_contents extract_contents "
    "clone_contents insert_node surround_contents",
    "NodeIterator": "next_node previous_node",
    "MutationObserver": "observe disconnect take_records",
    "ChildNode": "remove",
    "ParentNode": "replace_children",
}

OTHER = {
    "new_document": "Document()",
    "create_text": "Document.createTextNode",
    "create_pi": "Document.createProcessingInstruction",
    "create_doctype": "DOMImplementation.createDocumentType",
    "create_fragment": "Document.createDocumentFragment",
    "set_text_content": "Node.textContent",
    "node": "Node",
    "children": "Node.childNodes",
    "index": "trees, index",
    "length": "nodes, length",
    "root": "Node.getRootNode",
    "is_equal": "Node.isEqualNode",
    "compare_position": "Node.compareDocumentPosition",
    "set_data": "CharacterData.data",
    "attribute_names": "Element.getAttributeNames",
    "range": "AbstractRange",
    "common_ancestor": "Range.commonAncestorContainer",
    "range_text": "Range, stringifier",
    "create_static_range": "StaticRange()",
    "static_range": "StaticRange",
    "create_iterator": "Document.createNodeIterator",
    "create_walker": "Document.createTreeWalker",
    "iterator": "NodeIterator",
    "walker": "TreeWalker",
    "set_current": "TreeWalker.currentNode",
    "walk": "TreeWalker",
    "next_nodes_into": "NodeIterator.nextNode",
    "walk_into": "TreeWalker",
    "create_observer": "MutationObserver()",
    "notify": "notify mutation observers",
    "take_pending": "notify mutation observers",
    "tell_observer": "notify mutation observers",
}


def spelled(name):
    first, *others = name.split("_")
    return first + "".join(it.capitalize() for it in others)


SECTIONS = {name: f"{interface}.{spelled(name)}" for interface, names in SAME.items() for name in names.split()}
SECTIONS.update(OTHER)


def section(call):
    """Returns the reference to the standard in a call's comment; empty if the call is ours."""
    found = SECTIONS.get(call[len("hp_") :])
    return f" DOM Standard: {found}." if found else ""
