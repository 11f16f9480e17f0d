"""The constants, the structs that are handed in, and the names of what each call is handed. Made by bindings/python/signatures.py; not to be edited."""

from typing import Dict, NamedTuple, Tuple

HP_OK = 0
HP_INDEX_SIZE_ERROR = 1
HP_HIERARCHY_REQUEST_ERROR = 3
HP_WRONG_DOCUMENT_ERROR = 4
HP_INVALID_CHARACTER_ERROR = 5
HP_NOT_FOUND_ERROR = 8
HP_NOT_SUPPORTED_ERROR = 9
HP_INVALID_STATE_ERROR = 11
HP_INVALID_NODE_TYPE_ERROR = 24
HP_TYPE_ERROR = 32
HP_NO_SUCH_OBJECT = 33
HP_LIMIT = 34
HP_IN_USE = 35
HP_LINE_TOO_LONG = 36
HP_BAD_JSON = 37
HP_BAD_COMMAND = 38
HP_BAD_ARGUMENTS = 39
HP_OUT_OF_MEMORY = 48
HP_CLOSED = 49
HP_ALREADY_OPEN = 50
HP_BAD_LIMITS = 51
HP_NOT_UTF8 = 52
HP_BAD_LENGTHS = 53
HP_BAD_CHOICE = 54
HP_NOT_THERE = 55
HP_ENDED = 56
HP_NONE = 4294967295
HP_ATTRIBUTES = 0
HP_CHARACTER_DATA = 1
HP_CHILD_LIST = 2

# How each status is printed.
WORDS = {
    HP_OK: "ok",
    HP_INDEX_SIZE_ERROR: "IndexSizeError",
    HP_HIERARCHY_REQUEST_ERROR: "HierarchyRequestError",
    HP_WRONG_DOCUMENT_ERROR: "WrongDocumentError",
    HP_INVALID_CHARACTER_ERROR: "InvalidCharacterError",
    HP_NOT_FOUND_ERROR: "NotFoundError",
    HP_NOT_SUPPORTED_ERROR: "NotSupportedError",
    HP_INVALID_STATE_ERROR: "InvalidStateError",
    HP_INVALID_NODE_TYPE_ERROR: "InvalidNodeTypeError",
    HP_TYPE_ERROR: "TypeError",
    HP_NO_SUCH_OBJECT: "no-such-object",
    HP_LIMIT: "limit",
    HP_IN_USE: "in-use",
    HP_LINE_TOO_LONG: "line-too-long",
    HP_BAD_JSON: "bad-json",
    HP_BAD_COMMAND: "bad-command",
    HP_BAD_ARGUMENTS: "bad-arguments",
    HP_OUT_OF_MEMORY: "out-of-memory",
    HP_CLOSED: "closed",
    HP_ALREADY_OPEN: "already-open",
    HP_BAD_LIMITS: "bad-limits",
    HP_NOT_UTF8: "not-utf8",
    HP_BAD_LENGTHS: "bad-lengths",
    HP_BAD_CHOICE: "bad-choice",
    HP_NOT_THERE: "not-there",
    HP_ENDED: "ended",
}

# The meaning of each status whose word does not say it.
MEANINGS = {
    HP_OK: "The call succeeded.",
    HP_NO_SUCH_OBJECT: "There is no object of that number.",
    HP_LIMIT: "There is no number left for a new object.",
    HP_IN_USE: "Something still refers to a node that was to be discarded.",
    HP_OUT_OF_MEMORY: "Out of memory. Either nothing has changed and the session goes on, or it has ended, now or at an earlier call: it takes no command, and its nodes can still be read.",
    HP_CLOSED: "The handle is closed.",
    HP_ALREADY_OPEN: "The handle is open already.",
    HP_BAD_LIMITS: "The limits of a session are out of their range.",
    HP_NOT_UTF8: "The bytes of a name are no UTF-8.",
    HP_BAD_LENGTHS: "Lengths do not fit the bytes or units that they measure.",
    HP_BAD_CHOICE: "A number stands for none of the choices.",
    HP_NOT_THERE: "The last answer, or the node, has no such part.",
    HP_ENDED: "The session has ended, as an edit was out of memory once. The answer is from the world it still holds.",
}


class hp_options(NamedTuple):
    """The members of MutationObserverInit: 0 for false, 1 for true, 2 for absent. The attribute filter is 0 if absent, and 1 if its names are passed beside."""

    child_list: int
    attributes: int
    character_data: int
    subtree: int
    attribute_old_value: int
    character_data_old_value: int
    attribute_filter: int


# The names of what each call is handed beside the session.
PARAMETERS: Dict[str, Tuple[str, ...]] = {
    "version": (),
    "open": ("numbers", "line",),
    "close": (),
    "line": ("line",),
    "print": (),
    "text": (),
    "name_at": ("index",),
    "reply_line": (),
    "count": (),
    "number_at": ("index",),
    "numbers_into": (),
    "node_name": ("part",),
    "row_at": ("index",),
    "row_name": ("index", "part",),
    "row_text": ("index",),
    "row_attribute_name": ("index", "at",),
    "row_attribute_value": ("index", "at",),
    "notice_at": ("index",),
    "record_at": ("notice", "index",),
    "records_into": ("notice",),
    "record_added_at": ("notice", "index", "at",),
    "record_removed_at": ("notice", "index", "at",),
    "record_name": ("notice", "index",),
    "record_old_value": ("notice", "index",),
    "new_document": (),
    "create_element": ("document", "name",),
    "create_text": ("document", "data",),
    "create_comment": ("document", "data",),
    "create_pi": ("document", "target", "data",),
    "create_doctype": ("document", "name", "public_id", "system_id",),
    "create_fragment": ("document",),
    "insert_before": ("parent", "node", "child",),
    "append_child": ("parent", "node",),
    "adopt_node": ("document", "node",),
    "replace_child": ("parent", "node", "child",),
    "remove_child": ("parent", "child",),
    "remove": ("node",),
    "replace_children": ("parent", "node",),
    "normalize": ("node",),
    "set_text_content": ("node", "text",),
    "discard": ("node",),
    "import_node": ("document", "node", "deep",),
    "clone_node": ("node", "deep",),
    "node": ("node",),
    "children": ("node",),
    "index": ("node",),
    "length": ("node",),
    "root": ("node",),
    "contains": ("node", "other",),
    "is_equal": ("node", "other",),
    "compare_position": ("node", "other",),
    "text_content": ("node",),
    "tree": ("node",),
    "links": ("node",),
    "first_child": ("node",),
    "last_child": ("node",),
    "child_at": ("node", "index",),
    "children_into": ("node",),
    "subtree_into": ("root", "start",),
    "name_of": ("node", "part",),
    "data_of": ("node",),
    "attribute_at": ("node", "index",),
    "in_use": (),
    "nodes_made": (),
    "data": ("node",),
    "set_data": ("node", "data",),
    "append_data": ("node", "data",),
    "insert_data": ("node", "offset", "data",),
    "delete_data": ("node", "offset", "count",),
    "replace_data": ("node", "offset", "count", "data",),
    "substring_data": ("node", "offset", "count",),
    "split_text": ("text", "offset",),
    "set_attribute": ("element", "name", "value",),
    "get_attribute": ("element", "name",),
    "has_attribute": ("element", "name",),
    "remove_attribute": ("element", "name",),
    "toggle_attribute": ("element", "name", "force",),
    "attribute_names": ("element",),
    "create_range": ("document",),
    "clone_range": ("range",),
    "range": ("range",),
    "set_start": ("range", "node", "offset",),
    "set_end": ("range", "node", "offset",),
    "set_start_before": ("range", "node",),
    "set_start_after": ("range", "node",),
    "set_end_before": ("range", "node",),
    "set_end_after": ("range", "node",),
    "collapse": ("range", "to_start",),
    "select_node": ("range", "node",),
    "select_node_contents": ("range", "node",),
    "release_range": ("range",),
    "compare_boundary_points": ("range", "how", "source",),
    "compare_point": ("range", "node", "offset",),
    "is_point_in_range": ("range", "node", "offset",),
    "intersects_node": ("range", "node",),
    "common_ancestor": ("range",),
    "create_static_range": ("start", "start_offset", "end", "end_offset",),
    "static_range": ("range",),
    "release_static_range": ("range",),
    "range_text": ("range",),
    "delete_contents": ("range",),
    "extract_contents": ("range",),
    "clone_contents": ("range",),
    "insert_node": ("range", "node",),
    "surround_contents": ("range", "parent",),
    "create_iterator": ("root", "show", "names", "lengths", "verdicts",),
    "create_walker": ("root", "show", "names", "lengths", "verdicts",),
    "iterator": ("iterator",),
    "next_node": ("iterator",),
    "next_nodes_into": ("iterator",),
    "previous_node": ("iterator",),
    "walker": ("walker",),
    "set_current": ("walker", "node",),
    "walk": ("walker", "direction",),
    "walk_into": ("walker", "direction",),
    "release_iterator": ("iterator",),
    "release_walker": ("walker",),
    "create_observer": (),
    "observe": ("observer", "node", "options", "names", "lengths",),
    "disconnect": ("observer",),
    "take_records": ("observer",),
    "notify": (),
    "pending": (),
    "take_pending": (),
    "tell_observer": ("observer",),
    "release_observer": ("observer",),
}
