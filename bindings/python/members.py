"""What the scripts that write modules know beside the exports: which answers are read whole, and which members of classes are calls."""

# Calls whose answer stays in the session, by what it is; each is read whole by the name read_CALL.
READS = {
    "children": "numbers",
    "pending": "numbers",
    "attribute_names": "names",
    "data": "text",
    "substring_data": "text",
    "range_text": "text",
    "text_content": "text?",
    "get_attribute": "text?",
}

# Calls that begin by freeing the things that nobody holds any more: those that make something, and those that remove nodes.
LET_GO_FIRST = set(
    "new_document create_element create_text create_comment create_pi create_doctype create_fragment import_node clone_node split_text"
    " create_range clone_range create_static_range create_iterator create_walker create_observer extract_contents clone_contents"
    " replace_child remove_child remove discard replace_children set_text_content normalize delete_contents surround_contents".split()
)

# Calls that move no node of a tree, by the modules of their exports and by their names. All others may.
STILL_MODULES = set(
    (
        "version borrowed_text reply_items labels rows notices records node_creation copies node_queries neighbours borrowed_data counts attributes live_ranges "
        "range_queries static_ranges traversal observers"
    ).split()
)
STILL = set("print reply_line data set_data append_data insert_data delete_data replace_data substring_data range_text clone_contents".split())

# Members that the extension has as one function each: class and name (with = for what sets it), call, arguments, answer.
# An argument is NAME:FORM, and one with ? may be None; it may be left out where ?? stands. An answer can be a member of what the call writes.
MEMBERS = """
Node.node_type                   | links                   |                          | int kind
Node.node_document               | links                   |                          | Document document
Node.parent_node                 | links                   |                          | node? parent
Node.previous_sibling            | links                   |                          | node? previous
Node.next_sibling                | links                   |                          | node? next
Node.first_child                 | first_child             |                          | node?
Node.last_child                  | last_child              |                          | node?
Node.index                       | index                   |                          | int
Node.length                      | links                   |                          | int length
Node.get_root_node               | root                    |                          | node
Node.contains                    | contains                | other:node?              | bool
Node.is_equal_node               | is_equal                | other:node?              | bool
Node.compare_document_position   | compare_position        | other:node               | int
Node.append_child                | append_child            | node:node                | given node
Node.insert_before               | insert_before           | node:node child:node?    | given node
Node.replace_child               | replace_child           | node:node child:node     | given child
Node.remove_child                | remove_child            | child:node               | given child
Node.normalize                   | normalize               |                          | none
Node.discard                     | discard                 |                          | none
Node.text_content=               | set_text_content        | text:text?               | none
ChildNode.remove                 | remove                  |                          | none
Element.get_attribute            | get_attribute           | name:name                | text
Element.set_attribute            | set_attribute           | name:name value:text     | none
Element.has_attribute            | has_attribute           | name:name                | bool
Element.remove_attribute         | remove_attribute        | name:name                | none
Element.get_attribute_names      | attribute_names         |                          | names
CharacterData.data               | data_of                 |                          | lent
CharacterData.data=              | set_data                | data:text                | none
CharacterData.substring_data     | substring_data          | offset:uint32 count:uint32           | text
CharacterData.append_data        | append_data             | data:text                            | none
CharacterData.insert_data        | insert_data             | offset:uint32 data:text              | none
CharacterData.delete_data        | delete_data             | offset:uint32 count:uint32           | none
CharacterData.replace_data       | replace_data            | offset:uint32 count:uint32 data:text | none
Text.split_text                  | split_text              | offset:uint32            | Text
Document.create_element          | create_element          | name:name                | Element
Document.create_text_node        | create_text             | data:text                | Text
Document.create_comment          | create_comment          | data:text                | Comment
Document.create_processing_instruction | create_pi         | target:name data:text    | ProcessingInstruction
Document.create_document_fragment | create_fragment        |                          | DocumentFragment
Document.adopt_node              | adopt_node              | node:node                | given node
Document.create_range            | create_range            |                          | Range
Range.start_container            | range                   |                          | node start
Range.start_offset               | range                   |                          | int start_offset
Range.end_container              | range                   |                          | node end
Range.end_offset                 | range                   |                          | int end_offset
Range.set_start                  | set_start               | node:node offset:uint32  | none
Range.set_end                    | set_end                 | node:node offset:uint32  | none
Range.select_node                | select_node             | node:node                | none
Range.select_node_contents       | select_node_contents    | node:node                | none
Range.is_point_in_range          | is_point_in_range       | node:node offset:uint32  | bool
Range.intersects_node            | intersects_node         | node:node                | bool
Range.release                    | release_range           |                          | none
NodeIterator.next_node           | next_node               |                          | node?
NodeIterator.previous_node       | previous_node           |                          | node?
NodeIterator.release             | release_iterator        |                          | none
"""


def moving(found):
    """The names of the calls that may move nodes."""
    return {it.name for module in found if module.name not in STILL_MODULES for it in module.exports if it.name[3:] not in STILL}


def members():
    """The rows of the table: class and name, call, arguments (name and form), answer."""
    for line in MEMBERS.strip().splitlines():
        name, call, words, answer = (it.strip() for it in line.split("|"))
        yield name, call, [tuple(it.split(":")) for it in words.split()], answer
