/** @file huckleport.h
 * Documents by the DOM Standard. Made by bindings/c/header.py from the exports of the library; not to be edited.
 *
 * Every call returns a status: HP_OK, or why it was refused. A refused call changes neither the session nor the values at its out
 * pointers. Every call with a session can also return HP_CLOSED. One that takes memory can return HP_OUT_OF_MEMORY. A question, or a
 * call that makes an object, has then changed nothing, and the session goes on. Any other call ends the session, and every later command
 * returns HP_OUT_OF_MEMORY. The state of an ended session can still be read, by the calls that return HP_ENDED in place of HP_OK: each
 * stored node with its names and attributes, static ranges and walkers as before that call, all ranges, iterators and observers. hp_close
 * frees all of it.
 *
 * Objects are identified by numbers, each kind from 0 on, and no number is used again. Node 0 is a Document. HP_NONE stands for null.
 * Names are UTF-8: bytes and their count. Texts are UTF-16: units and their count. Null with a count of 0 is an empty one.
 * Borrowed data (hp_bytes, and the structs whose name ends in _view) is read only, and valid until the next call with the session.
 *
 * The caller has to ensure the following, since no call can test it:
 * - a session is HP_SESSION_INIT, all zero bytes, before its first hp_open; only calls change it, and no two copies of it are used;
 * - pointers point at values of their type. A count is the number of units or bytes at the pointer before it, a capacity the number
 *   that may be written there;
 * - the arguments of a call do not overlap: no two out pointers are equal, and no argument is borrowed from the same session (copy it
 *   first);
 * - a session is used by one thread at a time. Different sessions may be used by different threads at once;
 * - no call is made in a signal handler, nor in the forked child of a process with threads; malloc, realloc and free are one allocator's.
 */
#ifndef HUCKLEPORT_H
#define HUCKLEPORT_H

#include <stdbool.h>
#include <stddef.h>
#include <stdint.h>

#ifdef __cplusplus
extern "C" {
#endif

/** The call succeeded. */
#define HP_OK 0
/** Printed as IndexSizeError. */
#define HP_INDEX_SIZE_ERROR 1
/** Printed as HierarchyRequestError. */
#define HP_HIERARCHY_REQUEST_ERROR 3
/** Printed as WrongDocumentError. */
#define HP_WRONG_DOCUMENT_ERROR 4
/** Printed as InvalidCharacterError. */
#define HP_INVALID_CHARACTER_ERROR 5
/** Printed as NotFoundError. */
#define HP_NOT_FOUND_ERROR 8
/** Printed as NotSupportedError. */
#define HP_NOT_SUPPORTED_ERROR 9
/** Printed as InvalidStateError. */
#define HP_INVALID_STATE_ERROR 11
/** Printed as InvalidNodeTypeError. */
#define HP_INVALID_NODE_TYPE_ERROR 24
/** Printed as TypeError. */
#define HP_TYPE_ERROR 32
/** There is no object of that number. */
#define HP_NO_SUCH_OBJECT 33
/** There is no number left for a new object. */
#define HP_LIMIT 34
/** Something still refers to a node that was to be discarded. */
#define HP_IN_USE 35
/** Printed as line-too-long. */
#define HP_LINE_TOO_LONG 36
/** Printed as bad-json. */
#define HP_BAD_JSON 37
/** Printed as bad-command. */
#define HP_BAD_COMMAND 38
/** Printed as bad-arguments. */
#define HP_BAD_ARGUMENTS 39
/** Out of memory. Either nothing has changed and the session goes on, or it has ended, now or at an earlier call: it
 * takes no command, and its nodes can still be read. */
#define HP_OUT_OF_MEMORY 48
/** The handle is closed. */
#define HP_CLOSED 49
/** The handle is open already. */
#define HP_ALREADY_OPEN 50
/** The limits of a session are out of their range. */
#define HP_BAD_LIMITS 51
/** The bytes of a name are no UTF-8. */
#define HP_NOT_UTF8 52
/** Lengths do not fit the bytes or units that they measure. */
#define HP_BAD_LENGTHS 53
/** A number stands for none of the choices. */
#define HP_BAD_CHOICE 54
/** The last answer, or the node, has no such part. */
#define HP_NOT_THERE 55
/** The session has ended, as an edit was out of memory once. The answer is from the world it still holds. */
#define HP_ENDED 56
/** The number that stands for null; no object has it. */
#define HP_NONE ((uint32_t)4294967295u)
/** The record of an attribute. */
#define HP_ATTRIBUTES 0
/** The record of data. */
#define HP_CHARACTER_DATA 1
/** The record of children. */
#define HP_CHILD_LIST 2

/** Borrowed bytes. */
typedef struct hp_bytes {
    const uint8_t *bytes;
    size_t length;
} hp_bytes;

/** Borrowed UTF-16 units. */
typedef struct hp_text_view {
    const uint16_t *units;
    size_t length;
} hp_text_view;

/** A row of a tree: the node's depth below the printed root, its number, the standard's number of its kind
 * (nodeType), and the number of its attributes. */
typedef struct hp_row {
    size_t depth;
    uint32_t node;
    uint16_t type;
    size_t attributes;
} hp_row;

/** A notice: the number of the observer, and the number of its records. */
typedef struct hp_notice {
    uint32_t observer;
    size_t records;
} hp_notice;

/** A record: its type (HP_ATTRIBUTES, HP_CHARACTER_DATA or HP_CHILD_LIST), its target, the numbers of added and
 * removed nodes, and the siblings beside them, or HP_NONE. */
typedef struct hp_record {
    uint8_t type;
    uint32_t target;
    size_t added;
    size_t removed;
    uint32_t previous;
    uint32_t next;
} hp_record;

/** The start and the end of a live range. */
typedef struct hp_ends {
    uint32_t start;
    size_t start_offset;
    uint32_t end;
    size_t end_offset;
} hp_ends;

/** The start and the end of a static range, and whether it is valid: 0 or 1. */
typedef struct hp_static_ends {
    uint32_t start;
    size_t start_offset;
    uint32_t end;
    size_t end_offset;
    uint8_t is_valid;
} hp_static_ends;

/** The root and the reference of an iterator, and whether its pointer is before the reference: 0 or 1. */
typedef struct hp_iterator_at {
    uint32_t root;
    uint32_t reference;
    uint8_t is_before;
} hp_iterator_at;

/** The root and the current node of a walker. */
typedef struct hp_walker_at {
    uint32_t root;
    uint32_t current;
} hp_walker_at;

/** The node document, the kind by the standard's number (nodeType), and the siblings and the parent, or HP_NONE. */
typedef struct hp_place {
    uint32_t document;
    uint8_t kind;
    uint32_t next;
    uint32_t parent;
    uint32_t previous;
} hp_place;

/** A node: the standard's number of its kind (nodeType), its node document, its parent, siblings and first and last
 * child, or HP_NONE, the number of its children, and its length. */
typedef struct hp_node_links {
    uint8_t kind;
    uint32_t document;
    uint32_t parent;
    uint32_t previous;
    uint32_t next;
    uint32_t first_child;
    uint32_t last_child;
    size_t children;
    size_t length;
} hp_node_links;

/** A node of a subtree: its number, its parent, or HP_NONE, and the standard's number of its kind (nodeType). */
typedef struct hp_subtree_row {
    uint32_t node;
    uint32_t parent;
    uint8_t kind;
} hp_subtree_row;

/** The number of objects of each kind that were made, and neither discarded nor released. The registrations are
 * those of all observers, with the transient ones. */
typedef struct hp_counts {
    size_t nodes;
    size_t ranges;
    size_t static_ranges;
    size_t iterators;
    size_t walkers;
    size_t observers;
    size_t registrations;
} hp_counts;

/** The members of MutationObserverInit: 0 for false, 1 for true, 2 for absent. The attribute filter is 0 if absent,
 * and 1 if its names are passed beside. */
typedef struct hp_options {
    uint8_t child_list;
    uint8_t attributes;
    uint8_t character_data;
    uint8_t subtree;
    uint8_t attribute_old_value;
    uint8_t character_data_old_value;
    uint8_t attribute_filter;
} hp_options;

/** The owner of a session's state on the heap, or of nothing. All zero bytes are an empty slot. */
typedef struct hp_slot {
    uint8_t *at;
} hp_slot;

/** A session, or none. All zero bytes are a closed handle. */
typedef struct hp_session {
    hp_slot slot;
    bool is_open;
} hp_session;

/** The version of this header. */
#define HP_VERSION "0.1.0"
/** The version as a number, which is greater in a later one: 1000000 for each major, 1000 for each minor one. */
#define HP_VERSION_NUMBER (0 * 1000000 + 1 * 1000 + 0)

/** A session before its first hp_open. */
#define HP_SESSION_INIT { { NULL }, false }

/** The options of an observer, each of them absent. */
#define HP_OPTIONS_INIT { 2, 2, 2, 2, 2, 2, 0 }

/** A name that is a literal: two arguments of a call, the bytes and their count. */
#define hp_name(literal) ((const uint8_t *)("" literal)), (sizeof(literal) - 1)

/** A text that is a literal: two arguments of a call, the units and their count. C99 has no such literals; C11 and C++11 have. */
#if (defined(__STDC_VERSION__) && __STDC_VERSION__ >= 201112L) || (defined(__cplusplus) && __cplusplus >= 201103L)
#define hp_text_literal(literal) ((const uint16_t *)(u"" literal)), (sizeof(u"" literal) / sizeof(uint16_t) - 1)
#endif

/** @name The version of the library
 * @{ */

/** Returns the version of the running library, as a number. A program compares it with HP_VERSION_NUMBER, that of
 * the header it was compiled with.
 * @return HP_OK, or why it was refused. */
uint8_t hp_version(uint32_t *version);

/** @} */

/** @name Opening and closing a session
 * @{ */

/** Opens a session in a closed handle, whose node 0 is a Document. numbers is how many numbers each kind of object
 * has (1 to 4294967295), and line how many bytes a line may have (at least 1).
 * @return HP_OK, or why it was refused. */
uint8_t hp_open(hp_session *session, uint64_t numbers, size_t line);

/** Frees the session and everything that it owns. Afterwards the handle is closed; a closed handle stays so.
 * @return HP_OK, or why it was refused. */
uint8_t hp_close(hp_session *session);

/** @} */

/** @name Lines of JSON, and the lines of their replies
 * @{ */

/** Answers a line of JSON, which has no newline, as the server does. hp_reply_line lends the line of the reply.
 * @return HP_OK, or why it was refused. */
uint8_t hp_line(hp_session *session, const uint8_t *line, size_t line_length);

/** Prints the last answer, as the server prints it in its reply: the rows of a tree, records and what hp_notify told
 * are read so. hp_reply_line lends the line. Before the first answer it says HP_NOT_THERE.
 * @return HP_OK, or why it was refused. */
uint8_t hp_print(hp_session *session);

/** @} */

/** @name Borrowing from the last answer: bytes and texts, which are valid until the next call with the handle
 * @{ */

/** Lends the text of the last answer; there is none if it is null.
 * @return HP_OK, or why it was refused. */
uint8_t hp_text(hp_session *session, hp_text_view *out);

/** Lends the name at an index of the last answer.
 * @return HP_OK, or why it was refused. */
uint8_t hp_name_at(hp_session *session, size_t index, hp_bytes *out);

/** Lends the line of the reply to the last line, with its newline. It is empty before the first line.
 * @return HP_OK, or why it was refused. */
uint8_t hp_reply_line(hp_session *session, hp_bytes *out);

/** @} */

/** @name Reading the last answer: its text, and its parts by their index
 * @{ */

/** Writes the number of parts of the last answer: numbers, names, rows, records or notices.
 * @return HP_OK, or why it was refused. */
uint8_t hp_count(hp_session *session, size_t *count);

/** Writes the number at an index of the last answer.
 * @return HP_OK, or why it was refused. */
uint8_t hp_number_at(hp_session *session, size_t index, uint32_t *number);

/** Copies the numbers of the last answer into an array, as many as there is room for, and writes their count, which
 * may be larger. The rest of the array stays.
 * @return HP_OK, or why it was refused. */
uint8_t hp_numbers_into(hp_session *session, uint32_t *numbers, size_t numbers_capacity, size_t *count);

/** @} */

/** @name The names of a node, borrowed from the answer of `hp_node`
 * @{ */

/** Lends a part of the name of the node in hp_node's answer: 0 the name of an element or doctype, or the target of a
 * processing instruction; 1 the public id and 2 the system id of a doctype.
 * @return HP_OK, or why it was refused. */
uint8_t hp_node_name(hp_session *session, uint8_t part, hp_bytes *out);

/** @} */

/** @name Reading the rows of a tree, the answer of `hp_tree`
 * @{ */

/** Writes the row at an index of the last answer.
 * @return HP_OK, or why it was refused. */
uint8_t hp_row_at(hp_session *session, size_t index, hp_row *row);

/** Lends a part of the name of a row's node: 0 the name of an element or doctype, or the target of a processing
 * instruction; 1 the public id and 2 the system id of a doctype.
 * @return HP_OK, or why it was refused. */
uint8_t hp_row_name(hp_session *session, size_t index, uint8_t part, hp_bytes *out);

/** Lends the data of a row's node. A Text, a Comment and a ProcessingInstruction have data.
 * @return HP_OK, or why it was refused. */
uint8_t hp_row_text(hp_session *session, size_t index, hp_text_view *out);

/** Lends the name of the attribute at a place among those of a row.
 * @return HP_OK, or why it was refused. */
uint8_t hp_row_attribute_name(hp_session *session, size_t index, size_t at, hp_bytes *out);

/** Lends the value of the attribute at a place among those of a row.
 * @return HP_OK, or why it was refused. */
uint8_t hp_row_attribute_value(hp_session *session, size_t index, size_t at, hp_text_view *out);

/** @} */

/** @name The notified observers, the answer of `hp_notify`
 * @{ */

/** Writes the observer that hp_notify notified at an index, and the number of its records.
 * @return HP_OK, or why it was refused. */
uint8_t hp_notice_at(hp_session *session, size_t index, hp_notice *notice);

/** @} */

/** @name Reading records of mutations, the answers of `hp_notify` and `hp_take_records`
 * @{ */

/** Writes the record at an index among those of a notice. The records that hp_take_records took count as notice 0.
 * @return HP_OK, or why it was refused. */
uint8_t hp_record_at(hp_session *session, size_t notice, size_t index, hp_record *record);

/** Copies all records of a notice into an array, as many as there is room for, and writes their count, which may be
 * larger. The rest of the array stays.
 * @return HP_OK, or why it was refused. */
uint8_t hp_records_into(hp_session *session, size_t notice, hp_record *records, size_t records_capacity, size_t *count);

/** Writes the node at a place among the added nodes of a record.
 * @return HP_OK, or why it was refused. */
uint8_t hp_record_added_at(hp_session *session, size_t notice, size_t index, size_t at, uint32_t *node);

/** Writes the node at a place among the removed nodes of a record.
 * @return HP_OK, or why it was refused. */
uint8_t hp_record_removed_at(hp_session *session, size_t notice, size_t index, size_t at, uint32_t *node);

/** Lends the attribute name of a record; there is none if it is null.
 * @return HP_OK, or why it was refused. */
uint8_t hp_record_name(hp_session *session, size_t notice, size_t index, hp_bytes *out);

/** Lends the old value of a record; there is none if it is null.
 * @return HP_OK, or why it was refused. */
uint8_t hp_record_old_value(hp_session *session, size_t notice, size_t index, hp_text_view *out);

/** @} */

/** @name The commands that make nodes
 * @{ */

/** Makes a Document. DOM Standard: Document().
 * @return HP_OK, or why it was refused. */
uint8_t hp_new_document(hp_session *session, uint32_t *document);

/** Makes an Element of that name. DOM Standard: Document.createElement.
 * @return HP_OK, or why it was refused; also HP_NOT_UTF8. */
uint8_t hp_create_element(hp_session *session, uint32_t document, const uint8_t *name, size_t name_length, uint32_t *element);

/** Makes a Text of that data. DOM Standard: Document.createTextNode.
 * @return HP_OK, or why it was refused. */
uint8_t hp_create_text(hp_session *session, uint32_t document, const uint16_t *data, size_t data_length, uint32_t *text);

/** Makes a Comment of that data. DOM Standard: Document.createComment.
 * @return HP_OK, or why it was refused. */
uint8_t hp_create_comment(hp_session *session, uint32_t document, const uint16_t *data, size_t data_length, uint32_t *comment);

/** Makes a ProcessingInstruction of that target and data. DOM Standard: Document.createProcessingInstruction.
 * @return HP_OK, or why it was refused; also HP_NOT_UTF8. */
uint8_t hp_create_pi(hp_session *session, uint32_t document, const uint8_t *target, size_t target_length, const uint16_t *data, size_t data_length, uint32_t *instruction);

/** Makes a DocumentType of that name, with its public and its system id. DOM Standard:
 * DOMImplementation.createDocumentType.
 * @return HP_OK, or why it was refused; also HP_NOT_UTF8. */
uint8_t hp_create_doctype(hp_session *session, uint32_t document, const uint8_t *name, size_t name_length, const uint8_t *public_id, size_t public_id_length, const uint8_t *system_id, size_t system_id_length, uint32_t *doctype);

/** Makes a DocumentFragment. DOM Standard: Document.createDocumentFragment.
 * @return HP_OK, or why it was refused. */
uint8_t hp_create_fragment(hp_session *session, uint32_t document, uint32_t *fragment);

/** @} */

/** @name The commands that change a tree
 * @{ */

/** Inserts a node into a parent, before a child; with HP_NONE as the child, last. DOM Standard: Node.insertBefore.
 * @return HP_OK, or why it was refused. */
uint8_t hp_insert_before(hp_session *session, uint32_t parent, uint32_t node, uint32_t child);

/** Appends a node to the children of a parent. DOM Standard: Node.appendChild.
 * @return HP_OK, or why it was refused. */
uint8_t hp_append_child(hp_session *session, uint32_t parent, uint32_t node);

/** Adopts a node into a document. DOM Standard: Document.adoptNode.
 * @return HP_OK, or why it was refused. */
uint8_t hp_adopt_node(hp_session *session, uint32_t document, uint32_t node);

/** Replaces a child by a node. DOM Standard: Node.replaceChild.
 * @return HP_OK, or why it was refused. */
uint8_t hp_replace_child(hp_session *session, uint32_t parent, uint32_t node, uint32_t child);

/** Removes a child. DOM Standard: Node.removeChild.
 * @return HP_OK, or why it was refused. */
uint8_t hp_remove_child(hp_session *session, uint32_t parent, uint32_t child);

/** Removes a node from its parent, if it has one. DOM Standard: ChildNode.remove.
 * @return HP_OK, or why it was refused. */
uint8_t hp_remove(hp_session *session, uint32_t node);

/** Replaces all children by a node, or with HP_NONE by none. DOM Standard: ParentNode.replaceChildren.
 * @return HP_OK, or why it was refused. */
uint8_t hp_replace_children(hp_session *session, uint32_t parent, uint32_t node);

/** Joins adjacent Text nodes below a node, and removes empty ones. DOM Standard: Node.normalize.
 * @return HP_OK, or why it was refused. */
uint8_t hp_normalize(hp_session *session, uint32_t node);

/** Replaces the contents of a node by a text. DOM Standard: Node.textContent.
 * @return HP_OK, or why it was refused. */
uint8_t hp_set_text_content(hp_session *session, uint32_t node, const uint16_t *text, size_t text_length);

/** Frees a node and its descendants.
 * @return HP_OK, or why it was refused. */
uint8_t hp_discard(hp_session *session, uint32_t node);

/** @} */

/** @name The commands that copy nodes
 * @{ */

/** Copies a node for another document, with or without its descendants. DOM Standard: Document.importNode.
 * @return HP_OK, or why it was refused. */
uint8_t hp_import_node(hp_session *session, uint32_t document, uint32_t node, bool deep, uint32_t *copy);

/** Copies a node, with or without its descendants. DOM Standard: Node.cloneNode.
 * @return HP_OK, or why it was refused. */
uint8_t hp_clone_node(hp_session *session, uint32_t node, bool deep, uint32_t *copy);

/** @} */

/** @name The questions about nodes
 * @{ */

/** Writes a node's kind and its neighbours; hp_node_name lends its names. DOM Standard: Node.
 * @return HP_OK, or why it was refused. */
uint8_t hp_node(hp_session *session, uint32_t node, hp_place *place);

/** Finds the children of a node: hp_count and hp_number_at read the answer. DOM Standard: Node.childNodes.
 * @return HP_OK, or why it was refused. */
uint8_t hp_children(hp_session *session, uint32_t node);

/** Writes the number of siblings before a node. DOM Standard: trees, index.
 * @return HP_OK, or why it was refused. */
uint8_t hp_index(hp_session *session, uint32_t node, size_t *index);

/** Writes the length of a node. DOM Standard: nodes, length.
 * @return HP_OK, or why it was refused. */
uint8_t hp_length(hp_session *session, uint32_t node, size_t *length);

/** Writes the root of a node. DOM Standard: Node.getRootNode.
 * @return HP_OK, or why it was refused. */
uint8_t hp_root(hp_session *session, uint32_t node, uint32_t *root);

/** Writes whether another node is an inclusive descendant; HP_NONE is not. DOM Standard: Node.contains.
 * @return HP_OK, or why it was refused. */
uint8_t hp_contains(hp_session *session, uint32_t node, uint32_t other, uint8_t *contains);

/** Writes whether both nodes are equal; HP_NONE equals none. DOM Standard: Node.isEqualNode.
 * @return HP_OK, or why it was refused. */
uint8_t hp_is_equal(hp_session *session, uint32_t node, uint32_t other, uint8_t *is_equal);

/** Writes the position of the second node relative to the first, as the bits of the standard. DOM Standard:
 * Node.compareDocumentPosition.
 * @return HP_OK, or why it was refused. */
uint8_t hp_compare_position(hp_session *session, uint32_t node, uint32_t other, uint32_t *position);

/** Finds the text in a node: hp_text reads the answer, and has none if it is null. DOM Standard: Node.textContent.
 * @return HP_OK, or why it was refused. */
uint8_t hp_text_content(hp_session *session, uint32_t node);

/** Prints a node and its descendants, in tree order: hp_count counts the rows, hp_row_at and the other row calls
 * read them.
 * @return HP_OK, or why it was refused. */
uint8_t hp_tree(hp_session *session, uint32_t node);

/** @} */

/** @name The neighbours of a node, read without a command: the last answer stays, and no memory is taken. A session that has ended still answers, from the world it holds, with `HP_ENDED`
 * @{ */

/** Writes a node's kind and its neighbours, all at once, in constant time.
 * @return HP_OK, or why it was refused. */
uint8_t hp_links(hp_session *session, uint32_t node, hp_node_links *links);

/** Writes the first child of a node, or HP_NONE, in constant time.
 * @return HP_OK, or why it was refused. */
uint8_t hp_first_child(hp_session *session, uint32_t node, uint32_t *child);

/** Writes the last child of a node, or HP_NONE, in constant time.
 * @return HP_OK, or why it was refused. */
uint8_t hp_last_child(hp_session *session, uint32_t node, uint32_t *child);

/** Writes the child of a node at an index, or HP_NONE past the last. It walks from the nearer end.
 * @return HP_OK, or why it was refused. */
uint8_t hp_child_at(hp_session *session, uint32_t node, size_t index, uint32_t *child);

/** Copies the numbers of a node's children into an array, as many as there is room for, and writes the number of
 * children, which may be larger. The rest of the array stays.
 * @return HP_OK, or why it was refused. */
uint8_t hp_children_into(hp_session *session, uint32_t node, uint32_t *numbers, size_t numbers_capacity, size_t *count);

/** @} */

/** @name The nodes of a subtree, copied without a command: the last answer stays, and no memory is taken. A session that has ended still answers, from the world it holds, with `HP_ENDED`
 * @{ */

/** Copies the nodes of a subtree into an array, in tree order from start on, as many as there is room for. It writes
 * how many, and the node that comes next, where a further call starts, or HP_NONE. The rest of the array stays. If
 * start is no inclusive descendant of root, it says HP_NOT_THERE. A call climbs from start to root first; then a
 * whole walk takes constant time a node.
 * @return HP_OK, or why it was refused. */
uint8_t hp_subtree_into(hp_session *session, uint32_t root, uint32_t start, hp_subtree_row *rows, size_t rows_capacity, size_t *count, uint32_t *next);

/** @} */

/** @name Borrowing a node's name, data and attributes without a command: the last answer stays, and no memory is taken. A session that has ended still lends, with `HP_ENDED`
 * @{ */

/** Lends a part of a node's name: 0 the name of an Element or a DocumentType, or the target of a
 * ProcessingInstruction; 1 the public id and 2 the system id of a DocumentType. Another kind has none.
 * @return HP_OK, or why it was refused. */
uint8_t hp_name_of(hp_session *session, uint32_t node, uint8_t part, hp_bytes *out);

/** Lends the data of a Text, a Comment or a ProcessingInstruction. Another kind has none.
 * @return HP_OK, or why it was refused. */
uint8_t hp_data_of(hp_session *session, uint32_t node, hp_text_view *out);

/** Lends the attribute of a node at a place, from 0 on: its name and its value. There is none past the last, and
 * none if the node is no Element.
 * @return HP_OK, or why it was refused. */
uint8_t hp_attribute_at(hp_session *session, uint32_t node, size_t index, hp_bytes *name, hp_text_view *value);

/** @} */

/** @name The numbers of objects in a session, read without a command: the last answer stays, and no memory is taken
 * @{ */

/** Writes the number of objects of each kind, in constant time, so that a host can tell its garbage collector the
 * session's size.
 * @return HP_OK, or why it was refused. */
uint8_t hp_in_use(hp_session *session, hp_counts *counts);

/** Writes how many nodes were ever made, in constant time. They have the numbers below it, discarded ones too. If a
 * call raises it, the nodes that the call made have the numbers from the earlier count on, so a host can discard
 * fragments that no answer names.
 * @return HP_OK, or why it was refused. */
uint8_t hp_nodes_made(hp_session *session, uint64_t *count);

/** @} */

/** @name The commands on character data
 * @{ */

/** Finds the data of a node: hp_text reads the answer. DOM Standard: CharacterData.data.
 * @return HP_OK, or why it was refused. */
uint8_t hp_data(hp_session *session, uint32_t node);

/** Sets the data of a node. DOM Standard: CharacterData.data.
 * @return HP_OK, or why it was refused. */
uint8_t hp_set_data(hp_session *session, uint32_t node, const uint16_t *data, size_t data_length);

/** Appends to the data of a node. DOM Standard: CharacterData.appendData.
 * @return HP_OK, or why it was refused. */
uint8_t hp_append_data(hp_session *session, uint32_t node, const uint16_t *data, size_t data_length);

/** Inserts at an offset. DOM Standard: CharacterData.insertData.
 * @return HP_OK, or why it was refused. */
uint8_t hp_insert_data(hp_session *session, uint32_t node, uint32_t offset, const uint16_t *data, size_t data_length);

/** Deletes a number of units from an offset on. DOM Standard: CharacterData.deleteData.
 * @return HP_OK, or why it was refused. */
uint8_t hp_delete_data(hp_session *session, uint32_t node, uint32_t offset, uint32_t count);

/** Replaces a number of units from an offset on by a text. DOM Standard: CharacterData.replaceData.
 * @return HP_OK, or why it was refused. */
uint8_t hp_replace_data(hp_session *session, uint32_t node, uint32_t offset, uint32_t count, const uint16_t *data, size_t data_length);

/** Finds a number of units from an offset on: hp_text reads the answer. DOM Standard: CharacterData.substringData.
 * @return HP_OK, or why it was refused. */
uint8_t hp_substring_data(hp_session *session, uint32_t node, uint32_t offset, uint32_t count);

/** Splits a Text at an offset, and writes the new one. DOM Standard: Text.splitText.
 * @return HP_OK, or why it was refused. */
uint8_t hp_split_text(hp_session *session, uint32_t text, uint32_t offset, uint32_t *rest);

/** @} */

/** @name The commands on attributes
 * @{ */

/** Sets an attribute. DOM Standard: Element.setAttribute.
 * @return HP_OK, or why it was refused; also HP_NOT_UTF8. */
uint8_t hp_set_attribute(hp_session *session, uint32_t element, const uint8_t *name, size_t name_length, const uint16_t *value, size_t value_length);

/** Finds the value of an attribute: hp_text reads the answer, and has none if it is null. DOM Standard:
 * Element.getAttribute.
 * @return HP_OK, or why it was refused; also HP_NOT_UTF8. */
uint8_t hp_get_attribute(hp_session *session, uint32_t element, const uint8_t *name, size_t name_length);

/** Writes whether there is an attribute of that name. It takes no memory, and a session that has ended answers with
 * HP_ENDED. DOM Standard: Element.hasAttribute.
 * @return HP_OK, or why it was refused; also HP_NOT_UTF8. */
uint8_t hp_has_attribute(hp_session *session, uint32_t element, const uint8_t *name, size_t name_length, uint8_t *is_there);

/** Removes an attribute. DOM Standard: Element.removeAttribute.
 * @return HP_OK, or why it was refused; also HP_NOT_UTF8. */
uint8_t hp_remove_attribute(hp_session *session, uint32_t element, const uint8_t *name, size_t name_length);

/** Adds or removes an attribute. force is 0 to remove, 1 to add, and 2 to toggle. DOM Standard:
 * Element.toggleAttribute.
 * @return HP_OK, or why it was refused; also HP_NOT_UTF8, HP_BAD_CHOICE. */
uint8_t hp_toggle_attribute(hp_session *session, uint32_t element, const uint8_t *name, size_t name_length, uint8_t force, uint8_t *is_there);

/** Finds the names of the attributes, in order: hp_count and hp_name_at read the answer. DOM Standard:
 * Element.getAttributeNames.
 * @return HP_OK, or why it was refused. */
uint8_t hp_attribute_names(hp_session *session, uint32_t element);

/** @} */

/** @name The commands that make live ranges and set their ends
 * @{ */

/** Makes a live range at the start of a document. DOM Standard: Document.createRange.
 * @return HP_OK, or why it was refused. */
uint8_t hp_create_range(hp_session *session, uint32_t document, uint32_t *range);

/** Makes a live range with the ends of another. DOM Standard: Range.cloneRange.
 * @return HP_OK, or why it was refused. */
uint8_t hp_clone_range(hp_session *session, uint32_t range, uint32_t *copy);

/** Writes the ends of a live range. DOM Standard: AbstractRange.
 * @return HP_OK, or why it was refused. */
uint8_t hp_range(hp_session *session, uint32_t range, hp_ends *ends);

/** Sets the start. DOM Standard: Range.setStart.
 * @return HP_OK, or why it was refused. */
uint8_t hp_set_start(hp_session *session, uint32_t range, uint32_t node, uint32_t offset);

/** Sets the end. DOM Standard: Range.setEnd.
 * @return HP_OK, or why it was refused. */
uint8_t hp_set_end(hp_session *session, uint32_t range, uint32_t node, uint32_t offset);

/** Sets the start before a node. DOM Standard: Range.setStartBefore.
 * @return HP_OK, or why it was refused. */
uint8_t hp_set_start_before(hp_session *session, uint32_t range, uint32_t node);

/** Sets the start after a node. DOM Standard: Range.setStartAfter.
 * @return HP_OK, or why it was refused. */
uint8_t hp_set_start_after(hp_session *session, uint32_t range, uint32_t node);

/** Sets the end before a node. DOM Standard: Range.setEndBefore.
 * @return HP_OK, or why it was refused. */
uint8_t hp_set_end_before(hp_session *session, uint32_t range, uint32_t node);

/** Sets the end after a node. DOM Standard: Range.setEndAfter.
 * @return HP_OK, or why it was refused. */
uint8_t hp_set_end_after(hp_session *session, uint32_t range, uint32_t node);

/** Moves one end to the other: the end to the start, or the start to the end. DOM Standard: Range.collapse.
 * @return HP_OK, or why it was refused. */
uint8_t hp_collapse(hp_session *session, uint32_t range, bool to_start);

/** Sets the ends around a node. DOM Standard: Range.selectNode.
 * @return HP_OK, or why it was refused. */
uint8_t hp_select_node(hp_session *session, uint32_t range, uint32_t node);

/** Sets the ends around the contents of a node. DOM Standard: Range.selectNodeContents.
 * @return HP_OK, or why it was refused. */
uint8_t hp_select_node_contents(hp_session *session, uint32_t range, uint32_t node);

/** Releases a live range.
 * @return HP_OK, or why it was refused. */
uint8_t hp_release_range(hp_session *session, uint32_t range);

/** @} */

/** @name The questions that compare points and live ranges
 * @{ */

/** Compares an end of the first range with one of the second; how is 0 to 3, as the standard numbers them. DOM
 * Standard: Range.compareBoundaryPoints.
 * @return HP_OK, or why it was refused. */
uint8_t hp_compare_boundary_points(hp_session *session, uint32_t range, uint32_t how, uint32_t source, int8_t *order);

/** Writes whether a point is before, in or after a range: -1, 0 or 1. DOM Standard: Range.comparePoint.
 * @return HP_OK, or why it was refused. */
uint8_t hp_compare_point(hp_session *session, uint32_t range, uint32_t node, uint32_t offset, int8_t *order);

/** Writes whether a point is in a range. DOM Standard: Range.isPointInRange.
 * @return HP_OK, or why it was refused. */
uint8_t hp_is_point_in_range(hp_session *session, uint32_t range, uint32_t node, uint32_t offset, uint8_t *is_in);

/** Writes whether a range intersects a node. DOM Standard: Range.intersectsNode.
 * @return HP_OK, or why it was refused. */
uint8_t hp_intersects_node(hp_session *session, uint32_t range, uint32_t node, uint8_t *intersects);

/** Writes the deepest inclusive ancestor of both ends. DOM Standard: Range.commonAncestorContainer.
 * @return HP_OK, or why it was refused. */
uint8_t hp_common_ancestor(hp_session *session, uint32_t range, uint32_t *ancestor);

/** @} */

/** @name The commands of static ranges
 * @{ */

/** Makes a static range. DOM Standard: StaticRange().
 * @return HP_OK, or why it was refused. */
uint8_t hp_create_static_range(hp_session *session, uint32_t start, uint32_t start_offset, uint32_t end, uint32_t end_offset, uint32_t *range);

/** Writes the ends of a static range, and whether it is valid. DOM Standard: StaticRange.
 * @return HP_OK, or why it was refused. */
uint8_t hp_static_range(hp_session *session, uint32_t range, hp_static_ends *ends);

/** Releases a static range.
 * @return HP_OK, or why it was refused. */
uint8_t hp_release_static_range(hp_session *session, uint32_t range);

/** @} */

/** @name The commands on the contents of a live range
 * @{ */

/** Finds the text in a range: hp_text reads the answer. DOM Standard: Range, stringifier.
 * @return HP_OK, or why it was refused. */
uint8_t hp_range_text(hp_session *session, uint32_t range);

/** Deletes the contents of a range. DOM Standard: Range.deleteContents.
 * @return HP_OK, or why it was refused. */
uint8_t hp_delete_contents(hp_session *session, uint32_t range);

/** Moves the contents of a range into a fragment. DOM Standard: Range.extractContents.
 * @return HP_OK, or why it was refused. */
uint8_t hp_extract_contents(hp_session *session, uint32_t range, uint32_t *fragment);

/** Copies the contents of a range into a fragment. DOM Standard: Range.cloneContents.
 * @return HP_OK, or why it was refused. */
uint8_t hp_clone_contents(hp_session *session, uint32_t range, uint32_t *fragment);

/** Inserts a node at the start of a range. DOM Standard: Range.insertNode.
 * @return HP_OK, or why it was refused. */
uint8_t hp_insert_node(hp_session *session, uint32_t range, uint32_t node);

/** Moves the contents of a range into a node, and inserts the node in their place. DOM Standard:
 * Range.surroundContents.
 * @return HP_OK, or why it was refused. */
uint8_t hp_surround_contents(hp_session *session, uint32_t range, uint32_t parent);

/** @} */

/** @name The commands of node iterators and tree walkers
 * @{ */

/** Makes a node iterator. DOM Standard: Document.createNodeIterator.
 * @return HP_OK, or why it was refused; also HP_NOT_UTF8, HP_BAD_LENGTHS, HP_BAD_CHOICE. */
uint8_t hp_create_iterator(hp_session *session, uint32_t root, uint32_t show, const uint8_t *names, size_t names_length, const uint32_t *lengths, size_t lengths_length, const uint8_t *verdicts, size_t verdicts_length, uint32_t *iterator);

/** Makes a tree walker. DOM Standard: Document.createTreeWalker.
 * @return HP_OK, or why it was refused; also HP_NOT_UTF8, HP_BAD_LENGTHS, HP_BAD_CHOICE. */
uint8_t hp_create_walker(hp_session *session, uint32_t root, uint32_t show, const uint8_t *names, size_t names_length, const uint32_t *lengths, size_t lengths_length, const uint8_t *verdicts, size_t verdicts_length, uint32_t *walker);

/** Writes the position of an iterator. DOM Standard: NodeIterator.
 * @return HP_OK, or why it was refused. */
uint8_t hp_iterator(hp_session *session, uint32_t iterator, hp_iterator_at *place);

/** Moves an iterator on, and writes the node, or HP_NONE. DOM Standard: NodeIterator.nextNode.
 * @return HP_OK, or why it was refused. */
uint8_t hp_next_node(hp_session *session, uint32_t iterator, uint32_t *node);

/** Moves an iterator on as often as an array has room, as hp_next_node in turn. It writes the nodes, and how many:
 * fewer than there is room for if a step found none, or was refused; then the status is that step's. The last
 * answer is the last step's. The rest of the array stays. It takes no memory. DOM Standard: NodeIterator.nextNode.
 * @return HP_OK, or why it was refused. */
uint8_t hp_next_nodes_into(hp_session *session, uint32_t iterator, uint32_t *nodes, size_t nodes_capacity, size_t *count);

/** Moves an iterator back, and writes the node, or HP_NONE. DOM Standard: NodeIterator.previousNode.
 * @return HP_OK, or why it was refused. */
uint8_t hp_previous_node(hp_session *session, uint32_t iterator, uint32_t *node);

/** Writes the root and the current node of a walker. DOM Standard: TreeWalker.
 * @return HP_OK, or why it was refused. */
uint8_t hp_walker(hp_session *session, uint32_t walker, hp_walker_at *place);

/** Sets a walker on a node. DOM Standard: TreeWalker.currentNode.
 * @return HP_OK, or why it was refused. */
uint8_t hp_set_current(hp_session *session, uint32_t walker, uint32_t node);

/** Moves a walker, and writes the node, or HP_NONE. Moves are numbered in the order of the standard: parentNode 0,
 * firstChild 1, lastChild 2, previousSibling 3, nextSibling 4, previousNode 5, nextNode 6. DOM Standard:
 * TreeWalker.
 * @return HP_OK, or why it was refused; also HP_BAD_CHOICE. */
uint8_t hp_walk(hp_session *session, uint32_t walker, uint8_t direction, uint32_t *node);

/** Makes a walker's move as often as an array has room, as hp_walk in turn. It writes the nodes, and how many, and
 * answers as hp_next_nodes_into does. DOM Standard: TreeWalker.
 * @return HP_OK, or why it was refused; also HP_BAD_CHOICE. */
uint8_t hp_walk_into(hp_session *session, uint32_t walker, uint8_t direction, uint32_t *nodes, size_t nodes_capacity, size_t *count);

/** Releases an iterator.
 * @return HP_OK, or why it was refused. */
uint8_t hp_release_iterator(hp_session *session, uint32_t iterator);

/** Releases a walker.
 * @return HP_OK, or why it was refused. */
uint8_t hp_release_walker(hp_session *session, uint32_t walker);

/** @} */

/** @name The commands of mutation observers
 * @{ */

/** Makes a mutation observer. DOM Standard: MutationObserver().
 * @return HP_OK, or why it was refused. */
uint8_t hp_create_observer(hp_session *session, uint32_t *observer);

/** Registers an observer at a node. DOM Standard: MutationObserver.observe.
 * @return HP_OK, or why it was refused; also HP_NOT_UTF8, HP_BAD_LENGTHS, HP_BAD_CHOICE. */
uint8_t hp_observe(hp_session *session, uint32_t observer, uint32_t node, const hp_options *options, const uint8_t *names, size_t names_length, const uint32_t *lengths, size_t lengths_length);

/** Removes all registrations and records of an observer. DOM Standard: MutationObserver.disconnect.
 * @return HP_OK, or why it was refused. */
uint8_t hp_disconnect(hp_session *session, uint32_t observer);

/** Takes the records of an observer: hp_count counts them, hp_record_at and the other record calls read them, as
 * those of notice 0. DOM Standard: MutationObserver.takeRecords.
 * @return HP_OK, or why it was refused. */
uint8_t hp_take_records(hp_session *session, uint32_t observer);

/** Gives each pending observer its records: hp_count counts the observers, hp_notice_at and hp_record_at read the
 * notices. DOM Standard: notify mutation observers.
 * @return HP_OK, or why it was refused. */
uint8_t hp_notify(hp_session *session);

/** Finds the pending observers: hp_count and hp_number_at read the answer.
 * @return HP_OK, or why it was refused. */
uint8_t hp_pending(hp_session *session);

/** Takes the pending observers, and none is pending afterwards: hp_count and hp_number_at read them. Their records
 * stay queued for hp_tell_observer, which notifies each in its turn. DOM Standard: notify mutation observers.
 * @return HP_OK, or why it was refused. */
uint8_t hp_take_pending(hp_session *session);

/** Notifies an observer in its turn: takes its records, which are read as those of hp_take_records, and removes its
 * transient registrations. DOM Standard: notify mutation observers.
 * @return HP_OK, or why it was refused. */
uint8_t hp_tell_observer(hp_session *session, uint32_t observer);

/** Releases an observer: its registrations are removed, and its queued records are dropped.
 * @return HP_OK, or why it was refused. */
uint8_t hp_release_observer(hp_session *session, uint32_t observer);

/** @} */

/** @cond */
/* The functions below replace null pointers and unset views. Macros give them the names of the calls above. */

static const uint64_t hp_nothing[1] = { 0 };

static inline uint8_t hp_line_mended(hp_session *session, const uint8_t *line, size_t line_length)
{
    if ((!line && line_length))
        return HP_BAD_LENGTHS;
    return hp_line(session, line ? line : (const uint8_t *)hp_nothing, line_length);
}
#define hp_line(...) hp_line_mended(__VA_ARGS__)

static inline uint8_t hp_text_mended(hp_session *session, hp_text_view *out)
{
    out->units = (const uint16_t *)hp_nothing;
    out->length = 0;
    return hp_text(session, out);
}
#define hp_text(...) hp_text_mended(__VA_ARGS__)

static inline uint8_t hp_name_at_mended(hp_session *session, size_t index, hp_bytes *out)
{
    out->bytes = (const uint8_t *)hp_nothing;
    out->length = 0;
    return hp_name_at(session, index, out);
}
#define hp_name_at(...) hp_name_at_mended(__VA_ARGS__)

static inline uint8_t hp_reply_line_mended(hp_session *session, hp_bytes *out)
{
    out->bytes = (const uint8_t *)hp_nothing;
    out->length = 0;
    return hp_reply_line(session, out);
}
#define hp_reply_line(...) hp_reply_line_mended(__VA_ARGS__)

static inline uint8_t hp_numbers_into_mended(hp_session *session, uint32_t *numbers, size_t numbers_capacity, size_t *count)
{
    if ((!numbers && numbers_capacity))
        return HP_BAD_LENGTHS;
    return hp_numbers_into(session, numbers ? numbers : (uint32_t *)hp_nothing, numbers_capacity, count);
}
#define hp_numbers_into(...) hp_numbers_into_mended(__VA_ARGS__)

static inline uint8_t hp_node_name_mended(hp_session *session, uint8_t part, hp_bytes *out)
{
    out->bytes = (const uint8_t *)hp_nothing;
    out->length = 0;
    return hp_node_name(session, part, out);
}
#define hp_node_name(...) hp_node_name_mended(__VA_ARGS__)

static inline uint8_t hp_row_name_mended(hp_session *session, size_t index, uint8_t part, hp_bytes *out)
{
    out->bytes = (const uint8_t *)hp_nothing;
    out->length = 0;
    return hp_row_name(session, index, part, out);
}
#define hp_row_name(...) hp_row_name_mended(__VA_ARGS__)

static inline uint8_t hp_row_text_mended(hp_session *session, size_t index, hp_text_view *out)
{
    out->units = (const uint16_t *)hp_nothing;
    out->length = 0;
    return hp_row_text(session, index, out);
}
#define hp_row_text(...) hp_row_text_mended(__VA_ARGS__)

static inline uint8_t hp_row_attribute_name_mended(hp_session *session, size_t index, size_t at, hp_bytes *out)
{
    out->bytes = (const uint8_t *)hp_nothing;
    out->length = 0;
    return hp_row_attribute_name(session, index, at, out);
}
#define hp_row_attribute_name(...) hp_row_attribute_name_mended(__VA_ARGS__)

static inline uint8_t hp_row_attribute_value_mended(hp_session *session, size_t index, size_t at, hp_text_view *out)
{
    out->units = (const uint16_t *)hp_nothing;
    out->length = 0;
    return hp_row_attribute_value(session, index, at, out);
}
#define hp_row_attribute_value(...) hp_row_attribute_value_mended(__VA_ARGS__)

static inline uint8_t hp_records_into_mended(hp_session *session, size_t notice, hp_record *records, size_t records_capacity, size_t *count)
{
    if ((!records && records_capacity))
        return HP_BAD_LENGTHS;
    return hp_records_into(session, notice, records ? records : (hp_record *)hp_nothing, records_capacity, count);
}
#define hp_records_into(...) hp_records_into_mended(__VA_ARGS__)

static inline uint8_t hp_record_name_mended(hp_session *session, size_t notice, size_t index, hp_bytes *out)
{
    out->bytes = (const uint8_t *)hp_nothing;
    out->length = 0;
    return hp_record_name(session, notice, index, out);
}
#define hp_record_name(...) hp_record_name_mended(__VA_ARGS__)

static inline uint8_t hp_record_old_value_mended(hp_session *session, size_t notice, size_t index, hp_text_view *out)
{
    out->units = (const uint16_t *)hp_nothing;
    out->length = 0;
    return hp_record_old_value(session, notice, index, out);
}
#define hp_record_old_value(...) hp_record_old_value_mended(__VA_ARGS__)

static inline uint8_t hp_create_element_mended(hp_session *session, uint32_t document, const uint8_t *name, size_t name_length, uint32_t *element)
{
    if ((!name && name_length))
        return HP_BAD_LENGTHS;
    return hp_create_element(session, document, name ? name : (const uint8_t *)hp_nothing, name_length, element);
}
#define hp_create_element(...) hp_create_element_mended(__VA_ARGS__)

static inline uint8_t hp_create_text_mended(hp_session *session, uint32_t document, const uint16_t *data, size_t data_length, uint32_t *text)
{
    if ((!data && data_length))
        return HP_BAD_LENGTHS;
    return hp_create_text(session, document, data ? data : (const uint16_t *)hp_nothing, data_length, text);
}
#define hp_create_text(...) hp_create_text_mended(__VA_ARGS__)

static inline uint8_t hp_create_comment_mended(hp_session *session, uint32_t document, const uint16_t *data, size_t data_length, uint32_t *comment)
{
    if ((!data && data_length))
        return HP_BAD_LENGTHS;
    return hp_create_comment(session, document, data ? data : (const uint16_t *)hp_nothing, data_length, comment);
}
#define hp_create_comment(...) hp_create_comment_mended(__VA_ARGS__)

static inline uint8_t hp_create_pi_mended(hp_session *session, uint32_t document, const uint8_t *target, size_t target_length, const uint16_t *data, size_t data_length, uint32_t *instruction)
{
    if ((!target && target_length) || (!data && data_length))
        return HP_BAD_LENGTHS;
    return hp_create_pi(session, document, target ? target : (const uint8_t *)hp_nothing, target_length, data ? data : (const uint16_t *)hp_nothing, data_length, instruction);
}
#define hp_create_pi(...) hp_create_pi_mended(__VA_ARGS__)

static inline uint8_t hp_create_doctype_mended(hp_session *session, uint32_t document, const uint8_t *name, size_t name_length, const uint8_t *public_id, size_t public_id_length, const uint8_t *system_id, size_t system_id_length, uint32_t *doctype)
{
    if ((!name && name_length) || (!public_id && public_id_length) || (!system_id && system_id_length))
        return HP_BAD_LENGTHS;
    return hp_create_doctype(session, document, name ? name : (const uint8_t *)hp_nothing, name_length, public_id ? public_id : (const uint8_t *)hp_nothing, public_id_length, system_id ? system_id : (const uint8_t *)hp_nothing, system_id_length, doctype);
}
#define hp_create_doctype(...) hp_create_doctype_mended(__VA_ARGS__)

static inline uint8_t hp_set_text_content_mended(hp_session *session, uint32_t node, const uint16_t *text, size_t text_length)
{
    if ((!text && text_length))
        return HP_BAD_LENGTHS;
    return hp_set_text_content(session, node, text ? text : (const uint16_t *)hp_nothing, text_length);
}
#define hp_set_text_content(...) hp_set_text_content_mended(__VA_ARGS__)

static inline uint8_t hp_children_into_mended(hp_session *session, uint32_t node, uint32_t *numbers, size_t numbers_capacity, size_t *count)
{
    if ((!numbers && numbers_capacity))
        return HP_BAD_LENGTHS;
    return hp_children_into(session, node, numbers ? numbers : (uint32_t *)hp_nothing, numbers_capacity, count);
}
#define hp_children_into(...) hp_children_into_mended(__VA_ARGS__)

static inline uint8_t hp_subtree_into_mended(hp_session *session, uint32_t root, uint32_t start, hp_subtree_row *rows, size_t rows_capacity, size_t *count, uint32_t *next)
{
    if ((!rows && rows_capacity))
        return HP_BAD_LENGTHS;
    return hp_subtree_into(session, root, start, rows ? rows : (hp_subtree_row *)hp_nothing, rows_capacity, count, next);
}
#define hp_subtree_into(...) hp_subtree_into_mended(__VA_ARGS__)

static inline uint8_t hp_name_of_mended(hp_session *session, uint32_t node, uint8_t part, hp_bytes *out)
{
    out->bytes = (const uint8_t *)hp_nothing;
    out->length = 0;
    return hp_name_of(session, node, part, out);
}
#define hp_name_of(...) hp_name_of_mended(__VA_ARGS__)

static inline uint8_t hp_data_of_mended(hp_session *session, uint32_t node, hp_text_view *out)
{
    out->units = (const uint16_t *)hp_nothing;
    out->length = 0;
    return hp_data_of(session, node, out);
}
#define hp_data_of(...) hp_data_of_mended(__VA_ARGS__)

static inline uint8_t hp_attribute_at_mended(hp_session *session, uint32_t node, size_t index, hp_bytes *name, hp_text_view *value)
{
    name->bytes = (const uint8_t *)hp_nothing;
    name->length = 0;
    value->units = (const uint16_t *)hp_nothing;
    value->length = 0;
    return hp_attribute_at(session, node, index, name, value);
}
#define hp_attribute_at(...) hp_attribute_at_mended(__VA_ARGS__)

static inline uint8_t hp_set_data_mended(hp_session *session, uint32_t node, const uint16_t *data, size_t data_length)
{
    if ((!data && data_length))
        return HP_BAD_LENGTHS;
    return hp_set_data(session, node, data ? data : (const uint16_t *)hp_nothing, data_length);
}
#define hp_set_data(...) hp_set_data_mended(__VA_ARGS__)

static inline uint8_t hp_append_data_mended(hp_session *session, uint32_t node, const uint16_t *data, size_t data_length)
{
    if ((!data && data_length))
        return HP_BAD_LENGTHS;
    return hp_append_data(session, node, data ? data : (const uint16_t *)hp_nothing, data_length);
}
#define hp_append_data(...) hp_append_data_mended(__VA_ARGS__)

static inline uint8_t hp_insert_data_mended(hp_session *session, uint32_t node, uint32_t offset, const uint16_t *data, size_t data_length)
{
    if ((!data && data_length))
        return HP_BAD_LENGTHS;
    return hp_insert_data(session, node, offset, data ? data : (const uint16_t *)hp_nothing, data_length);
}
#define hp_insert_data(...) hp_insert_data_mended(__VA_ARGS__)

static inline uint8_t hp_replace_data_mended(hp_session *session, uint32_t node, uint32_t offset, uint32_t count, const uint16_t *data, size_t data_length)
{
    if ((!data && data_length))
        return HP_BAD_LENGTHS;
    return hp_replace_data(session, node, offset, count, data ? data : (const uint16_t *)hp_nothing, data_length);
}
#define hp_replace_data(...) hp_replace_data_mended(__VA_ARGS__)

static inline uint8_t hp_set_attribute_mended(hp_session *session, uint32_t element, const uint8_t *name, size_t name_length, const uint16_t *value, size_t value_length)
{
    if ((!name && name_length) || (!value && value_length))
        return HP_BAD_LENGTHS;
    return hp_set_attribute(session, element, name ? name : (const uint8_t *)hp_nothing, name_length, value ? value : (const uint16_t *)hp_nothing, value_length);
}
#define hp_set_attribute(...) hp_set_attribute_mended(__VA_ARGS__)

static inline uint8_t hp_get_attribute_mended(hp_session *session, uint32_t element, const uint8_t *name, size_t name_length)
{
    if ((!name && name_length))
        return HP_BAD_LENGTHS;
    return hp_get_attribute(session, element, name ? name : (const uint8_t *)hp_nothing, name_length);
}
#define hp_get_attribute(...) hp_get_attribute_mended(__VA_ARGS__)

static inline uint8_t hp_has_attribute_mended(hp_session *session, uint32_t element, const uint8_t *name, size_t name_length, uint8_t *is_there)
{
    if ((!name && name_length))
        return HP_BAD_LENGTHS;
    return hp_has_attribute(session, element, name ? name : (const uint8_t *)hp_nothing, name_length, is_there);
}
#define hp_has_attribute(...) hp_has_attribute_mended(__VA_ARGS__)

static inline uint8_t hp_remove_attribute_mended(hp_session *session, uint32_t element, const uint8_t *name, size_t name_length)
{
    if ((!name && name_length))
        return HP_BAD_LENGTHS;
    return hp_remove_attribute(session, element, name ? name : (const uint8_t *)hp_nothing, name_length);
}
#define hp_remove_attribute(...) hp_remove_attribute_mended(__VA_ARGS__)

static inline uint8_t hp_toggle_attribute_mended(hp_session *session, uint32_t element, const uint8_t *name, size_t name_length, uint8_t force, uint8_t *is_there)
{
    if ((!name && name_length))
        return HP_BAD_LENGTHS;
    return hp_toggle_attribute(session, element, name ? name : (const uint8_t *)hp_nothing, name_length, force, is_there);
}
#define hp_toggle_attribute(...) hp_toggle_attribute_mended(__VA_ARGS__)

static inline uint8_t hp_create_iterator_mended(hp_session *session, uint32_t root, uint32_t show, const uint8_t *names, size_t names_length, const uint32_t *lengths, size_t lengths_length, const uint8_t *verdicts, size_t verdicts_length, uint32_t *iterator)
{
    if ((!names && names_length) || (!lengths && lengths_length) || (!verdicts && verdicts_length))
        return HP_BAD_LENGTHS;
    return hp_create_iterator(session, root, show, names ? names : (const uint8_t *)hp_nothing, names_length, lengths ? lengths : (const uint32_t *)hp_nothing, lengths_length, verdicts ? verdicts : (const uint8_t *)hp_nothing, verdicts_length, iterator);
}
#define hp_create_iterator(...) hp_create_iterator_mended(__VA_ARGS__)

static inline uint8_t hp_create_walker_mended(hp_session *session, uint32_t root, uint32_t show, const uint8_t *names, size_t names_length, const uint32_t *lengths, size_t lengths_length, const uint8_t *verdicts, size_t verdicts_length, uint32_t *walker)
{
    if ((!names && names_length) || (!lengths && lengths_length) || (!verdicts && verdicts_length))
        return HP_BAD_LENGTHS;
    return hp_create_walker(session, root, show, names ? names : (const uint8_t *)hp_nothing, names_length, lengths ? lengths : (const uint32_t *)hp_nothing, lengths_length, verdicts ? verdicts : (const uint8_t *)hp_nothing, verdicts_length, walker);
}
#define hp_create_walker(...) hp_create_walker_mended(__VA_ARGS__)

static inline uint8_t hp_next_nodes_into_mended(hp_session *session, uint32_t iterator, uint32_t *nodes, size_t nodes_capacity, size_t *count)
{
    if ((!nodes && nodes_capacity))
        return HP_BAD_LENGTHS;
    return hp_next_nodes_into(session, iterator, nodes ? nodes : (uint32_t *)hp_nothing, nodes_capacity, count);
}
#define hp_next_nodes_into(...) hp_next_nodes_into_mended(__VA_ARGS__)

static inline uint8_t hp_walk_into_mended(hp_session *session, uint32_t walker, uint8_t direction, uint32_t *nodes, size_t nodes_capacity, size_t *count)
{
    if ((!nodes && nodes_capacity))
        return HP_BAD_LENGTHS;
    return hp_walk_into(session, walker, direction, nodes ? nodes : (uint32_t *)hp_nothing, nodes_capacity, count);
}
#define hp_walk_into(...) hp_walk_into_mended(__VA_ARGS__)

static inline uint8_t hp_observe_mended(hp_session *session, uint32_t observer, uint32_t node, const hp_options *options, const uint8_t *names, size_t names_length, const uint32_t *lengths, size_t lengths_length)
{
    if ((!names && names_length) || (!lengths && lengths_length))
        return HP_BAD_LENGTHS;
    return hp_observe(session, observer, node, options, names ? names : (const uint8_t *)hp_nothing, names_length, lengths ? lengths : (const uint32_t *)hp_nothing, lengths_length);
}
#define hp_observe(...) hp_observe_mended(__VA_ARGS__)

/** @endcond */

/** How a status is printed, as in the reply to a line. */
static inline const char *hp_status_word(uint8_t status)
{
    switch (status) {
    case HP_OK: return "ok";
    case HP_INDEX_SIZE_ERROR: return "IndexSizeError";
    case HP_HIERARCHY_REQUEST_ERROR: return "HierarchyRequestError";
    case HP_WRONG_DOCUMENT_ERROR: return "WrongDocumentError";
    case HP_INVALID_CHARACTER_ERROR: return "InvalidCharacterError";
    case HP_NOT_FOUND_ERROR: return "NotFoundError";
    case HP_NOT_SUPPORTED_ERROR: return "NotSupportedError";
    case HP_INVALID_STATE_ERROR: return "InvalidStateError";
    case HP_INVALID_NODE_TYPE_ERROR: return "InvalidNodeTypeError";
    case HP_TYPE_ERROR: return "TypeError";
    case HP_NO_SUCH_OBJECT: return "no-such-object";
    case HP_LIMIT: return "limit";
    case HP_IN_USE: return "in-use";
    case HP_LINE_TOO_LONG: return "line-too-long";
    case HP_BAD_JSON: return "bad-json";
    case HP_BAD_COMMAND: return "bad-command";
    case HP_BAD_ARGUMENTS: return "bad-arguments";
    case HP_OUT_OF_MEMORY: return "out-of-memory";
    case HP_CLOSED: return "closed";
    case HP_ALREADY_OPEN: return "already-open";
    case HP_BAD_LIMITS: return "bad-limits";
    case HP_NOT_UTF8: return "not-utf8";
    case HP_BAD_LENGTHS: return "bad-lengths";
    case HP_BAD_CHOICE: return "bad-choice";
    case HP_NOT_THERE: return "not-there";
    case HP_ENDED: return "ended";
    default: return "";
    }
}

#ifdef __cplusplus
}
#endif

#endif
