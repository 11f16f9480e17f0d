/* A tree that parsers build: each event is a call of the library, and no object of Python is made for the new node.
 *
 * An element is appended to its parent when it ends, while the parent has no parent itself: so the depth costs nothing. Parsers hand out UTF-8. */
#ifndef HUCKLEPORT_BUILDING_H
#define HUCKLEPORT_BUILDING_H

#include "course.h"
#include "members.h"
#include "memory.h"

/* Units that grow. */
typedef struct {
    uint16_t *at;
    size_t length, room;
} Units;

/* What a parser has called, as bytes; the place of the first doctype, or 0; and whether an element has started. */
typedef struct {
    char *at;
    size_t length, room, doctype;
    bool has_element;
} Record;

typedef struct {
    PyObject_HEAD
    Calls *calls;
    /* The document of the new nodes, and the node under which they are put. */
    uint32_t document, root;
    /* Whether attributes and instructions are left out whose names the library refuses. */
    bool is_lenient;
    /* The elements that are open, each without a parent; and the root with all that was made below it. */
    Numbers open;
    Order order;
    /* The name of the element whose start tag is read, and those of the attributes that it has. */
    unsigned label, shape;
    /* The text that is not put in yet, and the value of an attribute or what else a call is handed. */
    Units text, value;
    /* The calls of a parser whose target this is. */
    Record record;
} Builder;

static void record_drop(Record *it)
{
    PyMem_Free(it->at);
    *it = (Record){ NULL, 0, 0, 0, false };
}

/* ---- UTF-8 as units */

/* Decodes the character that some bytes begin with; a byte that is no UTF-8 is U+FFFD. Returns how many bytes the character has. */
static size_t character_of(const uint8_t *octets, size_t length, Py_UCS4 *to)
{
    static const Py_UCS4 least[] = { 0, 0, 0x80, 0x800, 0x10000 };
    uint8_t first = octets[0];
    size_t size = first >= 0xF0 && first < 0xF8 ? 4 : first >= 0xE0 ? 3 : first >= 0xC0 ? 2 : 1;
    Py_UCS4 found = first & (size == 1 ? 0x7F : 0xFF >> (size + 1));
    bool fits = first < 0x80 || (size > 1 && first < 0xF8 && size <= length);
    for (size_t at = 1; fits && at < size; at++) {
        fits = (octets[at] & 0xC0) == 0x80;
        found = found << 6 | (octets[at] & 0x3F);
    }
    fits = fits && found >= least[size] && found < 0x110000 && (found & 0xFFFFF800) != 0xD800;
    *to = fits ? found : 0xFFFD;
    return fits ? size : 1;
}

/* Eight characters below 128 as units; or none, if one of them is another. */
static bool push_eight(uint16_t *to, const uint8_t *octets)
{
    uint64_t eight;
    memcpy(&eight, octets, 8);
    if (eight & 0x8080808080808080u)
        return false;
    for (int part = 0; part < 8; part++)
        to[part] = octets[part];
    return true;
}

/* Characters below 128 as units, up to the first other. The last eight are taken at once, also if some of them were taken before. */
static size_t push_narrow(uint16_t *to, const uint8_t *octets, size_t length)
{
    size_t at = 0;
    while (at + 8 <= length && push_eight(to + at, octets + at))
        at += 8;
    if (length > 8 && at < length && at + 8 > length && push_eight(to + length - 8, octets + length - 8))
        return length;
    while (at < length && octets[at] < 0x80) {
        to[at] = octets[at];
        at++;
    }
    return at;
}

/* Adds UTF-8, which has no more units than bytes. */
static bool units_push(Units *it, const char *from, size_t length)
{
    const uint8_t *octets = (const uint8_t *)from;
    if (it->room - it->length < length) {
        size_t room = 2 * it->room + length + 256;
        uint16_t *wider = PyMem_Realloc(it->at, room * sizeof(uint16_t));
        if (!wider)
            return out_of_memory();
        it->at = wider;
        it->room = room;
    }
    for (size_t at = 0; at < length;) {
        size_t narrow = push_narrow(it->at + it->length, octets + at, length - at);
        Py_UCS4 character;
        it->length += narrow;
        at += narrow;
        if (at == length)
            break;
        at += character_of(octets + at, length - at, &character);
        it->length = (size_t)((uint16_t *)push_units((uint8_t *)(it->at + it->length), &character, 1) - it->at);
    }
    return true;
}

/* What a call is handed: UTF-8 that ends with a zero, or null for none, as units. */
static bool value_of(Builder *it, const char *from)
{
    it->value.length = 0;
    return !from || units_push(&it->value, from, strlen(from));
}

/* ---- calls */

/* Raises what a status says of a call, with the number or the name that it was handed. */
static bool builder_refused(Builder *it, uint8_t status, const char *call, uint32_t first, PyObject *second)
{
    memory_release();
    PyObject *words = Py_BuildValue("(kO)", (unsigned long)first, second ? second : Py_None);
    if (words)
        refused(status, call, (PyObject *)it->calls, words);
    Py_XDECREF(words);
    return false;
}

static bool name_refused(Builder *it, uint8_t status, const char *call, uint32_t first, const char *name)
{
    memory_release();
    PyObject *second = PyUnicode_DecodeUTF8(name, (Py_ssize_t)strlen(name), "replace");
    if (second)
        builder_refused(it, status, call, first, second);
    Py_XDECREF(second);
    return false;
}

/* Puts a node behind what the innermost open element has. */
static bool put_in(Builder *it, uint32_t node)
{
    uint32_t parent = it->open.length ? it->open.at[it->open.length - 1] : it->root;
    uint8_t status = hp_append_child(&it->calls->session, parent, node);
    if (status == HP_OK)
        return true;
    memory_release();
    PyObject *number = PyLong_FromUnsignedLong(node);
    if (number)
        builder_refused(it, status, "append_child", parent, number);
    Py_XDECREF(number);
    note(it->calls, FAMILY_NODE, node);
    return false;
}

/* Puts in a node that has nothing below it, and learns what it is and where it stands: nodes are made in tree order. */
static bool put_in_leaf(Builder *it, uint32_t node, uint8_t kind)
{
    learn(&it->calls->labels, &it->calls->session, node, label_of_kind(&it->calls->labels, kind));
    return order_push(&it->order, node, it->open.length + 1, kind) && put_in(it, node);
}

/* Puts the text in that has come since the last node. */
static bool put_text(Builder *it)
{
    uint32_t node = 0;
    if (!it->text.length)
        return true;
    uint8_t status = hp_create_text(&it->calls->session, it->document, it->text.at, it->text.length, &node);
    it->text.length = 0;
    if (status)
        return builder_refused(it, status, "create_text", it->document, NULL);
    return put_in_leaf(it, node, KIND_TEXT);
}

/* Whether a name was refused, and what has it is left out. */
static bool is_left_out(const Builder *it, uint8_t status)
{
    return it->is_lenient && (status == HP_INVALID_CHARACTER_ERROR || status == HP_NOT_UTF8);
}

/* Sets an attribute of the innermost open element. */
static bool add_attribute(Builder *it, const char *name)
{
    uint32_t element = it->open.at[it->open.length - 1];
    size_t length = strlen(name);
    uint8_t status = hp_set_attribute(&it->calls->session, element, (const uint8_t *)name, length, it->value.at, it->value.length);
    if (!status)
        it->shape = shape_with(&it->calls->labels, it->shape, name, length);
    return !status || is_left_out(it, status) || name_refused(it, status, "set_attribute", element, name);
}

/* An element, which gets its attributes next. */
static bool start_element(Builder *it, const char *name)
{
    Calls *calls = it->calls;
    size_t length = strlen(name);
    uint32_t element = 0;
    if (!put_text(it))
        return false;
    uint8_t status = hp_create_element(&calls->session, it->document, (const uint8_t *)name, length, &element);
    if (status)
        return name_refused(it, status, "create_element", it->document, name);
    it->label = label_of_name(&calls->labels, KIND_ELEMENT, name, length);
    it->shape = BARE;
    if (order_push(&it->order, element, it->open.length + 1, KIND_ELEMENT) && numbers_push(&it->open, element))
        return true;
    note(calls, FAMILY_NODE, element);
    return false;
}

/* Learns what the innermost open element is, which has all its attributes. */
static void end_attributes(Builder *it)
{
    learn_element(&it->calls->labels, &it->calls->session, it->open.at[it->open.length - 1], it->label, it->shape);
}

static bool end_element(Builder *it)
{
    return put_text(it) && put_in(it, it->open.at[--it->open.length]);
}

static bool add_comment(Builder *it, const char *data)
{
    uint32_t node = 0;
    if (!put_text(it) || !value_of(it, data))
        return false;
    uint8_t status = hp_create_comment(&it->calls->session, it->document, it->value.at, it->value.length, &node);
    return status ? builder_refused(it, status, "create_comment", it->document, NULL) : put_in_leaf(it, node, KIND_COMMENT);
}

static bool add_instruction(Builder *it, const char *target, const char *data)
{
    uint32_t node = 0;
    if (!put_text(it) || !value_of(it, data))
        return false;
    uint8_t status = hp_create_pi(&it->calls->session, it->document, (const uint8_t *)target, strlen(target), it->value.at, it->value.length, &node);
    if (status)
        return is_left_out(it, status) || name_refused(it, status, "create_pi", it->document, target);
    return put_in_leaf(it, node, KIND_PROCESSING_INSTRUCTION);
}

/* A name and ids; null stands for an empty one. */
static bool add_doctype(Builder *it, const char *name, const char *public_id, const char *system_id)
{
    uint32_t node = 0;
    name = name ? name : "";
    public_id = public_id ? public_id : "";
    system_id = system_id ? system_id : "";
    uint8_t status = hp_create_doctype(&it->calls->session, it->document, (const uint8_t *)name, strlen(name), (const uint8_t *)public_id, strlen(public_id),
        (const uint8_t *)system_id, strlen(system_id), &node);
    return status ? name_refused(it, status, "create_doctype", it->document, name) : put_in_leaf(it, node, KIND_DOCUMENT_TYPE);
}

/* ---- all of it */

/* Begins to build, under a root that has nothing below it. */
static bool building_begins(Builder *it)
{
    uint32_t child = HP_NONE;
    let_go_noted(it->calls);
    moved(it->calls);
    hp_first_child(&it->calls->session, it->root, &child);
    if (child == HP_NONE)
        return order_push(&it->order, it->root, 0, kind_at(it->calls, it->root));
    PyErr_Format(PyExc_ValueError, "node %u has children already: build under one that has none", it->root);
    return false;
}

/* Caches the order of the tree that was built, for later calls. */
static void building_ends(Builder *it)
{
    moved(it->calls);
    it->calls->order = it->order;
    it->order = (Order){ NULL, 0, 0, 0 };
}

/* ---- the object */

/* Notes the open elements, so that a later call discards them. */
static void abandon(Builder *it)
{
    for (size_t at = 0; at < it->open.length; at++)
        note(it->calls, FAMILY_NODE, it->open.at[at]);
    it->open.length = it->text.length = 0;
}

static PyObject *builder_abandon(PyObject *self, PyObject *nothing)
{
    if (is_busy(((Builder *)self)->calls))
        return NULL;
    (void)nothing;
    abandon((Builder *)self);
    return none();
}

static PyObject *builder_new(PyTypeObject *type, PyObject *words, PyObject *named)
{
    (void)named;
    State *state = state_of_type(type);
    PyObject *calls = NULL;
    unsigned int document = 0, root = 0;
    int is_lenient = 0;
    if (!state || !PyArg_ParseTuple(words, "OIIp", &calls, &document, &root, &is_lenient))
        return NULL;
    if (!PyObject_TypeCheck(calls, state->calls_type)) {
        is_not_due("Calls", calls);
        return NULL;
    }
    Builder *it = (Builder *)PyType_GenericAlloc(type, 0);
    if (!it)
        return NULL;
    Py_INCREF(calls);
    it->calls = (Calls *)calls;
    it->document = document;
    it->root = root;
    it->is_lenient = is_lenient != 0;
    return (PyObject *)it;
}

static void builder_dealloc(PyObject *self)
{
    PyTypeObject *type = Py_TYPE(self);
    Builder *it = (Builder *)self;
    if (it->calls && it->calls->session.is_open)
        abandon(it);
    Py_XDECREF((PyObject *)it->calls);
    numbers_drop(&it->open);
    order_drop(&it->order);
    PyMem_Free(it->text.at);
    PyMem_Free(it->value.at);
    record_drop(&it->record);
    PyObject_Free(self);
    Py_DECREF(type);
}

#endif
