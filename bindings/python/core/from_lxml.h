/* HTML by lxml's own parser, which calls a builder as its target. The builder records the calls, without any call of the session, since other threads
 * may run between them. Then one call builds the tree of the record. */
#ifndef HUCKLEPORT_FROM_LXML_H
#define HUCKLEPORT_FROM_LXML_H

#include "building.h"

/* The kinds of events. An element that starts is followed by its attributes, and by OPENED. A text of an event is its length, and then UTF-8 that ends
 * with a zero. */
enum { START = 1, ATTRIBUTE, OPENED, END, DATA, COMMENT, INSTRUCTION, DOCTYPE };

/* Appends bytes to the record. */
static bool record_push(Record *it, const void *from, size_t length)
{
    if (it->room - it->length < length) {
        size_t room = 2 * it->room + length + 4096;
        char *wider = PyMem_Realloc(it->at, room);
        if (!wider)
            return out_of_memory();
        it->at = wider;
        it->room = room;
    }
    memcpy(it->at + it->length, from, length);
    it->length += length;
    return true;
}

/* Records a text of an event; None is recorded as an empty one. */
static bool record_text(Record *it, PyObject *text)
{
    PyObject *octets = text == Py_None ? PyBytes_FromStringAndSize("", 0) : PyUnicode_AsUTF8String(text);
    char *at = NULL;
    Py_ssize_t length = 0;
    bool done = octets && PyBytes_AsStringAndSize(octets, &at, &length) == 0 && record_push(it, &length, sizeof(length)) && record_push(it, at, (size_t)length + 1);
    Py_XDECREF(octets);
    return done;
}

static bool record_kind(Record *it, char kind)
{
    return record_push(it, &kind, 1);
}

/* Records an event with a text; returns None. */
static PyObject *record_event(PyObject *self, char kind, PyObject *text)
{
    Record *it = &((Builder *)self)->record;
    return record_kind(it, kind) && record_text(it, text) ? none() : NULL;
}

/* ---- the methods that lxml calls */

static bool record_attributes(Record *it, PyObject *attributes)
{
    PyObject *name = NULL, *value = NULL;
    Py_ssize_t at = 0;
    bool done = true;
    while (done && PyDict_Next(attributes, &at, &name, &value))
        done = record_kind(it, ATTRIBUTE) && record_text(it, name) && record_text(it, value);
    return done;
}

/* (An element without attributes has an empty mapping, which is no dict.) */
static PyObject *builder_start(PyObject *self, PyObject *words)
{
    Record *it = &((Builder *)self)->record;
    if (!is_counted(words, 2, "start"))
        return NULL;
    PyObject *attributes = word(words, 1);
    bool is_dict = PyDict_Check(attributes);
    if (!is_dict && PyObject_Size(attributes) != 0)
        return PyErr_Occurred() || !is_not_due("dict", attributes) ? NULL : none();
    it->has_element = true;
    bool done = record_kind(it, START) && record_text(it, word(words, 0)) && (!is_dict || record_attributes(it, attributes));
    return done && record_kind(it, OPENED) ? none() : NULL;
}

static PyObject *builder_end(PyObject *self, PyObject *name)
{
    (void)name;
    return record_kind(&((Builder *)self)->record, END) ? none() : NULL;
}

static PyObject *builder_data(PyObject *self, PyObject *text)
{
    return record_event(self, DATA, text);
}

static PyObject *builder_comment(PyObject *self, PyObject *text)
{
    return record_event(self, COMMENT, text);
}

static PyObject *builder_pi(PyObject *self, PyObject *words)
{
    Record *it = &((Builder *)self)->record;
    bool done = is_counted(words, 2, "pi") && record_kind(it, INSTRUCTION) && record_text(it, word(words, 0)) && record_text(it, word(words, 1));
    return done ? none() : NULL;
}

/* Records a doctype; the first one counts. */
static PyObject *builder_doctype(PyObject *self, PyObject *words)
{
    Record *it = &((Builder *)self)->record;
    if (!is_counted(words, 3, "doctype") || !record_kind(it, DOCTYPE))
        return NULL;
    it->doctype = it->doctype ? it->doctype : it->length;
    bool done = record_text(it, word(words, 0)) && record_text(it, word(words, 1)) && record_text(it, word(words, 2));
    return done ? none() : NULL;
}

static PyObject *builder_close(PyObject *self, PyObject *nothing)
{
    (void)self;
    (void)nothing;
    return none();
}

/* ---- the tree of the record */

/* Where the record is read; the document's element, once it has ended, or HP_NONE; and whether nodes were made in tree order so far. */
typedef struct {
    const char *at;
    uint32_t top;
    bool is_in_order;
} Replay;

/* Reads a text of an event. */
static const char *next_text(Replay *from, size_t *length)
{
    memcpy(length, from->at, sizeof(*length));
    const char *found = from->at + sizeof(*length);
    from->at = found + *length + 1;
    return found;
}

/* Starts an element. One behind the document's element is put into that, as libxml2 does. */
static bool replay_start(Builder *it, const char *name, Replay *from)
{
    if (!it->open.length && from->top != HP_NONE) {
        it->root = from->top;
        from->is_in_order = false;
    }
    return start_element(it, name);
}

static bool replay_end(Builder *it, Replay *from)
{
    if (!it->open.length)
        return true;
    uint32_t element = it->open.at[it->open.length - 1];
    bool done = end_element(it);
    if (!it->open.length) {
        from->top = from->top == HP_NONE ? element : from->top;
        it->root = it->document;
    }
    return done;
}

static bool replay_attribute(Builder *it, Replay *from)
{
    size_t length = 0;
    const char *name = next_text(from, &length), *value = next_text(from, &length);
    it->value.length = 0;
    return units_push(&it->value, value, length) && add_attribute(it, name);
}

static bool replay_instruction(Builder *it, Replay *from)
{
    size_t length = 0;
    const char *target = next_text(from, &length);
    return add_instruction(it, target, next_text(from, &length));
}

/* Reads a doctype, and adds it if it is due. */
static bool replay_doctype(Builder *it, Replay *from, bool is_due)
{
    size_t length = 0;
    const char *name = next_text(from, &length), *public_id = next_text(from, &length), *system_id = next_text(from, &length);
    return !is_due || add_doctype(it, name, public_id, system_id);
}

/* Adds a text. (libxml2 drops those outside of the document's element.) */
static bool replay_data(Builder *it, Replay *from)
{
    size_t length = 0;
    const char *text = next_text(from, &length);
    return !it->open.length || units_push(&it->text, text, length);
}

static bool replay_event(Builder *it, Replay *from)
{
    size_t length = 0;
    switch (*from->at++) {
    case START: return replay_start(it, next_text(from, &length), from);
    case ATTRIBUTE: return replay_attribute(it, from);
    case OPENED: end_attributes(it); return true;
    case END: return replay_end(it, from);
    case DATA: return replay_data(it, from);
    case COMMENT: return add_comment(it, next_text(from, &length));
    case INSTRUCTION: return replay_instruction(it, from);
    default: return replay_doctype(it, from, false);
    }
}

/* Adds all nodes of the record; elements that are still open end. */
static bool add_events(Builder *it)
{
    Replay from = { it->record.at, HP_NONE, true }, doctype = { it->record.at + it->record.doctype, HP_NONE, true };
    const char *end = it->record.at + it->record.length;
    memory_own();
    bool done = !it->record.doctype || replay_doctype(it, &doctype, true);
    while (done && from.at != end)
        done = replay_event(it, &from);
    while (done && it->open.length)
        done = replay_end(it, &from);
    memory_release();
    if (!from.is_in_order)
        order_drop(&it->order);
    return done;
}

/* Adds the nodes of the record, first the doctype; none if the page has no element. */
static PyObject *builder_add_record(PyObject *self, PyObject *nothing)
{
    Builder *it = (Builder *)self;
    (void)nothing;
    if (is_busy(it->calls))
        return NULL;
    if (it->record.has_element && !(building_begins(it) && add_events(it)))
        return NULL;
    if (it->record.has_element)
        building_ends(it);
    record_drop(&it->record);
    return none();
}

#endif
