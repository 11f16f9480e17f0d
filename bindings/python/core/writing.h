/* A tree as markup. The package says how things are written; the functions here put elements, attributes and Texts one after the other. */
#ifndef HUCKLEPORT_WRITING_H
#define HUCKLEPORT_WRITING_H

#include "course.h"
#include "members.h"

/* The replacement of each unit below 256, or null if it has none; and whether a unit is one byte that is written as it is. */
typedef struct {
    const char *at[256];
    size_t length[256];
    bool is_plain[128];
} Escapes;

/* UTF-8 that grows. */
typedef struct {
    char *at;
    size_t length, room;
} Buffer;

/* A part of the markup that was written. */
typedef struct {
    size_t at, length;
} Piece;

/* Names of elements. */
enum { MOST_NAMES = 64 };
typedef struct {
    hp_bytes at[MOST_NAMES];
    size_t count;
} Names;

/* A node that is open: the name in its start tag, whether there is an end tag, and how Texts under it are written. */
typedef struct {
    Piece name;
    bool has_end, is_plain;
} Open;

typedef struct {
    Open *at;
    size_t length, room;
} Opens;

/* A node of another kind, with its name, data and ids, and where in the markup it stands. */
typedef struct {
    uint8_t kind;
    PyObject *parts[4];
    size_t place;
} Other;

/* The marks of a name of elements. */
enum { IS_MARKED = 1, IS_VOID = 2, IS_PLAIN = 4 };

/* How a tree is written, and where it has got to. */
typedef struct {
    Calls *calls;
    hp_session *session;
    Escapes text, value;
    /* The names of elements that have no end tag, and of those whose Texts are written as they are; and these as marks, by labels. */
    Names void_names, plain_names;
    uint8_t marks[MOST_LABELS];
    /* Whether an element without children ends in its start tag. */
    bool has_empty_tags;
    Buffer written;
    Opens open;
    /* All names of elements and attributes, and those of attributes that were written last. */
    PyObject *names;
    Piece seen[64];
    /* Whether a unit was written that XML may not have: a control character, a surrogate that stands alone, U+FFFE, U+FFFF. */
    bool is_doubtful;
    Other *others;
    size_t others_count, others_room;
} Writing;

static bool widen(Buffer *to, size_t length)
{
    size_t room = 2 * to->room + length + 4096;
    char *wider = PyMem_Realloc(to->at, room);
    if (!wider)
        return PyErr_NoMemory() != NULL;
    to->at = wider;
    to->room = room;
    return true;
}

/* Reserves room for length bytes more. */
static inline bool reserve(Buffer *to, size_t length)
{
    return to->room - to->length >= length || widen(to, length);
}

/* Copies a few bytes without a call. */
static inline void copy_few(char *to, const char *from, size_t length)
{
    if (length > 16) {
        memcpy(to, from, length);
    } else if (length >= 8) {
        memcpy(to, from, 8);
        memcpy(to + length - 8, from + length - 8, 8);
    } else if (length >= 4) {
        memcpy(to, from, 4);
        memcpy(to + length - 4, from + length - 4, 4);
    } else if (length) {
        to[0] = from[0];
        to[length / 2] = from[length / 2];
        to[length - 1] = from[length - 1];
    }
}

static inline bool push(Buffer *to, const char *from, size_t length)
{
    if (!reserve(to, length))
        return false;
    copy_few(to->at + to->length, from, length);
    to->length += length;
    return true;
}

/* Units up to the first that is not written as one byte of its own. */
static size_t push_plain(Buffer *to, const uint16_t *units, size_t length, const bool *is_plain)
{
    char *out = to->at + to->length;
    size_t at = 0;
    while (at < length && units[at] < 0x80 && is_plain[units[at]]) {
        out[at] = (char)units[at];
        at++;
    }
    to->length += at;
    return at;
}

/* A unit, or two that are a pair, as UTF-8; a surrogate that stands alone has three bytes. Returns how many units it was. */
static size_t push_unit(Writing *it, const hp_text_view *text, size_t at, const Escapes *escapes, bool *done)
{
    Buffer *to = &it->written;
    Py_UCS4 unit = text->units[at];
    bool has_two = is_pair(text->units, at, text->length);
    if (escapes && unit < 256 && escapes->at[unit]) {
        *done = push(to, escapes->at[unit], escapes->length[unit]);
        return 1;
    }
    it->is_doubtful |= (unit < 0x20 && unit != 9 && unit != 10 && unit != 13) || unit >= 0xFFFE || ((unit & 0xF800) == 0xD800 && !has_two);
    if (has_two)
        unit = 0x10000 + ((unit & 0x3FF) << 10) + (text->units[at + 1] & 0x3FF);
    *done = reserve(to, 4);
    if (*done)
        to->length = (size_t)((char *)push_octets((uint8_t *)to->at + to->length, &unit, 1) - to->at);
    return has_two ? 2 : 1;
}

/* Writes units as UTF-8, or their replacements. */
static bool push_text(Writing *it, const hp_text_view *text, const Escapes *escapes)
{
    static const bool none_is_plain[128];
    const bool *is_plain = escapes ? escapes->is_plain : none_is_plain;
    bool done = true;
    for (size_t at = 0; done && at < text->length;) {
        done = reserve(&it->written, text->length - at);
        if (done)
            at += push_plain(&it->written, text->units + at, text->length - at, is_plain);
        if (done && at < text->length)
            at += push_unit(it, text, at, escapes, &done);
    }
    return done;
}

static bool escapes_of(PyObject *table, Escapes *to)
{
    for (int at = 0; at < 256; at++) {
        PyObject *it = PyTuple_GetItem(table, at);
        char *octets = NULL;
        Py_ssize_t length = 0;
        if (!it || (it != Py_None && PyBytes_AsStringAndSize(it, &octets, &length) < 0))
            return false;
        to->at[at] = octets;
        to->length[at] = (size_t)length;
        if (at < 128)
            to->is_plain[at] = !octets && (at >= 0x20 || at == '\t' || at == '\n' || at == '\r');
    }
    return true;
}

/* The names of a tuple of bytes, which the caller holds. */
static bool names_of(PyObject *tuple, Names *to)
{
    to->count = 0;
    for (Py_ssize_t at = 0; at < PyTuple_Size(tuple) && at < MOST_NAMES; at++) {
        char *octets = NULL;
        Py_ssize_t length = 0;
        if (PyBytes_AsStringAndSize(PyTuple_GetItem(tuple, at), &octets, &length) < 0)
            return false;
        to->at[to->count++] = (hp_bytes){ (const uint8_t *)octets, (size_t)length };
    }
    return true;
}

static bool is_among(const Names *names, const hp_bytes *name)
{
    for (size_t at = 0; at < names->count; at++) {
        const hp_bytes *it = &names->at[at];
        if (it->length == name->length && it->bytes[0] == name->bytes[0] && memcmp(it->bytes, name->bytes, name->length) == 0)
            return true;
    }
    return false;
}

static bool add_to_names(Writing *it, const uint8_t *name, size_t length)
{
    PyObject *found = name_from(name, length);
    bool done = found && PySet_Add(it->names, found) == 0;
    Py_XDECREF(found);
    return done;
}

/* ---- attributes */

/* Puts the name of an attribute among all names, unless it was the last of its sort that was written. The name is written next, behind a blank. */
static bool note_name(Writing *it, const hp_bytes *name)
{
    const size_t length = name->length;
    size_t mark = length * 7 + (length ? name->bytes[0] + 3u * name->bytes[length - 1] : 0);
    Piece *seen = &it->seen[mark % 64];
    bool is_new = seen->length != length || memcmp(it->written.at + seen->at, name->bytes, length) != 0;
    *seen = (Piece){ it->written.length + 1, length };
    return !is_new || add_to_names(it, name->bytes, length);
}

static bool push_attribute(Writing *it, const hp_bytes *name, const hp_text_view *value)
{
    Buffer *to = &it->written;
    const size_t length = name->length;
    if (!note_name(it, name) || !reserve(to, length + 3))
        return false;
    char *at = to->at + to->length;
    at[0] = ' ';
    copy_few(at + 1, (const char *)name->bytes, length);
    memcpy(at + 1 + length, "=\"", 2);
    to->length += length + 3;
    return push_text(it, value, &it->value) && push(to, "\"", 1);
}

/* Writes the attributes of an element from where they lie, and learns their names where these are not known. */
static bool push_attributes(Writing *it, uint32_t element)
{
    Labels *labels = &it->calls->labels;
    unsigned known = shape_place(labels, element), shape = BARE;
    hp_bytes name;
    hp_text_view value;
    uint8_t status = HP_OK;
    if (known == BARE)
        return true;
    size_t count = known ? labels->shapes[known].count : SIZE_MAX;
    for (size_t at = 0; at < count && (status = hp_attribute_at(it->session, element, at, &name, &value)) == HP_OK; at++) {
        shape = known ? known : shape_with(labels, shape, name.bytes, name.length);
        if (!push_attribute(it, &name, &value))
            return false;
    }
    if (!known && status == HP_NOT_THERE)
        learn_shape(labels, it->session, element, shape);
    return status == HP_OK || (!known && status == HP_NOT_THERE);
}

/* ---- elements */

/* Finds the marks of a name of elements. A name is put among all names when it is met first. */
static bool marks_of(Writing *it, unsigned label, const hp_bytes *name, uint8_t *to)
{
    bool is_kept = label && it->calls->labels.at[label].is_named;
    *to = is_kept ? it->marks[label] : 0;
    if (*to)
        return true;
    *to = IS_MARKED | (is_among(&it->void_names, name) ? IS_VOID : 0) | (is_among(&it->plain_names, name) ? IS_PLAIN : 0);
    if (is_kept)
        it->marks[label] = *to;
    return add_to_names(it, name->bytes, name->length);
}

/* Writes an end tag, where there is one. */
static bool push_end(Writing *it, const Open *of)
{
    if (!of->has_end)
        return true;
    Buffer *to = &it->written;
    const size_t length = of->name.length;
    if (!reserve(to, length + 3))
        return false;
    char *at = to->at + to->length;
    memcpy(at, "</", 2);
    copy_few(at + 2, to->at + of->name.at, length);
    at[length + 2] = '>';
    to->length += length + 3;
    return true;
}

static bool opens_push(Opens *it, const Open *open)
{
    if (it->length == it->room) {
        size_t room = 2 * it->room + 32;
        Open *wider = PyMem_Realloc(it->at, room * sizeof(Open));
        if (!wider)
            return PyErr_NoMemory() != NULL;
        it->at = wider;
        it->room = room;
    }
    it->at[it->length++] = *open;
    return true;
}

/* Ends all open nodes down to a depth. */
static bool close_to(Writing *it, size_t depth)
{
    while (it->open.length > depth) {
        if (!push_end(it, &it->open.at[--it->open.length]))
            return false;
    }
    return true;
}

/* Writes an element up to its children, or whole if it has none. If it has no end tag, is_hidden is set: its descendants are not written. */
static bool push_element(Writing *it, uint32_t node, bool is_empty, bool *is_hidden)
{
    hp_bytes name;
    uint8_t marks = 0;
    unsigned label = label_place(&it->calls->labels, node);
    if (!element_name(it->calls, node, &label, &name) || !marks_of(it, label, &name, &marks) || !push(&it->written, "<", 1))
        return false;
    const Open open = { { it->written.length, name.length }, !(marks & IS_VOID), marks & IS_PLAIN };
    if (!push(&it->written, (const char *)name.bytes, name.length) || !push_attributes(it, node))
        return false;
    if (is_empty)
        return it->has_empty_tags ? push(&it->written, "/>", 2) : push(&it->written, ">", 1) && push_end(it, &open);
    *is_hidden = !open.has_end;
    return push(&it->written, ">", 1) && (!open.has_end || opens_push(&it->open, &open));
}

/* ---- nodes that are no elements */

/* A part of the name of a node, or its data, or null where there is none; or null with an exception. */
static PyObject *other_name(Writing *it, uint32_t node, uint8_t part)
{
    hp_bytes name;
    return is_name_lent(it->calls, node, part, &name) ? name_from(name.bytes, name.length) : NULL;
}

static PyObject *other_data(Writing *it, uint32_t node)
{
    hp_text_view text;
    return hp_data_of(it->session, node, &text) == HP_OK ? text_from(text.units, text.length) : NULL;
}

/* Keeps a node of another kind for the package to write. */
static bool push_other(Writing *it, const Ranked *node)
{
    if (it->others_count == it->others_room) {
        size_t room = 2 * it->others_room + 16;
        Other *wider = PyMem_Realloc(it->others, room * sizeof(Other));
        if (!wider)
            return PyErr_NoMemory() != NULL;
        it->others = wider;
        it->others_room = room;
    }
    Other *other = &it->others[it->others_count++];
    *other = (Other){ node->kind, { NULL, NULL, NULL, NULL }, it->written.length };
    if (has_data(node->kind))
        other->parts[1] = other_data(it, node->number);
    for (uint8_t part = 0; part < parts_of(node->kind) && !PyErr_Occurred(); part++)
        other->parts[part ? part + 1 : 0] = other_name(it, node->number, part);
    return !PyErr_Occurred();
}

static bool push_text_of(Writing *it, uint32_t node, bool is_plain)
{
    hp_text_view text;
    return hp_data_of(it->session, node, &text) == HP_OK && push_text(it, &text, is_plain ? NULL : &it->text);
}

/* ---- all of it */

/* Writes a node up to its children. */
static bool push_node(Writing *it, const Ranked *node, bool is_empty, bool is_plain_above, bool *is_hidden)
{
    const Open nothing = { { 0, 0 }, false, false };
    if (node->kind == KIND_ELEMENT)
        return push_element(it, node->number, is_empty, is_hidden);
    if (node->kind == KIND_TEXT)
        return push_text_of(it, node->number, it->open.length ? it->open.at[it->open.length - 1].is_plain : is_plain_above);
    if (has_children(node->kind))
        return is_empty || opens_push(&it->open, &nothing);
    return push_other(it, node);
}

/* Writes a node and all below it. (Nothing of Python runs here, so nothing moves.) */
static bool push_tree(Writing *it, uint32_t node, bool is_plain_above)
{
    const Order *order = order_below(it->calls, node);
    if (!order)
        return false;
    const Ranked *at = order->at, *end = order->at + order->length;
    bool done = true;
    while (done && at < end) {
        const Ranked *before = at++;
        bool is_hidden = false;
        done = close_to(it, before->depth) && push_node(it, before, at == end || at->depth <= before->depth, is_plain_above, &is_hidden);
        while (is_hidden && at < end && at->depth > before->depth)
            at++;
    }
    return done && close_to(it, 0);
}

static PyObject *other_made(const Other *it)
{
    const PyObject *parts[4];
    for (int at = 0; at < 4; at++)
        parts[at] = it->parts[at] ? it->parts[at] : Py_None;
    return Py_BuildValue("(iOOOO)", (int)it->kind, parts[0], parts[1], parts[2], parts[3]);
}

/* The markup up to each node of another kind, and what it has, as parts of a list. */
static PyObject *parts_made(Writing *it)
{
    PyObject *found = PyList_New(0);
    size_t from = 0;
    for (size_t at = 0; found && at <= it->others_count; at++) {
        const Other *next = at < it->others_count ? &it->others[at] : NULL;
        size_t to = next ? next->place : it->written.length;
        PyObject *text = PyUnicode_DecodeUTF8(it->written.at + from, (Py_ssize_t)(to - from), "surrogatepass");
        PyObject *other = next ? other_made(next) : NULL;
        bool done = text && PyList_Append(found, text) == 0 && (!next || (other && PyList_Append(found, other) == 0));
        Py_XDECREF(text);
        Py_XDECREF(other);
        from = to;
        if (!done)
            Py_CLEAR(found);
    }
    return found;
}

static void writing_end(Writing *it)
{
    for (size_t at = 0; at < it->others_count; at++) {
        for (int part = 0; part < 4; part++)
            Py_XDECREF(it->others[at].parts[part]);
    }
    PyMem_Free(it->others);
    PyMem_Free(it->written.at);
    PyMem_Free(it->open.at);
    Py_XDECREF(it->names);
}

static PyObject *written(Writing *it, uint32_t node, bool is_plain_above)
{
    PyObject *parts = it->names && push_tree(it, node, is_plain_above) ? parts_made(it) : NULL;
    PyObject *found = parts ? PyTuple_Pack(3, parts, it->names, it->is_doubtful ? Py_True : Py_False) : NULL;
    Py_XDECREF(parts);
    if (!found && !PyErr_Occurred())
        PyErr_SetString(PyExc_RuntimeError, "a node is not there");
    return found;
}

/* Raises where a node of a number is no more. */
static bool is_there(PyObject *self, PyObject *words, uint32_t node)
{
    hp_node_links links;
    uint8_t status = hp_links(session_at(self), node, &links);
    PyObject *asked = status ? PyTuple_GetSlice(words, 0, 1) : NULL;
    if (asked)
        raised(status, "tree", self, asked);
    Py_XDECREF(asked);
    return status == HP_OK;
}

/* A node and all below it as markup: a list of texts, with nodes of other kinds between, the set of all names, and whether it is doubtful in XML. */
static PyObject *calls_read_markup(PyObject *self, PyObject *words)
{
    if (is_busy((Calls *)self))
        return NULL;
    uint32_t node = 0;
    Writing it;
    bool is_plain_above = false;
    memset(&it, 0, sizeof(it));
    if (!is_counted(words, 7, "read_markup") || !uint32_of(word(words, 0), &node) || !escapes_of(word(words, 1), &it.text) || !escapes_of(word(words, 2), &it.value) ||
        !names_of(word(words, 3), &it.void_names) || !names_of(word(words, 4), &it.plain_names) || !bool_of(word(words, 5), &it.has_empty_tags) ||
        !bool_of(word(words, 6), &is_plain_above) || !is_there(self, words, node))
        return NULL;
    it.calls = (Calls *)self;
    it.session = session_at(self);
    it.names = PySet_New(NULL);
    PyObject *found = written(&it, node, is_plain_above);
    writing_end(&it);
    return found;
}

#endif
