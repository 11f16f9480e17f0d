/* What a session that has ended still tells, by calls that take no memory, in place of those that take some. */
#ifndef HUCKLEPORT_HELD_H
#define HUCKLEPORT_HELD_H

#include "course.h"

/* ---- attributes */

/* The value of an attribute, which is lent; or why there is none. */
static uint8_t attribute_lent(hp_session *session, uint32_t element, const Slice *name, hp_text_view *to)
{
    hp_bytes found;
    uint8_t is_there = 0, status = hp_has_attribute(session, element, name->at, name->length, &is_there);
    if (status || !is_there)
        return status ? status : HP_NOT_THERE;
    for (size_t at = 0; (status = hp_attribute_at(session, element, at, &found, to)) == HP_OK; at++) {
        if (found.length == name->length && memcmp(found.bytes, name->at, name->length) == 0)
            return HP_OK;
    }
    return status;
}

static PyObject *attribute_held(Calls *calls, uint32_t element, const Slice *name)
{
    hp_text_view value;
    return attribute_lent(&calls->session, element, name, &value) == HP_OK ? text_from(value.units, value.length) : none();
}

static PyObject *held_attribute(Calls *calls, uint32_t element, PyObject *words)
{
    Slice name;
    begin(&name);
    PyObject *found = name_of(PyTuple_GetItem(words, 1), &name) ? attribute_held(calls, element, &name) : NULL;
    drop(&name);
    return found;
}

static PyObject *held_attribute_names(Calls *calls, uint32_t element, PyObject *words)
{
    (void)words;
    hp_bytes name;
    hp_text_view value;
    PyObject *found = PyList_New(0);
    for (size_t at = 0; found && hp_attribute_at(&calls->session, element, at, &name, &value) == HP_OK; at++) {
        PyObject *it = name_from(name.bytes, name.length);
        if (!it || PyList_Append(found, it))
            Py_CLEAR(found);
        Py_XDECREF(it);
    }
    return found;
}

/* ---- texts and children */

static PyObject *held_data(Calls *calls, uint32_t node, PyObject *words)
{
    (void)words;
    hp_text_view data;
    return hp_data_of(&calls->session, node, &data) == HP_OK ? text_from(data.units, data.length) : none();
}

/* The data of the Texts of a tree, one after another: how many units they have, which are copied if there is a place for them. */
static size_t texts_copied(Calls *calls, const Order *order, uint16_t *to)
{
    size_t length = 0;
    hp_text_view data;
    for (size_t at = 0; at < order->length; at++) {
        if (order->at[at].kind != KIND_TEXT || hp_data_of(&calls->session, order->at[at].number, &data) != HP_OK || !data.length)
            continue;
        if (to)
            memcpy(to + length, data.units, 2 * data.length);
        length += data.length;
    }
    return length;
}

static PyObject *held_text_content(Calls *calls, uint32_t node, PyObject *words)
{
    uint8_t kind = kind_at(calls, node);
    if (kind != KIND_ELEMENT && kind != KIND_DOCUMENT_FRAGMENT)
        return held_data(calls, node, words);
    const Order *order = order_below(calls, node);
    uint16_t *units = order ? PyMem_Malloc(2 * texts_copied(calls, order, NULL) + 2) : NULL;
    PyObject *found = units ? text_from(units, texts_copied(calls, order, units)) : NULL;
    PyMem_Free(units);
    return found || PyErr_Occurred() ? found : PyErr_NoMemory();
}

static PyObject *held_children(Calls *calls, uint32_t node, PyObject *words)
{
    (void)words;
    uint32_t child = HP_NONE;
    PyObject *found = PyList_New(0);
    for (size_t at = 0; found && hp_child_at(&calls->session, node, at, &child) == HP_OK && child != HP_NONE; at++) {
        PyObject *it = PyLong_FromUnsignedLong(child);
        if (!it || PyList_Append(found, it))
            Py_CLEAR(found);
        Py_XDECREF(it);
    }
    return found;
}

/* Whether a node is another one or stands above it. */
static PyObject *held_contains(Calls *calls, uint32_t node, PyObject *words)
{
    PyObject *other = PyTuple_GetItem(words, 1);
    bool is_node = other && PyObject_TypeCheck(other, calls->state->thing_type);
    uint32_t at = is_node ? number_of(other) : HP_NONE;
    hp_node_links links;
    while (at != HP_NONE && at != node)
        at = hp_links(&calls->session, at, &links) == HP_OK ? links.parent : HP_NONE;
    return PyBool_FromLong(at == node);
}

/* ---- the rows of a tree */

static bool attributes_held(Rows *to, Copied *it, hp_session *session)
{
    hp_bytes name;
    hp_text_view value;
    for (; hp_attribute_at(session, it->row.node, it->row.attributes, &name, &value) == HP_OK; it->row.attributes++) {
        PyObject *text = text_from(value.units, value.length);
        if (!rows_push(to, name_from(name.bytes, name.length))) {
            Py_XDECREF(text);
            return false;
        }
        if (!rows_push(to, text))
            return false;
    }
    return true;
}

static bool row_held(Rows *to, Copied *it, hp_session *session, const Ranked *node)
{
    hp_bytes name;
    hp_text_view text;
    it->row = (hp_row){ .depth = node->depth, .node = node->number, .type = node->kind };
    it->first_pair = to->pairs_length;
    for (uint8_t part = 0; part < parts_of(node->kind); part++) {
        if (hp_name_of(session, node->number, part, &name) || !(it->names[part] = name_from(name.bytes, name.length)))
            return false;
    }
    if (has_data(node->kind) && (hp_data_of(session, node->number, &text) || !(it->text = text_from(text.units, text.length))))
        return false;
    return node->kind != KIND_ELEMENT || attributes_held(to, it, session);
}

static bool rows_held(Rows *to, Calls *calls, uint32_t node, size_t most)
{
    const Order *order = order_below(calls, node);
    if (!order)
        return false;
    to->count = order->length < most ? order->length : most;
    to->rows = zeroed(to->count + 1, sizeof(Copied));
    if (!to->rows)
        return PyErr_NoMemory() != NULL;
    for (size_t at = 0; at < to->count; at++) {
        if (!row_held(to, &to->rows[at], &calls->session, &order->at[at]))
            return false;
    }
    return true;
}

/* The rows of a tree of a session that has ended. */
static PyObject *held_tree(PyObject *session, Calls *calls, uint32_t node, size_t most)
{
    Rows rows = { NULL, 0, NULL, 0, 0 };
    PyObject *found = rows_held(&rows, calls, node, most) ? rows_made(&rows, session, calls) : NULL;
    rows_drop(&rows);
    if (!found && !PyErr_Occurred())
        PyErr_SetString(PyExc_RuntimeError, "a node is not there");
    return found;
}

/* ---- by the names of calls */

typedef PyObject *Held(Calls *calls, uint32_t node, PyObject *words);

/* Whether a call was of a node that is there; its number is the first word, or that of the first word's object. */
static bool is_held_there(Calls *calls, PyObject *words, uint32_t *node)
{
    hp_node_links links;
    PyObject *it = PyTuple_Size(words) ? PyTuple_GetItem(words, 0) : Py_None;
    if (PyObject_TypeCheck(it, calls->state->thing_type))
        *node = number_of(it);
    else if (!PyLong_Check(it) || !uint32_of(it, node))
        return false;
    return hp_links(&calls->session, *node, &links) == HP_OK;
}

static PyObject *held_answer(Calls *calls, const char *call, PyObject *words)
{
    static const struct {
        const char *call;
        Held *held;
    } all[] = {
        { "text_content", held_text_content },
        { "get_attribute", held_attribute },
        { "attribute_names", held_attribute_names },
        { "data", held_data },
        { "children", held_children },
        { "contains", held_contains },
    };
    uint32_t node = 0;
    for (size_t at = 0; at < sizeof(all) / sizeof(*all); at++) {
        if (strcmp(all[at].call, call) == 0)
            return is_held_there(calls, words, &node) ? all[at].held(calls, node, words) : NULL;
    }
    return NULL;
}

#endif
