/* The calls of a session that read whole answers, and those members of the package's classes that no line of a table says. */
#ifndef HUCKLEPORT_MEMBERS_H
#define HUCKLEPORT_MEMBERS_H

#include "held.h"

/* ---- what a member was given */

static bool is_counted(PyObject *words, Py_ssize_t count, const char *call)
{
    if (PyTuple_Size(words) == count)
        return true;
    PyErr_Format(PyExc_TypeError, "%s() takes %zd arguments (%zd given)", call, count, PyTuple_Size(words));
    return false;
}

static PyObject *word(PyObject *words, Py_ssize_t at)
{
    return PyTuple_GetItem(words, at);
}

/* Puts words by name among those by place. */
static bool place_named(PyObject *named, const char *const *names, PyObject **given, const char *call)
{
    Py_ssize_t left = PyDict_Size(named);
    for (int at = 0; names[at]; at++) {
        PyObject *it = PyDict_GetItemString(named, names[at]);
        if (it && given[at]) {
            PyErr_Format(PyExc_TypeError, "%s() got multiple values for argument '%s'", call, names[at]);
            return false;
        }
        given[at] = it ? it : given[at];
        left -= it != NULL;
    }
    if (left)
        PyErr_Format(PyExc_TypeError, "%s() got an unexpected keyword argument", call);
    return left == 0;
}

/* Puts the words of a member in the order of their names; an omitted word is null. */
static bool sort(PyObject *words, PyObject *named, const char *const *names, int required, PyObject **given, const char *call)
{
    Py_ssize_t count = PyTuple_Size(words), most = 0;
    for (; names[most]; most++)
        given[most] = most < count ? PyTuple_GetItem(words, most) : NULL;
    if (count > most) {
        PyErr_Format(PyExc_TypeError, "%s() takes at most %zd arguments (%zd given)", call, most, count);
        return false;
    }
    if (named && PyDict_Size(named) && !place_named(named, names, given, call))
        return false;
    for (int at = 0; at < required; at++) {
        if (!given[at]) {
            PyErr_Format(PyExc_TypeError, "%s() missing a required argument: '%s'", call, names[at]);
            return false;
        }
    }
    return true;
}

static PyObject *same(PyObject *it)
{
    Py_INCREF(it);
    return it;
}

/* A node that was taken out of its tree. */
static PyObject *taken_out(PyObject *node, PyObject *answer)
{
    own(node);
    return answer;
}

/* A node that came under another, and is no root any more. A fragment stays one. */
static PyObject *placed(PyObject *node, PyObject *answer)
{
    ((Thing *)node)->is_own = (PyObject *)Py_TYPE(node) == ((Thing *)node)->calls->state->kinds[KIND_DOCUMENT_FRAGMENT];
    return answer;
}

/* Counts that nodes may be gone. A session that ended knows none. */
static PyObject *let_go(Calls *calls, PyObject *answer)
{
    calls->epoch++;
    if (!calls->session.is_open)
        labels_drop(&calls->labels);
    return answer;
}

/* ---- calls of a session */

static PyObject *calls_keep(PyObject *self, PyObject *words)
{
    uint32_t number = 0;
    uint8_t family = 0;
    if (!is_counted(words, 3, "keep") || !family_of(word(words, 1), &family) || !uint32_of(word(words, 2), &number))
        return NULL;
    return made(word(words, 0), (Calls *)self, word(words, 1), family, number);
}

static PyObject *calls_make(PyObject *self, PyObject *words)
{
    return own(calls_keep(self, words));
}

static PyObject *calls_let_all_go(PyObject *self, PyObject *nothing)
{
    (void)nothing;
    if (is_busy((Calls *)self))
        return NULL;
    let_all_go((Calls *)self);
    return none();
}

static PyObject *calls_note(PyObject *self, PyObject *nodes)
{
    Slice numbers;
    begin(&numbers);
    bool fits = numbers_of(nodes, &numbers);
    for (size_t at = 0; fits && at < numbers.length; at++)
        note((Calls *)self, FAMILY_NODE, ((const uint32_t *)numbers.at)[at]);
    drop(&numbers);
    return fits ? none() : NULL;
}

static PyObject *calls_node_object(PyObject *self, PyObject *words)
{
    if (is_busy((Calls *)self))
        return NULL;
    uint32_t number = 0;
    if (!is_counted(words, 2, "node_object") || !uint32_of(word(words, 1), &number))
        return NULL;
    return node_from(word(words, 0), (Calls *)self, number);
}

static PyObject *calls_read_name(PyObject *self, PyObject *words)
{
    if (is_busy((Calls *)self))
        return NULL;
    uint32_t node = 0;
    uint8_t part = 0;
    hp_bytes name;
    if (!is_counted(words, 2, "read_name") || !uint32_of(word(words, 0), &node) || !uint8_of(word(words, 1), &part))
        return NULL;
    uint8_t status = hp_name_of(session_at(self), node, part, &name);
    return status ? refused(status, "node", self, words) : name_from(name.bytes, name.length);
}

static PyObject *line_answer(hp_session *session)
{
    hp_bytes view;
    if (hp_reply_line(session, &view) != HP_OK)
        return none();
    return PyBytes_FromStringAndSize((const char *)view.bytes, (Py_ssize_t)view.length);
}

/* The status of a line, and the line of its reply. */
static PyObject *calls_read_line(PyObject *self, PyObject *words)
{
    if (is_busy((Calls *)self))
        return NULL;
    Slice line;
    if (!is_counted(words, 1, "read_line") || !octets_of(word(words, 0), &line))
        return NULL;
    let_go_noted((Calls *)self);
    moved((Calls *)self);
    labels_drop_pages(&((Calls *)self)->labels);
    uint8_t status = hp_line(session_at(self), line.at, line.length);
    ((Calls *)self)->epoch++;
    ((Calls *)self)->has_lines = true;
    /* (a line that is refused memory has no reply: the library still lends the one before) */
    PyObject *reply = status == HP_OUT_OF_MEMORY ? none() : line_answer(session_at(self));
    return reply ? Py_BuildValue("iN", (int)status, reply) : NULL;
}

/* The line that prints a node. */
static PyObject *calls_read_printed(PyObject *self, PyObject *words)
{
    if (is_busy((Calls *)self))
        return NULL;
    uint32_t node = 0;
    hp_place place;
    if (!is_counted(words, 1, "read_printed") || !uint32_of(word(words, 0), &node))
        return NULL;
    uint8_t status = hp_node(session_at(self), node, &place);
    status = status ? status : hp_print(session_at(self));
    return status ? refused(status, "node", self, words) : line_answer(session_at(self));
}

static PyObject *tree_of(PyObject *self, PyObject *session, PyObject *words, uint32_t node, size_t most)
{
    hp_node_links links;
    uint8_t status = hp_tree(session_at(self), node);
    if (status == HP_OUT_OF_MEMORY && hp_links(session_at(self), node, &links) == HP_OK)
        return held_tree(session, (Calls *)self, node, most);
    return status ? refused(status, "tree", self, words) : rows_answer(session, (Calls *)self, most);
}

static PyObject *calls_read_tree(PyObject *self, PyObject *words)
{
    if (is_busy((Calls *)self))
        return NULL;
    uint32_t node = 0;
    size_t most = SIZE_MAX;
    if (!is_counted(words, 3, "read_tree") || !uint32_of(word(words, 1), &node))
        return NULL;
    if (word(words, 2) != Py_None && !size_of(word(words, 2), &most))
        return NULL;
    PyObject *asked = PyTuple_GetSlice(words, 1, 2);
    PyObject *found = asked ? tree_of(self, word(words, 0), asked, node, most) : NULL;
    Py_XDECREF(asked);
    return found;
}

/* Puts the records of those notices of an observer that are left for later ahead of a list of its records. */
static bool left_put(PyObject *to, PyObject *left, PyObject *observer)
{
    for (Py_ssize_t at = PyList_Size(left); at-- > 0;) {
        PyObject *notice = PyList_GetItem(left, at);
        if (notice != Py_None && PyTuple_GetItem(notice, 0) == observer && PyList_SetSlice(to, 0, 0, PyTuple_GetItem(notice, 1)) < 0)
            return false;
    }
    return true;
}

/* Passes over the notices of an observer that are left for later, from now on. */
static void left_end(PyObject *left, PyObject *observer)
{
    for (Py_ssize_t at = 0; at < PyList_Size(left); at++) {
        PyObject *notice = PyList_GetItem(left, at);
        if (notice != Py_None && PyTuple_GetItem(notice, 0) == observer)
            PyList_SetItem(left, at, none());
    }
}

/* All records of an observer, which are taken once the list of them is there. */
static PyObject *records_answer(PyObject *observer, PyObject *left)
{
    Thing *it = (Thing *)observer;
    Taken *taken = is_answer_copied(it->calls) ? taken_out_of(it->calls, it->number) : NULL;
    PyObject *found = PyErr_Occurred() ? NULL : taken_made(taken, it->session, it->calls);
    if (found && left_put(found, left, observer)) {
        taken_end(it->calls, taken);
        left_end(left, observer);
        return found;
    }
    taken_back(it->calls, taken);
    Py_XDECREF(found);
    return NULL;
}

/* Takes the records of an observer, with those that are left for later in a list. */
static PyObject *calls_read_records(PyObject *self, PyObject *words)
{
    if (is_busy((Calls *)self))
        return NULL;
    if (!is_counted(words, 2, "read_records") || !has_no_left((Calls *)self, word(words, 1)))
        return NULL;
    PyObject *observer = word(words, 0);
    if (!PyObject_TypeCheck(observer, ((Calls *)self)->state->thing_type) || ((Thing *)observer)->calls != (Calls *)self)
        return is_not_due("MutationObserver", observer) ? none() : NULL;
    Taken *room = taken_room(number_of(observer));
    if (!room)
        return NULL;
    uint8_t status = hp_take_records(session_at(self), number_of(observer));
    if (status == HP_OK) {
        take_down((Calls *)self, room);
        return records_answer(observer, word(words, 1));
    }
    PyMem_Free(room);
    return refused_of(status, "take_records", observer, NULL, 0);
}

/* Raises where taking the observers that wait is refused. */
static bool is_pending_answered(uint8_t status, PyObject *self)
{
    PyObject *words = status ? PyTuple_New(0) : NULL;
    if (words)
        raised(status, "take_pending", self, words);
    Py_XDECREF(words);
    return status == HP_OK;
}

/* Adds the observers whose taken records nobody has yet, unless they are there. */
static void push_taken(Numbers *to, const Taken *taken)
{
    for (; taken; taken = taken->next) {
        size_t at = 0;
        while (at < to->length && to->at[at] != taken->observer)
            at++;
        if (at == to->length)
            to->at[to->length++] = taken->observer;
    }
}

static size_t count_taken(const Taken *it)
{
    size_t count = 0;
    for (; it; it = it->next)
        count++;
    return count;
}

/* Takes the observers that wait to be notified, behind those that an earlier call could not notify, once there is room for all of them. */
static bool is_pending_taken(Numbers *to, PyObject *self)
{
    hp_session *session = session_at(self);
    Calls *calls = (Calls *)self;
    Numbers *untold = &calls->untold;
    size_t count = 0;
    if (!is_pending_answered(hp_pending(session), self) || hp_count(session, &count))
        return false;
    if (!numbers_reserve(to, untold->length + count + count_taken(calls->taken)) || !is_pending_answered(hp_take_pending(session), self))
        return false;
    to->length = untold->length;
    for (size_t at = 0; at < untold->length; at++)
        to->at[at] = untold->at[at];
    numbers_drop(untold);
    *untold = (Numbers){ NULL, NULL, 0, 0 };
    hp_numbers_into(session, to->at + to->length, to->room - to->length, &count);
    to->length += count;
    push_taken(to, calls->taken);
    return true;
}

/* Notifies the observers of a session in turn. The first list takes the delivered notices, the second has the notices that an earlier call left.
 * Returns a list of the exceptions that were raised. */
static PyObject *calls_tell(PyObject *self, PyObject *words)
{
    Calls *calls = (Calls *)self;
    if (is_busy(calls))
        return NULL;
    if (!is_counted(words, 3, "tell") || !has_no_left(calls, word(words, 2)))
        return NULL;
    Numbers pending = { NULL, NULL, 0, 0 };
    Left *room = PyMem_Malloc(sizeof(Left));
    Turns turns = { word(words, 0), word(words, 1), PyList_New(0), PyList_New(0), calls, false };
    bool is_done = turns.kept && turns.faults && (room || PyErr_NoMemory()) && is_pending_taken(&pending, self);
    if (is_done) {
        tell_all(&turns, &pending);
        is_done = turns_end(&turns, word(words, 2), room);
    } else {
        PyMem_Free(room);
    }
    numbers_drop(&pending);
    Py_XDECREF(turns.kept);
    if (!is_done)
        Py_CLEAR(turns.faults);
    return turns.faults;
}

static PyObject *calls_is_open(PyObject *self, void *closure)
{
    (void)closure;
    return PyBool_FromLong(session_at(self)->is_open);
}

/* ---- members that a table does not say */

static PyObject *kind_name(PyObject *self, uint8_t kind)
{
    State *state = ((Thing *)self)->calls->state;
    PyObject **kind_names = state->kind_names;
    if (kind >= KINDS || kind_names[kind])
        return kind < KINDS ? same(kind_names[kind]) : none();
    PyObject *found = PyObject_CallFunctionObjArgs(state->name_hook, self, NULL);
    if (found && !kind_names[kind])
        kind_names[kind] = same(found);
    return found;
}

/* Returns the cached first part of a name, or null. It never changes, so the cache is valid as long as no node may have been freed. */
static PyObject *known_name(PyObject *self)
{
    Thing *it = (Thing *)self;
    return it->name && it->epoch == it->calls->epoch ? same(it->name) : NULL;
}

static void know_name(PyObject *self, PyObject *name)
{
    Thing *it = (Thing *)self;
    Py_XDECREF(it->name);
    it->name = same(name);
    it->epoch = it->calls->epoch;
}

static PyObject *part_of_name(PyObject *self, const char *call, uint8_t part, bool is_any)
{
    hp_bytes name;
    hp_node_links links;
    PyObject *found = part ? NULL : known_name(self);
    if (found)
        return found;
    uint8_t status = hp_name_of(session_of(self), number_of(self), part, &name);
    found = status ? NULL : name_from(name.bytes, name.length);
    if (found && !part)
        know_name(self, found);
    if (!status)
        return found;
    if (status != HP_NOT_THERE || !is_any || hp_links(session_of(self), number_of(self), &links) != HP_OK)
        return refused_of(status, call, self, NULL, 0);
    return kind_name(self, links.kind);
}

static PyObject *node_node_name(PyObject *self, PyObject *nothing)
{
    (void)nothing;
    if (is_busy(((Thing *)self)->calls))
        return NULL;
    return part_of_name(self, "node", 0, true);
}

static PyObject *node_first_name(PyObject *self, PyObject *nothing)
{
    (void)nothing;
    if (is_busy(((Thing *)self)->calls))
        return NULL;
    return part_of_name(self, "node", 0, false);
}

static PyObject *node_public_id(PyObject *self, PyObject *nothing)
{
    (void)nothing;
    if (is_busy(((Thing *)self)->calls))
        return NULL;
    return part_of_name(self, "node", 1, false);
}

static PyObject *node_system_id(PyObject *self, PyObject *nothing)
{
    (void)nothing;
    if (is_busy(((Thing *)self)->calls))
        return NULL;
    return part_of_name(self, "node", 2, false);
}

static PyObject *node_owner_document(PyObject *self, PyObject *nothing)
{
    (void)nothing;
    if (is_busy(((Thing *)self)->calls))
        return NULL;
    hp_node_links links;
    uint8_t status = hp_links(session_of(self), number_of(self), &links);
    if (status)
        return refused_of(status, "links", self, NULL, 0);
    return links.document == number_of(self) ? none() : made_at(self, KIND_DOCUMENT, FAMILY_NODE, links.document);
}

/* Whether a node has a child: the number of the first, and its links. Parsers and copies number nodes in tree order, so it is most often the next
 * number; to look at that first touches less memory. */
static bool has_first_child(hp_session *session, uint32_t node, uint32_t *child, hp_node_links *links)
{
    *child = node + 1;
    if (hp_links(session, *child, links) == HP_OK && links->parent == node && links->previous == HP_NONE)
        return true;
    return hp_first_child(session, node, child) == HP_OK && *child != HP_NONE && hp_links(session, *child, links) == HP_OK;
}

/* Whether a node has one child, which is a Text: its data is lent. */
static __attribute__((noinline)) bool is_one_text_asked(hp_session *session, uint32_t node, hp_text_view *to)
{
    uint32_t child = HP_NONE;
    hp_node_links links;
    return has_first_child(session, node, &child, &links) && links.kind == KIND_TEXT && links.next == HP_NONE && hp_data_of(session, child, to) == HP_OK;
}

/* The same: the tree that was gone through last answers if it has the node. The nodes of a parser or a copy are numbered in tree order, so that the
 * place of one is most often told by its number. */
static inline bool is_one_text(Calls *calls, uint32_t node, hp_text_view *to)
{
    const Order *order = &calls->order;
    const uint32_t at = node - order->first;
    if (at < order->length && order->at[at].has_one_text)
        return status_read((hp_data_of)(&calls->session, node + 1, to)) == HP_OK;
    return is_one_text_asked(&calls->session, node, to);
}

/* The text in a node. Fast path: a node with one child that is a Text, other than a Document, which has none. */
static PyObject *node_text_content(PyObject *self, PyObject *nothing)
{
    (void)nothing;
    if (is_busy(((Thing *)self)->calls))
        return NULL;
    hp_text_view view;
    if (is_one_text(((Thing *)self)->calls, number_of(self), &view))
        return text_from(view.units, view.length);
    uint8_t status = hp_text_content(session_of(self), number_of(self));
    return status ? refused_of(status, "text_content", self, NULL, 0) : text_answer(session_of(self));
}

/* Checks whether a number is that of a Text. If so, it returns the borrowed data, and the node behind it. */
static bool is_text(hp_session *session, uint32_t node, hp_text_view *to, uint32_t *next)
{
    hp_node_links links;
    if (node == HP_NONE || hp_links(session, node, &links) != HP_OK || links.kind != KIND_TEXT)
        return false;
    *next = links.next;
    return hp_data_of(session, node, to) == HP_OK;
}

/* The data of the Texts from a node on, up to one of another kind; None if there are none. */
static PyObject *texts_from(hp_session *session, uint32_t first)
{
    size_t length = 0, at = 0;
    uint32_t node = first, next = HP_NONE;
    hp_text_view view;
    for (; is_text(session, node, &view, &next); node = next)
        length += view.length;
    if (node == first)
        return none();
    uint16_t *units = PyMem_Malloc(2 * length + 2);
    if (!units)
        return PyErr_NoMemory();
    for (node = first; is_text(session, node, &view, &next); node = next) {
        if (view.length)
            memcpy(units + at, view.units, 2 * view.length);
        at += view.length;
    }
    PyObject *found = text_from(units, length);
    PyMem_Free(units);
    return found;
}

/* The data of the Texts that a node begins with. */
static __attribute__((noinline)) PyObject *first_texts(PyObject *self)
{
    uint32_t child = HP_NONE;
    uint8_t status = hp_first_child(session_of(self), number_of(self), &child);
    return status ? refused_of(status, "first_child", self, NULL, 0) : texts_from(session_of(self), child);
}

static PyObject *node_text(PyObject *self, PyObject *nothing)
{
    (void)nothing;
    if (is_busy(((Thing *)self)->calls))
        return NULL;
    hp_text_view view;
    bool is_one = is_one_text(((Thing *)self)->calls, number_of(self), &view);
    return is_one ? text_here(view.units, view.length) : first_texts(self);
}

static PyObject *node_tail(PyObject *self, PyObject *nothing)
{
    (void)nothing;
    if (is_busy(((Thing *)self)->calls))
        return NULL;
    hp_node_links links;
    uint8_t status = hp_links(session_of(self), number_of(self), &links);
    return status ? refused_of(status, "links", self, NULL, 0) : texts_from(session_of(self), links.next);
}

static PyObject *node_has_child_nodes(PyObject *self, PyObject *nothing)
{
    (void)nothing;
    if (is_busy(((Thing *)self)->calls))
        return NULL;
    uint32_t child = HP_NONE;
    uint8_t status = hp_first_child(session_of(self), number_of(self), &child);
    return status ? refused_of(status, "first_child", self, NULL, 0) : PyBool_FromLong(child != HP_NONE);
}

static PyObject *node_tree(PyObject *self, PyObject *nothing)
{
    (void)nothing;
    if (is_busy(((Thing *)self)->calls))
        return NULL;
    Thing *it = (Thing *)self;
    PyObject *words = Py_BuildValue("(O)", self);
    PyObject *found = words ? tree_of((PyObject *)it->calls, it->session, words, it->number, SIZE_MAX) : NULL;
    Py_XDECREF(words);
    return found;
}

#endif
