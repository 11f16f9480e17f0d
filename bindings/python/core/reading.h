/* Many nodes by one call: those around a node, and what they have. */
#ifndef HUCKLEPORT_READING_H
#define HUCKLEPORT_READING_H

#include "course.h"
#include "members.h"

/* ---- nodes with their kinds, whose objects are made once all are found */

typedef struct {
    Spot *at;
    size_t length, room;
} Spots;

/* From how many objects on the collector stops while they are made. */
enum { MANY = 64 };

static bool spots_push(Spots *it, uint32_t number, uint8_t kind)
{
    if (it->length == it->room) {
        size_t room = it->room ? 2 * it->room : 32;
        Spot *wider = PyMem_Realloc(it->at, room * sizeof(Spot));
        if (!wider)
            return PyErr_NoMemory() != NULL;
        it->at = wider;
        it->room = room;
    }
    it->at[it->length++] = (Spot){ number, kind };
    return true;
}

/* The nodes as a list; the spots go. */
static PyObject *spots_made(Spots *it, bool is_whole, PyObject *session, Calls *calls)
{
    bool was_on = it->length >= MANY && pause_collector(calls->state);
    calls->making++;
    PyObject *found = is_whole ? PyList_New((Py_ssize_t)it->length) : NULL;
    for (size_t at = 0; found && at < it->length; at++) {
        PyObject *node = made(session, calls, kind_of(calls, it->at[at].kind), FAMILY_NODE, it->at[at].number);
        if (!node)
            Py_CLEAR(found);
        else
            PyList_SetItem(found, (Py_ssize_t)at, node);
    }
    calls->making--;
    resume_collector(calls->state, was_on);
    PyMem_Free(it->at);
    return found;
}

/* ---- an iterator over nodes, which makes the object of each when it comes to it */

typedef struct {
    PyObject_HEAD
    PyObject *session;
    Calls *calls;
    Waiting waiting;
} Walk;

/* Makes an iterator over the found nodes, which owns the spots from now on. */
static PyObject *walk_over(Spots *found, bool is_whole, PyObject *session, Calls *calls)
{
    Walk *it = is_whole ? (Walk *)PyType_GenericAlloc(calls->state->walk_type, 0) : NULL;
    if (!it) {
        PyMem_Free(found->at);
        return NULL;
    }
    Py_INCREF(session);
    Py_INCREF((PyObject *)calls);
    it->session = session;
    it->calls = calls;
    it->waiting = (Waiting){ found->at, 0, found->length, NULL, 0, NULL, NULL };
    waiting_begin(calls, &it->waiting);
    return (PyObject *)it;
}

static PyObject *walk_next(PyObject *self)
{
    Walk *it = (Walk *)self;
    if (it->waiting.from == it->waiting.length) {
        if (it->waiting.at)
            waiting_end(it->calls, &it->waiting);
        return NULL;
    }
    const Spot *spot = &it->waiting.at[it->waiting.from];
    PyObject *found = made(it->session, it->calls, kind_of(it->calls, spot->kind), FAMILY_NODE, spot->number);
    it->waiting.from += found != NULL;
    return found;
}

static int walk_traverse(PyObject *self, visitproc visit, void *arg)
{
    Py_VISIT(((Walk *)self)->session);
    return 0;
}

static void walk_dealloc(PyObject *self)
{
    PyTypeObject *type = Py_TYPE(self);
    Walk *it = (Walk *)self;
    PyObject_GC_UnTrack(self);
    if (it->calls)
        waiting_end(it->calls, &it->waiting);
    Py_XDECREF(it->session);
    Py_XDECREF((PyObject *)it->calls);
    PyObject_GC_Del(self);
    Py_DECREF(type);
}

static PyType_Slot walk_slots[] = {
    { Py_tp_doc, "Goes through nodes as they stood when it was made." },
    { Py_tp_iter, PyObject_SelfIter },
    { Py_tp_iternext, walk_next },
    { Py_tp_traverse, walk_traverse },
    { Py_tp_dealloc, walk_dealloc },
    { 0, NULL },
};

static PyType_Spec walk_spec = { "huckleport._core.Walk", sizeof(Walk), 0, Py_TPFLAGS_DEFAULT | Py_TPFLAGS_HAVE_GC, walk_slots };

/* Kinds as bits, and those of no or of each kind. */
typedef uint32_t KindBits;
static const KindBits ALL_KINDS = UINT32_MAX;

static bool has_kind(KindBits bits, uint8_t kind)
{
    return bits >> kind & 1;
}

/* The kinds of nodes whose class is a class or below it. */
static bool kinds_below(const State *state, PyObject *class, KindBits *to)
{
    *to = ALL_KINDS;
    if (!class || class == Py_None)
        return true;
    *to = 0;
    for (int kind = KIND_ELEMENT; kind <= KIND_DOCUMENT_FRAGMENT; kind++) {
        int is_below = state->kinds[kind] ? PyObject_IsSubclass(state->kinds[kind], class) : 0;
        if (is_below < 0)
            return false;
        *to |= (KindBits)is_below << kind;
    }
    return true;
}

typedef enum { NEXT, PREVIOUS } Direction;

/* A node and its siblings behind it, or before it. */
static bool row_of_siblings(Spots *to, Calls *calls, uint32_t at, Direction direction, KindBits bits)
{
    hp_node_links links;
    bool done = true;
    while (done && at != HP_NONE && hp_links(&calls->session, at, &links) == HP_OK) {
        done = !has_kind(bits, links.kind) || spots_push(to, at, links.kind);
        at = direction == NEXT ? links.next : links.previous;
    }
    return done;
}

/* All nodes of some kinds below one, in tree order. */
static bool all_below(Spots *to, Calls *calls, uint32_t root, KindBits bits)
{
    const Order *order = order_below(calls, root);
    bool done = order != NULL;
    for (size_t at = 1; done && at < order->length; at++)
        done = !has_kind(bits, order->at[at].kind) || spots_push(to, order->at[at].number, order->at[at].kind);
    return done;
}

/* Raises where a node is no more. */
static bool is_node_there(PyObject *self, const char *call)
{
    hp_node_links links;
    uint8_t status = hp_links(session_of(self), number_of(self), &links);
    if (status)
        refused_of(status, call, self, NULL, 0);
    return status == HP_OK;
}

/* A function that makes a list or an iterator of the found nodes. */
typedef PyObject *Make(Spots *found, bool is_whole, PyObject *session, Calls *calls);

static PyObject *children_of(PyObject *self, KindBits bits, Make *make)
{
    Thing *it = (Thing *)self;
    Spots found = { NULL, 0, 0 };
    uint32_t child = HP_NONE;
    uint8_t status = hp_first_child(session_of(self), it->number, &child);
    if (status)
        return refused_of(status, "children", self, NULL, 0);
    bool is_whole = row_of_siblings(&found, it->calls, child, NEXT, bits);
    return make(&found, is_whole, it->session, it->calls);
}

static PyObject *node_child_nodes(PyObject *self, PyObject *nothing)
{
    (void)nothing;
    if (is_busy(((Thing *)self)->calls))
        return NULL;
    return children_of(self, ALL_KINDS, spots_made);
}

static PyObject *node_children(PyObject *self, PyObject *nothing)
{
    (void)nothing;
    if (is_busy(((Thing *)self)->calls))
        return NULL;
    return children_of(self, (KindBits)1 << KIND_ELEMENT, spots_made);
}

static PyObject *node_iter(PyObject *self, PyObject *nothing)
{
    (void)nothing;
    if (is_busy(((Thing *)self)->calls))
        return NULL;
    return children_of(self, ALL_KINDS, walk_over);
}

static PyObject *siblings(PyObject *self, Direction direction)
{
    Thing *it = (Thing *)self;
    Spots found = { NULL, 0, 0 };
    hp_node_links links;
    uint8_t status = hp_links(session_of(self), it->number, &links);
    if (status)
        return refused_of(status, "links", self, NULL, 0);
    bool is_whole = row_of_siblings(&found, it->calls, direction == NEXT ? links.next : links.previous, direction, ALL_KINDS);
    return walk_over(&found, is_whole, it->session, it->calls);
}

static PyObject *node_next_siblings(PyObject *self, PyObject *nothing)
{
    (void)nothing;
    if (is_busy(((Thing *)self)->calls))
        return NULL;
    return siblings(self, NEXT);
}

static PyObject *node_previous_siblings(PyObject *self, PyObject *nothing)
{
    (void)nothing;
    if (is_busy(((Thing *)self)->calls))
        return NULL;
    return siblings(self, PREVIOUS);
}

static PyObject *node_descendants(PyObject *self, PyObject *words, PyObject *named)
{
    if (is_busy(((Thing *)self)->calls))
        return NULL;
    static const char *const names[] = { "kind", NULL };
    PyObject *given[1];
    Thing *it = (Thing *)self;
    Spots found = { NULL, 0, 0 };
    KindBits bits = 0;
    if (!sort(words, named, names, 0, given, "descendants") || !kinds_below(it->calls->state, given[0], &bits) || !is_node_there(self, "tree"))
        return NULL;
    bool is_whole = all_below(&found, it->calls, it->number, bits);
    return walk_over(&found, is_whole, it->session, it->calls);
}

/* ---- what elements have, among those below a node */

/* Whether an element's name is one. */
static bool is_named(Calls *calls, uint32_t node, const Slice *name)
{
    hp_bytes found;
    unsigned label = label_place(&calls->labels, node);
    return element_name(calls, node, &label, &found) && found.length == name->length && memcmp(found.bytes, name->at, name->length) == 0;
}

/* Whether the value of an attribute of an element is one. */
static bool is_valued(hp_session *session, uint32_t node, const Slice *name, const Slice *value)
{
    hp_text_view found;
    uint8_t status = hp_get_attribute(session, node, name->at, name->length);
    status = status == HP_OUT_OF_MEMORY ? attribute_lent(session, node, name, &found) : status ? status : hp_text(session, &found);
    return status == HP_OK && found.length == value->length && (!found.length || memcmp(found.units, value->at, 2 * found.length) == 0);
}

/* Keeps of elements those of a name, or the first with a value of an attribute. */
static void sift(Spots *it, Calls *calls, const Slice *name, const Slice *value)
{
    size_t kept = 0;
    for (size_t at = 0; at < it->length && !(value && kept); at++) {
        uint32_t node = it->at[at].number;
        if (value ? is_valued(&calls->session, node, name, value) : is_named(calls, node, name))
            it->at[kept++] = it->at[at];
    }
    it->length = kept;
}

/* The elements below a node, of a name or with a value of an attribute. */
static PyObject *elements_found(PyObject *self, const Slice *name, const Slice *value)
{
    Thing *it = (Thing *)self;
    Spots found = { NULL, 0, 0 };
    if (!is_node_there(self, "tree"))
        return NULL;
    bool is_whole = all_below(&found, it->calls, it->number, (KindBits)1 << KIND_ELEMENT), is_any = name->length == 1 && *(const char *)name->at == '*';
    if (is_whole && (value || !is_any))
        sift(&found, it->calls, name, value);
    return spots_made(&found, is_whole, it->session, it->calls);
}

static PyObject *node_elements_by_tag_name(PyObject *self, PyObject *words, PyObject *named)
{
    if (is_busy(((Thing *)self)->calls))
        return NULL;
    static const char *const names[] = { "name", NULL };
    PyObject *given[1], *found = NULL;
    Slice name;
    begin(&name);
    if (sort(words, named, names, 1, given, "get_elements_by_tag_name") && name_of(given[0], &name))
        found = elements_found(self, &name, NULL);
    drop(&name);
    return found;
}

static PyObject *node_element_by_id(PyObject *self, PyObject *words, PyObject *named)
{
    if (is_busy(((Thing *)self)->calls))
        return NULL;
    static const char *const names[] = { "id", NULL };
    PyObject *given[1], *list = NULL, *found = NULL;
    Slice name = { "id", NULL, 2, { 0 } }, value;
    begin(&value);
    if (sort(words, named, names, 1, given, "get_element_by_id") && text_of(given[0], &value))
        list = elements_found(self, &name, &value);
    drop(&value);
    if (list)
        found = PyList_Size(list) ? same(PyList_GetItem(list, 0)) : none();
    Py_XDECREF(list);
    return found;
}

/* ---- what many nodes have */

typedef PyObject *ReadOne(PyObject *self, PyObject *node, const void *how);

/* What a function reads of each node of a sequence, as a list. */
static PyObject *read_each(PyObject *self, PyObject *nodes, ReadOne *read, const void *how)
{
    PyObject *given = PySequence_List(nodes);
    Py_ssize_t count = given ? PyList_Size(given) : 0;
    PyObject *found = given ? PyList_New(count) : NULL;
    for (Py_ssize_t at = 0; found && at < count; at++) {
        PyObject *it = read(self, PyList_GetItem(given, at), how);
        if (!it)
            Py_CLEAR(found);
        else
            PyList_SetItem(found, at, it);
    }
    Py_XDECREF(given);
    return found;
}

/* The number of a node of this session. */
static bool own_node_of(PyObject *self, PyObject *node, uint32_t *to)
{
    Thing *it = (Thing *)node;
    if (!PyObject_TypeCheck(node, ((Calls *)self)->state->thing_type) || it->family != FAMILY_NODE)
        return is_not_due("Node", node);
    if (it->calls != (Calls *)self)
        return is_of_another("Node");
    *to = it->number;
    return true;
}

typedef uint8_t Ask(hp_session *, uint32_t);

typedef struct {
    Ask *ask;
    const char *call;
} Question;

static PyObject *read_answer(PyObject *self, PyObject *node, const void *how)
{
    const Question *it = how;
    uint32_t number = 0;
    if (!own_node_of(self, node, &number))
        return NULL;
    uint8_t status = it->ask(session_at(self), number);
    return status ? refused_of(status, it->call, node, NULL, 0) : text_answer(session_at(self));
}

static PyObject *read_text_content(PyObject *self, PyObject *node, const void *how)
{
    uint32_t number = 0;
    hp_text_view view;
    if (!own_node_of(self, node, &number))
        return NULL;
    return is_one_text((Calls *)self, number, &view) ? text_from(view.units, view.length) : read_answer(self, node, how);
}

static PyObject *read_data(PyObject *self, PyObject *node, const void *how)
{
    (void)how;
    uint32_t number = 0;
    hp_text_view data;
    if (!own_node_of(self, node, &number))
        return NULL;
    uint8_t status = hp_data_of(session_at(self), number, &data);
    if (status)
        return refused_of(status == HP_NOT_THERE ? HP_TYPE_ERROR : status, "data", node, NULL, 0);
    return text_from(data.units, data.length);
}

static PyObject *calls_read_data_of(PyObject *self, PyObject *nodes)
{
    if (is_busy((Calls *)self))
        return NULL;
    return read_each(self, nodes, read_data, NULL);
}

static PyObject *calls_read_text_content_of(PyObject *self, PyObject *nodes)
{
    if (is_busy((Calls *)self))
        return NULL;
    const Question how = { hp_text_content, "text_content" };
    return read_each(self, nodes, read_text_content, &how);
}

static PyObject *read_attribute(PyObject *self, PyObject *node, const void *how)
{
    const Slice *name = how;
    uint32_t number = 0;
    if (!own_node_of(self, node, &number))
        return NULL;
    uint8_t status = hp_get_attribute(session_at(self), number, name->at, name->length);
    if (status == HP_OUT_OF_MEMORY)
        return attribute_held((Calls *)self, number, name);
    return status ? refused_of(status, "get_attribute", node, NULL, 0) : text_answer(session_at(self));
}

static PyObject *calls_read_attribute_of(PyObject *self, PyObject *words)
{
    if (is_busy((Calls *)self))
        return NULL;
    Slice name;
    PyObject *found = NULL;
    begin(&name);
    if (is_counted(words, 2, "read_attribute_of") && name_of(word(words, 1), &name))
        found = read_each(self, word(words, 0), read_attribute, &name);
    drop(&name);
    return found;
}

/* Puts the value of an attribute into a dict. */
static bool put_value(PyObject *to, PyObject *self, PyObject *node, PyObject *key)
{
    Slice name;
    PyObject *value = name_of(key, &name) ? read_attribute(self, node, &name) : NULL;
    bool done = value && PyDict_SetItem(to, key, value) == 0;
    drop(&name);
    Py_XDECREF(value);
    return done;
}

static PyObject *read_attributes(PyObject *self, PyObject *node, const void *how)
{
    (void)how;
    uint32_t number = 0;
    if (!own_node_of(self, node, &number))
        return NULL;
    uint8_t status = hp_attribute_names(session_at(self), number);
    PyObject *names = status ? refused_of(status, "attribute_names", node, NULL, 0) : names_answer(session_at(self));
    PyObject *found = names ? PyDict_New() : NULL;
    for (Py_ssize_t at = 0; found && at < PyList_Size(names); at++) {
        if (!put_value(found, self, node, PyList_GetItem(names, at)))
            Py_CLEAR(found);
    }
    Py_XDECREF(names);
    return found;
}

static PyObject *calls_read_attributes_of(PyObject *self, PyObject *nodes)
{
    if (is_busy((Calls *)self))
        return NULL;
    return read_each(self, nodes, read_attributes, NULL);
}

/* ---- in which order elements have their attributes */

/* The names of the attributes of a row, or none where there are fewer than two. */
static PyObject *order_of(hp_session *session, size_t at, const hp_row *row)
{
    PyObject *found = PyList_New((Py_ssize_t)row->attributes);
    for (size_t pair = 0; found && pair < row->attributes; pair++) {
        hp_bytes name;
        PyObject *it = hp_row_attribute_name(session, at, pair, &name) ? NULL : name_from(name.bytes, name.length);
        if (!it)
            Py_CLEAR(found);
        else
            PyList_SetItem(found, (Py_ssize_t)pair, it);
    }
    return found;
}

static bool put_order(PyObject *to, hp_session *session, size_t at)
{
    hp_row row;
    if (hp_row_at(session, at, &row) || row.type != KIND_ELEMENT)
        return true;
    PyObject *key = PyLong_FromUnsignedLong(row.node), *order = row.attributes > 1 ? order_of(session, at, &row) : NULL;
    bool done = key && !PyErr_Occurred();
    if (done && order)
        done = PyDict_SetItem(to, key, order) == 0;
    else if (done && PyDict_GetItem(to, key))
        done = PyDict_DelItem(to, key) == 0;
    Py_XDECREF(key);
    Py_XDECREF(order);
    return done;
}

/* (While the collector stops nothing of Python runs, so the answer stays until all of it is read.) */
static PyObject *calls_read_orders(PyObject *self, PyObject *words)
{
    if (is_busy((Calls *)self))
        return NULL;
    uint32_t node = 0;
    size_t count = 0;
    State *state = ((Calls *)self)->state;
    if (!is_counted(words, 2, "read_orders") || !uint32_of(word(words, 0), &node))
        return NULL;
    bool was_on = pause_collector(state), done = true;
    uint8_t status = hp_tree(session_at(self), node);
    if (status == HP_OK)
        hp_count(session_at(self), &count);
    for (size_t at = 0; done && at < count; at++)
        done = put_order(word(words, 1), session_at(self), at);
    resume_collector(state, was_on);
    if (!done)
        return NULL;
    PyObject *asked = status ? PyTuple_GetSlice(words, 0, 1) : NULL;
    if (asked)
        raised(status, "tree", self, asked);
    Py_XDECREF(asked);
    return status ? NULL : none();
}

#endif
