/* What a session tells by numbers, as Python's objects. */
#ifndef HUCKLEPORT_OBJECTS_H
#define HUCKLEPORT_OBJECTS_H

#include "leaving.h"
#include "texts.h"

/* ---- the state of an interpreter */

#define STATE_NAME "huckleport._core.state"

static State *state_held(State *it)
{
    it->holders++;
    return it;
}

static void state_let_go(State *it)
{
    if (--it->holders)
        return;
    Py_XDECREF((PyObject *)it->calls_type);
    Py_XDECREF((PyObject *)it->thing_type);
    Py_XDECREF((PyObject *)it->builder_type);
    Py_XDECREF((PyObject *)it->walk_type);
    Py_XDECREF((PyObject *)it->quick_type);
    for (int at = 0; at < STRUCTS; at++)
        Py_XDECREF((PyObject *)it->structs[at]);
    for (int at = 0; at < KINDS; at++) {
        Py_XDECREF(it->kinds[at]);
        Py_XDECREF(it->kind_names[at]);
    }
    PyObject *const others[] = { it->refuse_hook, it->name_hook, it->gc_is_enabled, it->gc_disable, it->gc_enable };
    for (size_t at = 0; at < sizeof(others) / sizeof(*others); at++)
        Py_XDECREF(others[at]);
    PyMem_Free(it);
}

/* Where types find the state: they do not hold it, and there is none once the module has gone. */
typedef struct {
    size_t holders;
    State *state;
} Cell;

static void cell_let_go(Cell *it)
{
    if (--it->holders == 0)
        PyMem_Free(it);
}

/* The state that a type was made with. */
static State *state_of_type(PyTypeObject *type)
{
    PyObject *found = PyObject_GetAttrString((PyObject *)type, "_state");
    Cell *cell = found ? PyCapsule_GetPointer(found, STATE_NAME) : NULL;
    State *state = cell ? cell->state : NULL;
    if (cell && !state)
        PyErr_SetString(PyExc_RuntimeError, "the module huckleport._core has ended");
    Py_XDECREF(found);
    return state;
}

/* ---- refusals */

/* What a session that has ended tells in place of a call, or null. */
static PyObject *held_answer(Calls *calls, const char *call, PyObject *words);

/* Raises what a status says of a call with these words. */
static PyObject *raised(uint8_t status, const char *call, PyObject *calls, PyObject *words)
{
    ((Calls *)calls)->epoch += status == HP_OUT_OF_MEMORY;
    PyObject *hook = ((Calls *)calls)->state->refuse_hook;
    PyObject *fault = hook ? PyObject_CallFunction(hook, "isOO", (int)status, call, calls, words) : NULL;
    if (fault)
        PyErr_SetObject((PyObject *)Py_TYPE(fault), fault);
    else if (!PyErr_Occurred())
        PyErr_Format(PyExc_RuntimeError, "%s: %d", call, (int)status);
    Py_XDECREF(fault);
    return NULL;
}

/* Raises the error of a refused call. If it was out of memory, but its answer can be read without memory, returns that answer. */
static PyObject *refused(uint8_t status, const char *call, PyObject *calls, PyObject *words)
{
    PyObject *held = status == HP_OUT_OF_MEMORY ? held_answer((Calls *)calls, call, words) : NULL;
    return held || PyErr_Occurred() ? held : raised(status, call, calls, words);
}

/* The same for a member: the words are its object and what it was given. */
static PyObject *refused_of(uint8_t status, const char *call, PyObject *self, PyObject **given, int count)
{
    PyObject *words = PyTuple_New(1 + count);
    if (!words)
        return NULL;
    Py_INCREF(self);
    PyTuple_SetItem(words, 0, self);
    for (int at = 0; at < count; at++) {
        PyObject *it = given[at] ? given[at] : Py_None;
        Py_INCREF(it);
        PyTuple_SetItem(words, 1 + at, it);
    }
    PyObject *found = refused(status, call, (PyObject *)((Thing *)self)->calls, words);
    Py_DECREF(words);
    return found;
}

/* ---- sessions */

static hp_session *session_at(PyObject *calls)
{
    return &((Calls *)calls)->session;
}

/* Copies the last answer of the library if that is still to be done; or raises. */
static bool is_answer_copied(Calls *calls);

/* Frees the records and the notices that the session has for later. */
static void drop_taken(Calls *calls);

/* Copies an answer that waits for room. If that fails, or another thread is in a long call, it raises and returns true. */
static __attribute__((noinline)) bool is_made_to_wait(Calls *it)
{
    if (it->busy == HAS_ANSWER)
        return !is_answer_copied(it);
    raise_ours("SessionInUse", PyUnicode_FromString("another thread is in a long call of this session"));
    return true;
}

/* Checks whether a call can't be made, and raises why. (While it is raised a long call of another thread may end.) */
static inline bool is_busy(Calls *it)
{
    return it->busy != FREE && is_made_to_wait(it);
}

/* Checks whether the call that closes the session can't be made, and raises why. Frees the records and notices for later, unless a long call runs. */
static bool is_busy_closing(Calls *it)
{
    if (it->busy != IN_LONG_CALL)
        drop_taken(it);
    return is_busy(it);
}

/* Lets other threads run while the library does what may take long. Its memory is malloc's, which asks for no lock of Python. */
static PyThreadState *begin_long(Calls *it)
{
    it->busy = IN_LONG_CALL;
    return PyEval_SaveThread();
}

static void end_long(Calls *it, PyThreadState *thread)
{
    PyEval_RestoreThread(thread);
    it->busy = FREE;
}

static PyObject *calls_new(PyTypeObject *type, PyObject *words, PyObject *named)
{
    (void)words;
    (void)named;
    State *state = state_of_type(type);
    PyObject *found = state ? PyType_GenericAlloc(type, 0) : NULL;
    if (found) {
        ((Calls *)found)->state = state_held(state);
        ((Calls *)found)->copied = HP_NONE;
    }
    return found;
}

static void calls_dealloc(PyObject *self)
{
    PyTypeObject *type = Py_TYPE(self);
    Calls *it = (Calls *)self;
    memory_own();
    hp_close(&it->session);
    memory_release();
    drop_taken(it);
    table_drop(&it->kept);
    labels_drop(&it->labels);
    order_drop(&it->order);
    numbers_drop(&it->untold);
    leaving_end(it);
    if (it->state)
        state_let_go(it->state);
    PyObject_Free(self);
    Py_DECREF(type);
}

/* ---- objects */

static hp_session *session_of(PyObject *thing)
{
    return &((Thing *)thing)->calls->session;
}

static uint32_t number_of(PyObject *thing)
{
    return ((Thing *)thing)->number;
}

static int thing_traverse(PyObject *self, visitproc visit, void *arg)
{
    Py_VISIT(((Thing *)self)->session);
    return 0;
}

static void thing_dealloc(PyObject *self)
{
    PyTypeObject *type = Py_TYPE(self);
    Thing *it = (Thing *)self;
    PyObject_GC_UnTrack(self);
    if (it->is_kept)
        table_take(&it->calls->kept, it->number, it->family, self);
    if (it->is_kept && it->is_own && it->calls->session.is_open)
        note(it->calls, it->family, it->number);
    Py_XDECREF(it->session);
    Py_XDECREF((PyObject *)it->calls);
    Py_XDECREF(it->name);
    PyObject_GC_Del(self);
    Py_DECREF(type);
}

static void settle(Thing *it, PyObject *session, Calls *calls, uint32_t number, uint8_t family)
{
    Py_INCREF(session);
    Py_INCREF((PyObject *)calls);
    it->session = session;
    it->calls = calls;
    it->number = number;
    it->family = family;
}

static bool family_of(PyObject *kind, uint8_t *to)
{
    PyObject *found = PyObject_GetAttrString(kind, "_family");
    bool fits = found && uint8_of(found, to);
    Py_XDECREF(found);
    return fits;
}

/* The session and the number come first; what a class takes beside is its own. The object is not kept. */
static PyObject *thing_new(PyTypeObject *type, PyObject *words, PyObject *named)
{
    (void)named;
    uint32_t number = 0;
    uint8_t family = FAMILY_OBSERVER;
    if (PyTuple_Size(words) < 2) {
        PyErr_SetString(PyExc_TypeError, "expected a session and a number");
        return NULL;
    }
    PyObject *session = PyTuple_GetItem(words, 0);
    if (!uint32_of(PyTuple_GetItem(words, 1), &number) || !family_of((PyObject *)type, &family))
        return NULL;
    PyObject *calls = PyObject_GetAttrString(session, "_calls"), *found = NULL;
    State *state = calls ? state_of_type(type) : NULL;
    if (state && !PyObject_TypeCheck(calls, state->calls_type))
        is_not_due("Session", session);
    else if (state)
        found = PyType_GenericAlloc(type, 0);
    if (found)
        settle((Thing *)found, session, (Calls *)calls, number, family);
    Py_XDECREF(calls);
    return found;
}

static int thing_init(PyObject *self, PyObject *words, PyObject *named)
{
    (void)self;
    (void)words;
    (void)named;
    return 0;
}

static PyObject *thing_number(PyObject *self, void *closure)
{
    (void)closure;
    return PyLong_FromUnsignedLong(((Thing *)self)->number);
}

/* The object of a number: the one that lives, or a new one. Making it may run the collector, and so any other code. */
static PyObject *made(PyObject *session, Calls *calls, PyObject *kind, uint8_t family, uint32_t number)
{
    PyObject *found = table_find(&calls->kept, number, family);
    if (found)
        return found;
    calls->making++;
    Thing *it = (Thing *)PyType_GenericAlloc((PyTypeObject *)kind, 0);
    calls->making--;
    if (!it)
        return NULL;
    settle(it, session, calls, number, family);
    if (family != FAMILY_OBSERVER || PyObject_SetAttrString((PyObject *)it, "callback", Py_None) == 0)
        found = table_put(&calls->kept, number, family, (PyObject *)it);
    it->is_kept = found == (PyObject *)it;
    Py_DECREF((PyObject *)it);
    return found;
}

/* An object whose end is to be noted. */
static PyObject *own(PyObject *it)
{
    if (it)
        ((Thing *)it)->is_own = true;
    return it;
}

/* The class of a kind that the library tells. */
static PyObject *kind_of(const Calls *calls, unsigned kind)
{
    PyObject *const *kinds = calls->state->kinds;
    return kind < KINDS && kinds[kind] ? kinds[kind] : kinds[KIND_NODE];
}

/* The node of a number. Where it is not known the library is asked for its kind, and one that is no more is a Node and nothing else. */
static PyObject *node_from(PyObject *session, Calls *calls, uint32_t number)
{
    PyObject *found = table_find(&calls->kept, number, FAMILY_NODE);
    hp_node_links links;
    if (found)
        return found;
    bool is_there = hp_links(&calls->session, number, &links) == HP_OK;
    return made(session, calls, kind_of(calls, is_there ? links.kind : KIND_NODE), FAMILY_NODE, number);
}

static PyObject *none(void)
{
    Py_INCREF(Py_None);
    return Py_None;
}

static PyObject *node_at(PyObject *self, uint32_t number)
{
    return node_from(((Thing *)self)->session, ((Thing *)self)->calls, number);
}

static PyObject *node_or_none_at(PyObject *self, uint32_t number)
{
    return number == HP_NONE ? none() : node_at(self, number);
}

static PyObject *made_at(PyObject *self, int kind, uint8_t family, uint32_t number)
{
    Calls *calls = ((Thing *)self)->calls;
    return made(((Thing *)self)->session, calls, calls->state->kinds[kind], family, number);
}

/* The number of an object that is handed in, which has to be of this session. */
static bool object_of(PyObject *self, PyObject *other, uint8_t family, const char *due, uint32_t *to)
{
    Thing *it = (Thing *)other;
    if (!PyObject_TypeCheck(other, ((Thing *)self)->calls->state->thing_type) || it->family != family)
        return is_not_due(due, other);
    if (it->session != ((Thing *)self)->session)
        return is_of_another(due);
    *to = it->number;
    return true;
}

static bool node_of(PyObject *self, PyObject *other, uint32_t *to)
{
    return object_of(self, other, FAMILY_NODE, "Node", to);
}

static bool node_or_none_of(PyObject *self, PyObject *other, uint32_t *to)
{
    *to = HP_NONE;
    return !other || other == Py_None || node_of(self, other, to);
}

#endif
