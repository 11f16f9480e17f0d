/* Whole answers. All borrowed data of the library is copied first, before any object is made that the collector counts. So neither the
 * collector nor a signal nor another thread can replace the answer meanwhile. Then Python's objects are made of the copy. */
#ifndef HUCKLEPORT_ANSWERS_H
#define HUCKLEPORT_ANSWERS_H

#include "objects.h"

/* ---- lists that grow */

/* Reserves room for count numbers, in a list that has none. */
static bool numbers_reserve(Numbers *it, size_t count)
{
    it->at = PyMem_Malloc((count + 1) * sizeof(uint32_t));
    it->room = it->at ? count : 0;
    return it->at || PyErr_NoMemory() != NULL;
}

static bool numbers_push(Numbers *it, uint32_t number)
{
    if (it->length == it->room) {
        size_t room = it->room ? 2 * it->room : 32;
        uint32_t *wider = PyMem_Realloc(it->at, room * sizeof(uint32_t));
        if (!wider)
            return out_of_memory();
        it->at = wider;
        it->room = room;
    }
    it->at[it->length++] = number;
    return true;
}

/* Asks for the kind of each node that has no object yet. */
static bool numbers_ask(Numbers *it, Calls *calls)
{
    it->kinds = zeroed(it->length + 1, 1);
    if (!it->kinds)
        return PyErr_NoMemory() != NULL;
    for (size_t at = 0; at < it->length; at++) {
        hp_node_links links;
        bool is_known = it->at[at] == HP_NONE || table_at(&calls->kept, it->at[at], FAMILY_NODE);
        if (!is_known && hp_links(&calls->session, it->at[at], &links) == HP_OK)
            it->kinds[at] = links.kind;
    }
    return true;
}

/* The node at a place. */
static PyObject *numbers_node(const Numbers *it, size_t at, PyObject *session, Calls *calls)
{
    uint32_t number = it->at[at];
    if (number == HP_NONE)
        return none();
    if (it->kinds[at])
        return made(session, calls, kind_of(calls, it->kinds[at]), FAMILY_NODE, number);
    return node_from(session, calls, number);
}

/* The nodes from a place on, as a list. */
static PyObject *numbers_nodes(const Numbers *it, size_t from, size_t count, PyObject *session, Calls *calls)
{
    PyObject *found = PyList_New((Py_ssize_t)count);
    for (size_t at = 0; found && at < count; at++) {
        PyObject *node = numbers_node(it, from + at, session, calls);
        if (!node)
            Py_CLEAR(found);
        else
            PyList_SetItem(found, (Py_ssize_t)at, node);
    }
    return found;
}

/* The numbers of the last answer, which one call copies. */
static bool numbers_read(Numbers *to, hp_session *session)
{
    size_t count = 0;
    if (hp_count(session, &count) != HP_OK || !count)
        return true;
    to->at = PyMem_Malloc(count * sizeof(uint32_t));
    if (!to->at)
        return PyErr_NoMemory() != NULL;
    to->room = count;
    hp_numbers_into(session, to->at, count, &to->length);
    return true;
}

/* ---- answers of one kind of part */

static PyObject *text_answer(hp_session *session)
{
    hp_text_view view;
    return hp_text(session, &view) == HP_OK ? text_from(view.units, view.length) : none();
}

static PyObject *numbers_answer(hp_session *session)
{
    Numbers numbers = { NULL, NULL, 0, 0 };
    PyObject *found = numbers_read(&numbers, session) ? PyList_New((Py_ssize_t)numbers.length) : NULL;
    for (size_t at = 0; found && at < numbers.length; at++)
        PyList_SetItem(found, (Py_ssize_t)at, PyLong_FromUnsignedLong(numbers.at[at]));
    numbers_drop(&numbers);
    return found;
}

/* Objects that a list is made of, once all of them are there. */
static PyObject *list_of(PyObject **parts, size_t count)
{
    PyObject *found = PyList_New((Py_ssize_t)count);
    for (size_t at = 0; found && at < count; at++) {
        Py_INCREF(parts[at]);
        PyList_SetItem(found, (Py_ssize_t)at, parts[at]);
    }
    return found;
}

static PyObject *names_answer(hp_session *session)
{
    size_t count = 0, made_count = 0;
    hp_count(session, &count);
    PyObject **parts = zeroed(count + 1, sizeof(PyObject *)), *found = NULL;
    if (!parts)
        return PyErr_NoMemory();
    for (size_t at = 0; at < count; at++) {
        hp_bytes view;
        parts[at] = hp_name_at(session, at, &view) == HP_OK ? name_from(view.bytes, view.length) : none();
        if (!parts[at])
            break;
        made_count++;
    }
    if (made_count == count)
        found = list_of(parts, count);
    for (size_t at = 0; at < made_count; at++)
        Py_DECREF(parts[at]);
    PyMem_Free(parts);
    return found;
}

/* ---- the rows of a tree */

typedef struct {
    hp_row row;
    PyObject *names[3], *text;
    size_t first_pair;
} Copied;

typedef struct {
    Copied *rows;
    size_t count;
    PyObject **pairs;
    size_t pairs_length, pairs_room;
} Rows;

static void rows_drop(Rows *it)
{
    for (size_t at = 0; it->rows && at < it->count; at++) {
        for (int part = 0; part < 3; part++)
            Py_XDECREF(it->rows[at].names[part]);
        Py_XDECREF(it->rows[at].text);
    }
    for (size_t at = 0; at < it->pairs_length; at++)
        Py_XDECREF(it->pairs[at]);
    PyMem_Free(it->rows);
    PyMem_Free(it->pairs);
}

static bool rows_push(Rows *it, PyObject *part)
{
    if (it->pairs_length == it->pairs_room) {
        size_t room = it->pairs_room ? 2 * it->pairs_room : 32;
        PyObject **wider = PyMem_Realloc(it->pairs, room * sizeof(PyObject *));
        if (!wider) {
            Py_XDECREF(part);
            return PyErr_NoMemory() != NULL;
        }
        it->pairs = wider;
        it->pairs_room = room;
    }
    it->pairs[it->pairs_length++] = part;
    return part != NULL;
}

static bool row_attributes(Rows *to, hp_session *session, size_t at, size_t count)
{
    for (size_t pair = 0; pair < count; pair++) {
        hp_bytes name;
        hp_text_view value;
        if (hp_row_attribute_name(session, at, pair, &name) || !rows_push(to, name_from(name.bytes, name.length)))
            return false;
        if (hp_row_attribute_value(session, at, pair, &value) || !rows_push(to, text_from(value.units, value.length)))
            return false;
    }
    return true;
}

/* How many parts the name of a kind has, and whether it has data: what else is not asked for. */
static uint8_t parts_of(uint16_t kind)
{
    return kind == KIND_ELEMENT || kind == KIND_PROCESSING_INSTRUCTION ? 1 : kind == KIND_DOCUMENT_TYPE ? 3 : 0;
}

static bool has_data(uint16_t kind)
{
    return kind == KIND_TEXT || kind == KIND_PROCESSING_INSTRUCTION || kind == KIND_COMMENT;
}

/* Copies a row of the last answer. */
static bool row_copy(Rows *to, Copied *it, hp_session *session, size_t at)
{
    hp_bytes name;
    hp_text_view text;
    if (hp_row_at(session, at, &it->row))
        return false;
    it->first_pair = to->pairs_length;
    for (uint8_t part = 0; part < parts_of(it->row.type); part++) {
        if (hp_row_name(session, at, part, &name) || !(it->names[part] = name_from(name.bytes, name.length)))
            return false;
    }
    if (has_data(it->row.type) && (hp_row_text(session, at, &text) || !(it->text = text_from(text.units, text.length))))
        return false;
    return row_attributes(to, session, at, it->row.attributes);
}

static bool rows_copy(Rows *to, hp_session *session, size_t most)
{
    size_t count = 0;
    hp_count(session, &count);
    to->count = count < most ? count : most;
    to->rows = zeroed(to->count + 1, sizeof(Copied));
    if (!to->rows)
        return PyErr_NoMemory() != NULL;
    for (size_t at = 0; at < to->count; at++) {
        if (!row_copy(to, &to->rows[at], session, at))
            return false;
    }
    return true;
}

/* The attributes of a row as pairs. */
static PyObject *pairs_of(const Rows *rows, const Copied *it)
{
    PyObject *found = PyTuple_New((Py_ssize_t)it->row.attributes);
    for (size_t at = 0; found && at < it->row.attributes; at++) {
        PyObject **pair = &rows->pairs[it->first_pair + 2 * at];
        PyObject *both = PyTuple_Pack(2, pair[0], pair[1]);
        if (!both)
            Py_CLEAR(found);
        else
            PyTuple_SetItem(found, (Py_ssize_t)at, both);
    }
    return found;
}

/* What makes a tuple of a class: the same in each interpreter. */
static newfunc tuple_new;

/* A tuple of these parts, whose references go with it. */
static PyObject *plain_tuple(PyObject **parts, int count)
{
    PyObject *plain = PyTuple_New(count);
    bool is_whole = plain != NULL;
    for (int at = 0; at < count; at++) {
        is_whole = is_whole && parts[at];
        if (plain && parts[at])
            PyTuple_SetItem(plain, at, parts[at]);
        else
            Py_XDECREF(parts[at]);
    }
    if (!is_whole)
        Py_CLEAR(plain);
    return plain;
}

/* A plain tuple as one of a class; its reference goes with it. */
static PyObject *named(const Calls *calls, int kind, PyObject *plain)
{
    PyObject *words = plain ? PyTuple_Pack(1, plain) : NULL;
    PyObject *found = words ? tuple_new((PyTypeObject *)calls->state->kinds[kind], words, NULL) : NULL;
    Py_XDECREF(plain);
    Py_XDECREF(words);
    return found;
}

static PyObject *or_none(PyObject *it)
{
    it = it ? it : Py_None;
    Py_INCREF(it);
    return it;
}

static PyObject *row_made(const Rows *rows, const Copied *it, PyObject *session, Calls *calls)
{
    PyObject *parts[7] = {
        PyLong_FromSize_t(it->row.depth),
        made(session, calls, kind_of(calls, it->row.type), FAMILY_NODE, it->row.node),
        or_none(it->names[0]),
        pairs_of(rows, it),
        or_none(it->text),
        or_none(it->names[1]),
        or_none(it->names[2]),
    };
    return named(calls, KIND_ROW, plain_tuple(parts, 7));
}

/* Stops the collector while many objects are made, since none of them is garbage. Returns whether it was running. */
static bool pause_collector(const State *state)
{
    PyObject *is_on = PyObject_CallFunctionObjArgs(state->gc_is_enabled, NULL);
    bool was_on = is_on == Py_True;
    Py_XDECREF(is_on);
    if (was_on)
        Py_XDECREF(PyObject_CallFunctionObjArgs(state->gc_disable, NULL));
    return was_on;
}

static void resume_collector(const State *state, bool was_on)
{
    if (was_on)
        Py_XDECREF(PyObject_CallFunctionObjArgs(state->gc_enable, NULL));
}

static PyObject *rows_made(const Rows *rows, PyObject *session, Calls *calls)
{
    bool was_on = pause_collector(calls->state);
    calls->making++;
    PyObject *found = PyList_New((Py_ssize_t)rows->count);
    for (size_t at = 0; found && at < rows->count; at++) {
        PyObject *row = row_made(rows, &rows->rows[at], session, calls);
        if (!row)
            Py_CLEAR(found);
        else
            PyList_SetItem(found, (Py_ssize_t)at, row);
    }
    calls->making--;
    resume_collector(calls->state, was_on);
    return found;
}

static PyObject *rows_answer(PyObject *session, Calls *calls, size_t most)
{
    Rows rows = { NULL, 0, NULL, 0, 0 };
    PyObject *found = rows_copy(&rows, &calls->session, most) ? rows_made(&rows, session, calls) : NULL;
    rows_drop(&rows);
    if (!found && !PyErr_Occurred())
        PyErr_SetString(PyExc_RuntimeError, "a row is not there");
    return found;
}

/* ---- records */

typedef struct {
    hp_record record;
    size_t first_node;
    PyObject *name, *old_value;
} Noted;

typedef struct {
    Noted *records;
    size_t count;
    Numbers nodes;
} Records;

static void records_drop(Records *it)
{
    for (size_t at = 0; it->records && at < it->count; at++) {
        Py_XDECREF(it->records[at].name);
        Py_XDECREF(it->records[at].old_value);
    }
    PyMem_Free(it->records);
    numbers_drop(&it->nodes);
}

typedef uint8_t NodeAt(hp_session *, size_t, size_t, size_t, uint32_t *);

static bool nodes_copy(Numbers *to, hp_session *session, NodeAt *ask, size_t notice, size_t at, size_t count)
{
    uint32_t number = 0;
    for (size_t place = 0; place < count; place++) {
        if (ask(session, notice, at, place, &number) || !numbers_push(to, number))
            return false;
    }
    return true;
}

/* Copies a record: its target, the siblings beside, and then the nodes that came and went, stand among the nodes. */
static bool record_copy(Records *to, hp_session *session, size_t notice, size_t at)
{
    Noted *it = &to->records[at];
    hp_bytes name;
    hp_text_view text;
    if (hp_record_at(session, notice, at, &it->record))
        return false;
    it->first_node = to->nodes.length;
    const uint32_t three[3] = { it->record.target, it->record.previous, it->record.next };
    for (int place = 0; place < 3; place++) {
        if (!numbers_push(&to->nodes, three[place]))
            return false;
    }
    if (!nodes_copy(&to->nodes, session, hp_record_added_at, notice, at, it->record.added) ||
        !nodes_copy(&to->nodes, session, hp_record_removed_at, notice, at, it->record.removed))
        return false;
    if (hp_record_name(session, notice, at, &name) == HP_OK && !(it->name = name_from(name.bytes, name.length)))
        return false;
    return hp_record_old_value(session, notice, at, &text) || (it->old_value = text_from(text.units, text.length));
}

/* Copies the records of a notice. */
static bool records_copy(Records *to, hp_session *session, size_t notice, size_t count)
{
    to->records = zeroed(count + 1, sizeof(Noted));
    if (!to->records)
        return PyErr_NoMemory() != NULL;
    to->count = count;
    for (size_t at = 0; at < count; at++) {
        if (!record_copy(to, session, notice, at))
            return false;
    }
    return true;
}

/* The standard's word for the type of a record. */
static PyObject *type_word(uint8_t type)
{
    return PyUnicode_FromString(type == HP_ATTRIBUTES ? "attributes" : type == HP_CHARACTER_DATA ? "characterData" : "childList");
}

static PyObject *record_made(const Records *of, const Noted *it, PyObject *session, Calls *calls)
{
    size_t first = it->first_node;
    PyObject *parts[8] = {
        type_word(it->record.type),
        numbers_node(&of->nodes, first, session, calls),
        numbers_nodes(&of->nodes, first + 3, it->record.added, session, calls),
        numbers_nodes(&of->nodes, first + 3 + it->record.added, it->record.removed, session, calls),
        numbers_node(&of->nodes, first + 1, session, calls),
        numbers_node(&of->nodes, first + 2, session, calls),
        or_none(it->name),
        or_none(it->old_value),
    };
    return named(calls, KIND_MUTATION_RECORD, plain_tuple(parts, 8));
}

/* Puts the records into a list, from an index on. */
static bool records_put(PyObject *to, Py_ssize_t from, const Records *of, PyObject *session, Calls *calls)
{
    for (size_t at = 0; at < of->count; at++) {
        PyObject *record = record_made(of, &of->records[at], session, calls);
        if (!record)
            return false;
        PyList_SetItem(to, from + (Py_ssize_t)at, record);
    }
    return true;
}

/* Copies the records of the last answer; or nothing, with an exception. */
static bool records_taken(Records *to, Calls *calls)
{
    size_t count = 0;
    hp_count(&calls->session, &count);
    if (records_copy(to, &calls->session, 0, count) && numbers_ask(&to->nodes, calls))
        return true;
    records_drop(to);
    *to = (Records){ NULL, 0, { NULL, NULL, 0, 0 } };
    return false;
}

/* ---- records that were taken from an observer, so the library has them no more */

/* The session keeps these records until somebody has them, also if memory runs out meanwhile. No node is freed until then. */
typedef struct Taken {
    uint32_t observer;
    Records records;
    struct Taken *next;
} Taken;

/* Notices that are left for later, and have no room in the session's list of those. */
typedef struct Left {
    PyObject *notices;
    struct Left *next;
} Left;

/* Makes an entry for the records that are taken from an observer next. Returns null, with an exception, if out of memory. */
static Taken *taken_room(uint32_t observer)
{
    Taken *found = zeroed(1, sizeof(Taken));
    if (found)
        found->observer = observer;
    else
        PyErr_NoMemory();
    return found;
}

static void taken_end(Calls *calls, Taken *it)
{
    while (it) {
        Taken *next = it->next;
        records_drop(&it->records);
        PyMem_Free(it);
        calls->making--;
        it = next;
    }
}

/* Takes the records of the last answer down as those of an observer. They are copied before the next call. */
static void take_down(Calls *calls, Taken *room)
{
    size_t count = 0;
    Taken **to = &calls->taken;
    if (hp_count(&calls->session, &count) != HP_OK || !count) {
        PyMem_Free(room);
        return;
    }
    while (*to)
        to = &(*to)->next;
    *to = room;
    calls->making++;
    calls->busy = HAS_ANSWER;
}

static bool is_answer_copied(Calls *calls)
{
    Taken *last = calls->taken;
    while (last && last->next)
        last = last->next;
    if (calls->busy == HAS_ANSWER && records_taken(&last->records, calls))
        calls->busy = FREE;
    return calls->busy == FREE;
}

/* Removes the records that were taken from an observer, and returns them in their order. */
static Taken *taken_out_of(Calls *calls, uint32_t observer)
{
    Taken *found = NULL, **end = &found, **at = &calls->taken;
    while (*at) {
        Taken *it = *at;
        if (it->observer != observer) {
            at = &it->next;
            continue;
        }
        *at = it->next;
        it->next = NULL;
        *end = it;
        end = &it->next;
    }
    return found;
}

/* Puts the records that were taken from an observer back, ahead of all others. */
static void taken_back(Calls *calls, Taken *it)
{
    Taken **end = &it;
    while (*end)
        end = &(*end)->next;
    *end = calls->taken;
    calls->taken = it;
}

/* Whether records of an observer were taken. */
static bool has_taken(const Calls *calls, uint32_t observer)
{
    const Taken *it = calls->taken;
    while (it && it->observer != observer)
        it = it->next;
    return it != NULL;
}

/* Frees the records that were taken from an observer. */
static void forget_taken(Calls *calls, uint32_t observer)
{
    taken_end(calls, taken_out_of(calls, observer));
}

static void drop_taken(Calls *calls)
{
    taken_end(calls, calls->taken);
    calls->taken = NULL;
    calls->busy = calls->busy == HAS_ANSWER ? FREE : calls->busy;
    while (calls->left) {
        Left *it = calls->left;
        calls->left = it->next;
        Py_DECREF(it->notices);
        PyMem_Free(it);
    }
}

/* A list of records that were taken. */
static PyObject *taken_made(const Taken *taken, PyObject *session, Calls *calls)
{
    Py_ssize_t count = 0;
    for (const Taken *it = taken; it; it = it->next)
        count += (Py_ssize_t)it->records.count;
    PyObject *found = PyList_New(count);
    count = 0;
    for (const Taken *it = taken; found && it; it = it->next) {
        if (!records_put(found, count, &it->records, session, calls))
            Py_CLEAR(found);
        count += (Py_ssize_t)it->records.count;
    }
    return found;
}

/* ---- turns: observers are notified one after another */

/* The observer of a number. One that a line made stays with the session. No code of Python runs here, which could be interrupted. */
static PyObject *observer_of(uint32_t number, PyObject *session, Calls *calls)
{
    PyObject *found = made(session, calls, calls->state->kinds[KIND_MUTATION_OBSERVER], FAMILY_OBSERVER, number);
    if (!found || ((Thing *)found)->is_own)
        return found;
    PyObject *observers = PyObject_GetAttrString(session, "_observers"), *key = PyLong_FromUnsignedLong(number);
    if (!observers || !key || PyDict_SetItem(observers, key, found) < 0)
        Py_CLEAR(found);
    Py_XDECREF(observers);
    Py_XDECREF(key);
    return found;
}

/* Puts an observer and its records in the free place at the end of a list. Returns false if nothing was changed, with an exception if out of
 * memory. */
static bool put_notice(PyObject *to, uint32_t number, PyObject *session, Calls *calls)
{
    PyObject *notice = is_answer_copied(calls) ? PyTuple_New(2) : NULL;
    Taken *taken = notice ? taken_out_of(calls, number) : NULL;
    PyObject *records = taken ? taken_made(taken, session, calls) : NULL;
    PyObject *observer = records ? observer_of(number, session, calls) : NULL;
    if (!observer) {
        if (taken)
            taken_back(calls, taken);
        Py_XDECREF(records);
        Py_XDECREF(notice);
        return false;
    }
    taken_end(calls, taken);
    PyTuple_SetItem(notice, 0, observer);
    PyTuple_SetItem(notice, 1, records);
    return PyList_SetItem(to, PyList_Size(to) - 1, notice) == 0;
}

/* The exception that is raised now, as an object with its traceback; it is raised no more. */
static PyObject *caught(void)
{
    PyObject *kind, *fault, *trace;
    PyErr_Fetch(&kind, &fault, &trace);
    PyErr_NormalizeException(&kind, &fault, &trace);
    if (trace && fault)
        PyException_SetTraceback(fault, trace);
    Py_XDECREF(kind);
    Py_XDECREF(trace);
    return fault;
}

/* The outcome of a notice: its observer has no callback, its callback has run, or its callback raised. */
typedef enum { WITHOUT_CALLBACK, WAS_TOLD, HAS_RAISED } Told;

/* Whether a callback has run: one by async def has given a coroutine, which nobody awaits. It ends here, and that is raised. */
static bool is_no_coroutine(PyObject *said)
{
    if (said == Py_None)
        return true;
    PyObject *name = PyObject_GetAttrString((PyObject *)Py_TYPE(said), "__name__");
    bool is_one = name && PyUnicode_CompareWithASCIIString(name, "coroutine") == 0;
    PyObject *ended = is_one ? PyObject_CallMethod(said, "close", NULL) : none();
    Py_XDECREF(name);
    Py_XDECREF(ended);
    if (!is_one || !ended)
        return name && ended;
    return raise_ours("BadType", PyUnicode_FromString("a callback by async def is never awaited: notify() calls it and goes on"));
}

static Told call_back(PyObject *notice)
{
    PyObject *observer = PyTuple_GetItem(notice, 0);
    PyObject *callback = PyObject_GetAttrString(observer, "callback"), *said = NULL;
    if (callback == Py_None) {
        Py_DECREF(callback);
        return WITHOUT_CALLBACK;
    }
    if (callback)
        said = PyObject_CallFunctionObjArgs(callback, PyTuple_GetItem(notice, 1), observer, NULL);
    bool is_well = said && is_no_coroutine(said);
    Py_XDECREF(callback);
    Py_XDECREF(said);
    return is_well ? WAS_TOLD : HAS_RAISED;
}

/* The turns of one call: lists of the delivered notices, of the notices that are kept for later, and of the exceptions that were raised. If memory
 * runs out, is_short is set: the next call has to notify the rest. */
typedef struct {
    PyObject *session, *told, *kept, *faults;
    Calls *calls;
    bool is_short;
} Turns;

/* Takes the exception that is raised now, and goes on. */
static void take_fault(Turns *it)
{
    PyObject *fault = caught();
    if (fault && PyList_Append(it->faults, fault) < 0)
        PyErr_Clear();
    Py_XDECREF(fault);
}

/* Checks whether a callback may have stopped early by no fault of its own: it was interrupted, or out of memory. */
static bool is_cut_short(void)
{
    return !PyErr_ExceptionMatches(PyExc_Exception) || PyErr_ExceptionMatches(PyExc_MemoryError);
}

/* Appends a free place to a list, for a notice. Returns false, with an exception, if out of memory. */
static bool has_place(PyObject *list)
{
    return PyList_Append(list, Py_None) == 0;
}

/* Removes the free place at the end of a list. If out of memory it stays, as None, which the package skips. */
static void end_place(PyObject *list)
{
    Py_ssize_t last = PyList_Size(list) - 1;
    if (PyList_SetSlice(list, last, last + 1, NULL) < 0)
        PyErr_Clear();
}

/* Calls the callback of an observer. If it has none, or its callback was cut short, the notice is kept in the place for it. */
static void tell(Turns *it, PyObject *notice)
{
    Told told = call_back(notice);
    bool is_kept = told == WITHOUT_CALLBACK || (told == HAS_RAISED && is_cut_short());
    if (told == HAS_RAISED)
        take_fault(it);
    if (!is_kept) {
        end_place(it->kept);
        return;
    }
    Py_INCREF(notice);
    PyList_SetItem(it->kept, PyList_Size(it->kept) - 1, notice);
}

/* Takes the records that an observer has now that it is its turn. Returns whether there are any. One that was released has none, and is no fault. */
static bool has_records(Calls *calls, Taken *room)
{
    uint32_t observer = room->observer;
    uint8_t status = hp_tell_observer(&calls->session, observer);
    if (status == HP_OK)
        take_down(calls, room);
    else
        PyMem_Free(room);
    PyObject *words = status && status != HP_NO_SUCH_OBJECT ? Py_BuildValue("(k)", (unsigned long)observer) : NULL;
    if (words)
        refused(status, "tell_observer", (PyObject *)calls, words);
    Py_XDECREF(words);
    return has_taken(calls, observer);
}

/* Takes the records of an observer, for which there are places, and tells them. */
static void turn_taken(Turns *it, Taken *room)
{
    uint32_t observer = room->observer;
    if (has_records(it->calls, room) && put_notice(it->told, observer, it->session, it->calls)) {
        PyObject *notice = PyList_GetItem(it->told, PyList_Size(it->told) - 1);
        Py_INCREF(notice);
        tell(it, notice);
        Py_DECREF(notice);
        return;
    }
    it->is_short = has_taken(it->calls, observer);
    if (PyErr_Occurred())
        take_fault(it);
    end_place(it->told);
    end_place(it->kept);
}

/* Takes the turn of an observer, once there is an entry for its records, and a place for its notice in both lists: of the delivered notices and of
 * the kept ones. */
static void take_turn(Turns *it, uint32_t observer)
{
    Taken *room = taken_room(observer);
    bool has_one = room && has_place(it->told), has_both = has_one && has_place(it->kept);
    if (has_both) {
        turn_taken(it, room);
        return;
    }
    PyMem_Free(room);
    it->is_short = true;
    take_fault(it);
    if (has_one)
        end_place(it->told);
}

/* Notifies observers one after another, also if callbacks raise, until one of them closes the session or memory runs out. In that last case the
 * session keeps the observers that are still to be notified. */
static void tell_all(Turns *it, Numbers *observers)
{
    size_t at = 0;
    for (; at < observers->length && it->calls->session.is_open; at++) {
        take_turn(it, observers->at[at]);
        if (it->is_short)
            break;
    }
    if (!it->is_short || !it->calls->session.is_open)
        return;
    observers->length -= at;
    memmove(observers->at, observers->at + at, observers->length * sizeof(uint32_t));
    numbers_drop(&it->calls->untold);
    it->calls->untold = *observers;
    *observers = (Numbers){ NULL, NULL, 0, 0 };
}

/* Adds notices to the list of those that are left for later. If out of memory, the session keeps them apart from the list. */
static void leave(Calls *calls, PyObject *left, PyObject *kept, Left *room)
{
    Py_ssize_t end = PyList_Size(left);
    if (PyList_SetSlice(left, end, end, kept) == 0) {
        PyMem_Free(room);
        return;
    }
    PyErr_Clear();
    Py_INCREF(kept);
    *room = (Left){ kept, calls->left };
    calls->left = room;
}

/* Puts the notices that the session has beside among those that are left for later. */
static bool has_no_left(Calls *calls, PyObject *left)
{
    while (calls->left) {
        Left *it = calls->left;
        Py_ssize_t end = PyList_Size(left);
        if (PyList_SetSlice(left, end, end, it->notices) < 0)
            return false;
        calls->left = it->next;
        Py_DECREF(it->notices);
        PyMem_Free(it);
    }
    return true;
}

/* Ends the turns. If a callback raised or memory ran out, the kept notices are left for later. Otherwise the notices that were left before are put
 * ahead of the delivered ones. */
static bool turns_end(Turns *it, PyObject *left, Left *room)
{
    bool has_raised = PyList_Size(it->faults) > 0 || it->is_short;
    if (!has_raised && PyList_SetSlice(it->told, 0, 0, left) == 0) {
        PyMem_Free(room);
        return PyList_SetSlice(left, 0, PyList_Size(left), NULL) == 0;
    }
    leave(it->calls, left, it->kept, room);
    if (has_raised && PyList_Size(it->faults) > 0)
        return true;
    return PyErr_NoMemory() != NULL;
}

#endif
