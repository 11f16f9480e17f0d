/* Conversions: of Python's values to the arguments of the library, and of the library's borrowed data to Python's objects. */
#ifndef HUCKLEPORT_TEXTS_H
#define HUCKLEPORT_TEXTS_H

#include "core.h"

/* How many characters are turned at once, and the bytes of a slice that need no memory of their own. */
#define PIECE 512
#define ROOM 256

/* Bytes, units or numbers that a call is handed: in its own room, in memory that it owns, or in an object that the caller holds. */
typedef struct {
    const void *at;
    void *owned;
    size_t length;
    uint64_t room[ROOM / sizeof(uint64_t)];
} Slice;

static void begin(Slice *it)
{
    it->at = it->room;
    it->owned = NULL;
    it->length = 0;
}

static void drop(Slice *it)
{
    PyMem_Free(it->owned);
}

/* Makes room in a slice for a number of bytes. Returns null, with an exception, if out of memory. */
static void *take_room(Slice *to, size_t size)
{
    begin(to);
    if (size <= ROOM)
        return to->room;
    to->owned = PyMem_Malloc(size);
    to->at = to->owned;
    if (!to->owned)
        PyErr_NoMemory();
    return to->owned;
}

/* Raises an error of the package, by the name of its class. It takes the sentence. */
static bool raise_ours(const char *kind, PyObject *sentence)
{
    PyObject *errors = sentence ? PyImport_ImportModule("huckleport.errors") : NULL;
    PyObject *found = errors ? PyObject_GetAttrString(errors, kind) : NULL;
    PyObject *fault = found ? PyObject_CallFunction(found, "OsO", Py_None, "", sentence) : NULL;
    if (fault)
        PyErr_SetObject(found, fault);
    Py_XDECREF(fault);
    Py_XDECREF(found);
    Py_XDECREF(errors);
    Py_XDECREF(sentence);
    return false;
}

static bool is_not_due(const char *due, PyObject *value)
{
    PyObject *name = PyObject_GetAttrString((PyObject *)Py_TYPE(value), "__name__");
    PyObject *sentence = name ? PyUnicode_FromFormat("a %s is due, and not %U", due, name) : NULL;
    Py_XDECREF(name);
    return raise_ours("BadType", sentence);
}

/* An object of another session than the one that it is handed to. */
static bool is_of_another(const char *due)
{
    return raise_ours("BadValue", PyUnicode_FromFormat("the %s is of another session", due));
}

static uint8_t *push_units(uint8_t *to, const Py_UCS4 *from, Py_ssize_t count)
{
    uint16_t *at = (uint16_t *)to;
    for (Py_ssize_t place = 0; place < count; place++) {
        Py_UCS4 it = from[place];
        if (it < 0x10000) {
            *at++ = (uint16_t)it;
        } else {
            *at++ = (uint16_t)(0xD7C0 + (it >> 10));
            *at++ = (uint16_t)(0xDC00 + (it & 0x3FF));
        }
    }
    return (uint8_t *)at;
}

/* UTF-8, and a surrogate as three bytes, which the library refuses. */
static uint8_t *push_octets(uint8_t *at, const Py_UCS4 *from, Py_ssize_t count)
{
    for (Py_ssize_t place = 0; place < count; place++) {
        Py_UCS4 it = from[place];
        if (it < 0x80) {
            *at++ = (uint8_t)it;
            continue;
        }
        int more = it < 0x800 ? 1 : it < 0x10000 ? 2 : 3;
        *at++ = (uint8_t)((0xFF00 >> (more + 1) & 0xFF) | it >> 6 * more);
        while (more--)
            *at++ = (uint8_t)(0x80 | (it >> 6 * more & 0x3F));
    }
    return at;
}

typedef uint8_t *Push(uint8_t *, const Py_UCS4 *, Py_ssize_t);

/* Turns the characters of a str, a piece after the other. Returns where it ends, or null. */
static uint8_t *push_all(PyObject *value, Py_ssize_t length, uint8_t *at, Push *push)
{
    Py_UCS4 buffer[PIECE];
    if (length <= PIECE)
        return PyUnicode_AsUCS4(value, buffer, PIECE, 0) ? push(at, buffer, length) : NULL;
    for (Py_ssize_t from = 0; from < length; from += PIECE) {
        Py_ssize_t to = from + PIECE < length ? from + PIECE : length;
        PyObject *piece = PyUnicode_Substring(value, from, to);
        bool done = piece && PyUnicode_AsUCS4(piece, buffer, PIECE, 0);
        Py_XDECREF(piece);
        if (!done)
            return NULL;
        at = push(at, buffer, to - from);
    }
    return at;
}

static bool characters_of(PyObject *value, Slice *to, Push *push, size_t size)
{
    begin(to);
    if (!PyUnicode_Check(value))
        return is_not_due("str", value);
    Py_ssize_t length = PyUnicode_GetLength(value);
    uint8_t *first = length < 0 ? NULL : take_room(to, 4 * (size_t)length);
    uint8_t *end = first ? push_all(value, length, first, push) : NULL;
    if (!end)
        return false;
    to->length = (size_t)(end - first) / size;
    return true;
}

static bool text_of(PyObject *value, Slice *to)
{
    return characters_of(value, to, push_units, sizeof(uint16_t));
}

static bool name_of(PyObject *value, Slice *to)
{
    return characters_of(value, to, push_octets, 1);
}

/* A text, or the empty one for None. */
static bool text_or_none_of(PyObject *value, Slice *to)
{
    begin(to);
    return value == Py_None || text_of(value, to);
}

/* The bytes of an object that the caller holds. */
static bool octets_of(PyObject *value, Slice *to)
{
    char *at = NULL;
    Py_ssize_t length = 0;
    begin(to);
    if (PyBytes_AsStringAndSize(value, &at, &length) < 0)
        return false;
    to->at = at;
    to->length = (size_t)length;
    return true;
}

static bool whole_of(PyObject *value, uint64_t most, uint64_t *to)
{
    PyObject *number = PyNumber_Index(value);
    if (!number && PyErr_ExceptionMatches(PyExc_TypeError)) {
        PyErr_Clear();
        return is_not_due("whole number", value);
    }
    if (!number)
        return false;
    *to = PyLong_AsUnsignedLongLong(number);
    bool fits = !PyErr_Occurred() && *to <= most;
    if (!fits && (!PyErr_Occurred() || PyErr_ExceptionMatches(PyExc_OverflowError))) {
        PyErr_Clear();
        raise_ours("BadNumber", PyUnicode_FromFormat("%S is not from 0 to %llu", number, (unsigned long long)most));
    }
    Py_DECREF(number);
    return fits;
}

#define WHOLE(type, most)                                \
    static bool type##_of(PyObject *value, type##_t *to) \
    {                                                    \
        uint64_t whole = 0;                              \
        bool fits = whole_of(value, most, &whole);       \
        *to = (type##_t)whole;                           \
        return fits;                                     \
    }
WHOLE(uint8, UINT8_MAX)
WHOLE(uint32, UINT32_MAX)
WHOLE(uint64, UINT64_MAX)
WHOLE(size, SIZE_MAX)

static bool bool_of(PyObject *value, bool *to)
{
    int is_true = PyObject_IsTrue(value);
    *to = is_true > 0;
    return is_true >= 0;
}

/* The numbers of a sequence. */
static bool numbers_of(PyObject *value, Slice *to)
{
    begin(to);
    Py_ssize_t count = PySequence_Size(value);
    uint32_t *at = count < 0 ? NULL : take_room(to, (size_t)count * sizeof(uint32_t));
    for (Py_ssize_t place = 0; at && place < count; place++) {
        PyObject *it = PySequence_GetItem(value, place);
        bool fits = it && uint32_of(it, at + place);
        Py_XDECREF(it);
        if (!fits)
            return false;
    }
    to->length = at ? (size_t)count : 0;
    return at != NULL;
}

/* ---- What the library lends. No object that the collector counts is made here, so nothing of Python runs amid an answer. */

static PyObject *name_from(const uint8_t *octets, size_t length)
{
    return PyUnicode_DecodeUTF8((const char *)octets, (Py_ssize_t)length, "strict");
}

/* The bits of units, four units side by side: those that no octet has, and those that no character of ASCII has. */
static const uint64_t NO_OCTETS = 0xFF00FF00FF00FF00, NO_ASCII = 0xFF80FF80FF80FF80;

/* Puts less than four units down as octets. Returns the bits that they have. */
static inline uint64_t narrowed_few(const uint16_t *units, size_t length, char *to)
{
    uint64_t bits = 0;
    for (size_t at = 0; at < length; at++) {
        bits |= units[at];
        to[at] = (char)units[at];
    }
    return bits;
}

/* Puts four units down as octets. Returns the bits that they have. */
static inline uint64_t narrowed_four(const uint16_t *units, char *to)
{
    uint64_t four;
    memcpy(&four, units, sizeof(four));
    const uint64_t two = (four | four >> 8) & 0x0000FFFF0000FFFF;
    const uint32_t octets = (uint32_t)(two | two >> 16);
    memcpy(to, &octets, sizeof(octets));
    return four;
}

/* Puts units down as octets, four at once from the end on: the first four come last, also if some of them were put down before. Returns the bits that
 * they have. */
static inline uint64_t narrowed(const uint16_t *units, size_t length, char *to)
{
    if (length < 4)
        return narrowed_few(units, length, to);
    size_t at = length - 4;
    uint64_t bits = narrowed_four(units + at, to + at);
    while (at) {
        at = at > 4 ? at - 4 : 0;
        bits |= narrowed_four(units + at, to + at);
    }
    return bits;
}

static bool is_pair(const uint16_t *units, size_t at, size_t length)
{
    return (units[at] & 0xFC00) == 0xD800 && at + 1 < length && (units[at + 1] & 0xFC00) == 0xDC00;
}

static bool is_well_formed(const uint16_t *units, size_t length)
{
    for (size_t at = 0; at < length; at++) {
        if ((units[at] & 0xF800) != 0xD800)
            continue;
        if (!is_pair(units, at, length))
            return false;
        at++;
    }
    return true;
}

/* Units with surrogates that stand alone. */
static PyObject *wide_from(const uint16_t *units, size_t length)
{
#if WCHAR_MAX > 0xFFFF
    wchar_t *wide = PyMem_Malloc(length * sizeof(wchar_t)), *to = wide;
    if (!wide)
        return PyErr_NoMemory();
    for (size_t at = 0; at < length; at++) {
        wchar_t it = units[at];
        if (is_pair(units, at, length))
            it = (wchar_t)(0x10000 + ((it & 0x3FF) << 10) + (units[++at] & 0x3FF));
        *to++ = it;
    }
    PyObject *found = PyUnicode_FromWideChar(wide, to - wide);
    PyMem_Free(wide);
    return found;
#else
    return PyUnicode_FromWideChar((const wchar_t *)units, (Py_ssize_t)length);
#endif
}

/* Makes a str of units, if some are not below 256. */
static PyObject *broad_from(const uint16_t *units, size_t length)
{
    if (!is_well_formed(units, length))
        return wide_from(units, length);
    const uint16_t one = 1;
    int order = *(const uint8_t *)&one ? -1 : 1;
    return PyUnicode_DecodeUTF16((const char *)units, (Py_ssize_t)(2 * length), "strict", &order);
}

/* Makes a str of units, for which there is room as octets. Python decodes ASCII fastest as UTF-8. */
static inline __attribute__((always_inline)) PyObject *text_by(const uint16_t *units, size_t length, char *octets)
{
    const uint64_t bits = narrowed(units, length, octets);
    if (!(bits & NO_ASCII))
        return PyUnicode_DecodeUTF8(octets, (Py_ssize_t)length, NULL);
    return bits & NO_OCTETS ? broad_from(units, length) : PyUnicode_DecodeLatin1(octets, (Py_ssize_t)length, NULL);
}

/* Makes a str of units that are too many for the stack. */
static __attribute__((noinline)) PyObject *long_text_from(const uint16_t *units, size_t length)
{
    char *octets = PyMem_Malloc(length);
    PyObject *found = octets ? text_by(units, length, octets) : PyErr_NoMemory();
    PyMem_Free(octets);
    return found;
}

/* Makes a str of units, in the code that asks for it. */
static inline __attribute__((always_inline)) PyObject *text_here(const uint16_t *units, size_t length)
{
    uint64_t octets[ROOM / sizeof(uint64_t)];
    return length > ROOM ? long_text_from(units, length) : text_by(units, length, (char *)octets);
}

static PyObject *text_from(const uint16_t *units, size_t length)
{
    return text_here(units, length);
}

#endif
