/* What all of the module has: the stable ABI, the library, and its objects. */
#ifndef HUCKLEPORT_CORE_H
#define HUCKLEPORT_CORE_H

#define PY_SSIZE_T_CLEAN
#define Py_LIMITED_API 0x03080000
#include <Python.h>
#include <structmember.h>

#include <stdbool.h>
#include <stdint.h>
#include <stdlib.h>
#include <string.h>
#include <wchar.h>

#include "ended.h"

/* Objects by the kinds of their numbers. */
typedef enum { FAMILY_NODE, FAMILY_RANGE, FAMILY_STATIC_RANGE, FAMILY_NODE_ITERATOR, FAMILY_TREE_WALKER, FAMILY_OBSERVER, FAMILIES } Family;

/* The classes of the package: those of nodes stand at the standard's numbers of their kinds. */
enum {
    KIND_NODE = 0,
    KIND_ELEMENT = 1,
    KIND_ATTRIBUTE = 2,
    KIND_TEXT = 3,
    KIND_PROCESSING_INSTRUCTION = 7,
    KIND_COMMENT = 8,
    KIND_DOCUMENT = 9,
    KIND_DOCUMENT_TYPE = 10,
    KIND_DOCUMENT_FRAGMENT = 11,
    KIND_RANGE,
    KIND_STATIC_RANGE,
    KIND_NODE_ITERATOR,
    KIND_TREE_WALKER,
    KIND_ROW,
    KIND_MUTATION_RECORD,
    KIND_MUTATION_OBSERVER,
    KINDS
};

/* How many classes of structs there may be: calls.h tells those that there are. */
#define STRUCTS 16

/* What the module has in an interpreter: its own types, the classes and functions of the package, and those of Python that it calls. It is held
 * by the module, by its types and by each session, and goes with the last of them. */
typedef struct {
    size_t holders;
    PyTypeObject *calls_type, *thing_type, *builder_type, *walk_type, *quick_type;
    PyTypeObject *structs[STRUCTS];
    PyObject *kinds[KINDS];
    /* The names of those kinds that have none of their own, as the library prints them. */
    PyObject *kind_names[KINDS];
    /* What raises a refusal, and what tells a name that has no part in the library's answer. */
    PyObject *refuse_hook, *name_hook;
    /* Python's own functions that stop the collector and let it go on. */
    PyObject *gc_is_enabled, *gc_disable, *gc_enable;
} State;

/* Returns zeroed memory for count items of a size, or null if out of memory. (PyMem_Calloc is not in the stable ABI of 3.8.) */
static void *zeroed(size_t count, size_t size)
{
    void *found = count <= PY_SSIZE_T_MAX / size ? PyMem_Malloc(count * size) : NULL;
    return found ? memset(found, 0, count * size) : NULL;
}

#endif
