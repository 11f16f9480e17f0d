/* A table of the objects that live, by family and number. It holds no reference: an object leaves it when it goes.
 *
 * Those of nodes lie by their numbers, so that neighbours are neighbours; there may be many. The others are hashed. */
#ifndef HUCKLEPORT_TABLE_H
#define HUCKLEPORT_TABLE_H

#include "core.h"

/* The objects of numbers that have all but their last bits in common, and how many there are; and what leads to these. */
enum { LEAF_BITS = 5, BRANCH_BITS = 8, LEAF = 1 << LEAF_BITS, BRANCH = 1 << BRANCH_BITS };

typedef struct {
    PyObject *at[LEAF];
    size_t used;
} Leaf;

typedef struct {
    Leaf *at[BRANCH];
    size_t used;
} Branch;

/* One leaf and one branch that are empty are kept, so that an object that comes and goes takes no memory. */
typedef struct {
    Branch **at;
    size_t length;
    Leaf *spare_leaf;
    Branch *spare_branch;
} NodeTable;

typedef struct {
    uint32_t number;
    uint32_t family;
    PyObject *object;
} Entry;

typedef struct {
    NodeTable nodes;
    Entry *entries;
    size_t mask;
    size_t used;
    int bits;
} Table;

/* ---- nodes */

static Leaf **leaf_place(const NodeTable *it, uint32_t number)
{
    size_t branch = number >> (LEAF_BITS + BRANCH_BITS);
    return branch < it->length && it->at[branch] ? &it->at[branch]->at[number >> LEAF_BITS & (BRANCH - 1)] : NULL;
}

/* Where the object of a node stands, or null where none of its neighbours has one either. */
static PyObject **node_place(const NodeTable *it, uint32_t number)
{
    Leaf **leaf = leaf_place(it, number);
    return leaf && *leaf ? &(*leaf)->at[number & (LEAF - 1)] : NULL;
}

/* Makes room up to the branch of a number. */
static bool nodes_widen(NodeTable *it, size_t branch)
{
    size_t length = branch + branch / 2 + 4;
    Branch **wider = PyMem_Realloc(it->at, length * sizeof(*wider));
    if (!wider)
        return false;
    memset(wider + it->length, 0, (length - it->length) * sizeof(*wider));
    it->at = wider;
    it->length = length;
    return true;
}

static Leaf **leaf_made(NodeTable *it, uint32_t number)
{
    size_t at = number >> (LEAF_BITS + BRANCH_BITS);
    if (at >= it->length && !nodes_widen(it, at))
        return NULL;
    if (!it->at[at]) {
        it->at[at] = it->spare_branch ? it->spare_branch : zeroed(1, sizeof(Branch));
        it->spare_branch = NULL;
    }
    if (!it->at[at])
        return NULL;
    Leaf **leaf = leaf_place(it, number);
    if (!*leaf) {
        *leaf = it->spare_leaf ? it->spare_leaf : zeroed(1, sizeof(Leaf));
        it->spare_leaf = NULL;
        it->at[at]->used += *leaf != NULL;
    }
    return *leaf ? leaf : NULL;
}

static bool nodes_put(NodeTable *it, uint32_t number, PyObject *object)
{
    Leaf **leaf = leaf_made(it, number);
    if (!leaf)
        return false;
    PyObject **to = &(*leaf)->at[number & (LEAF - 1)];
    (*leaf)->used += *to == NULL;
    *to = object;
    return true;
}

static void nodes_take(NodeTable *it, uint32_t number)
{
    Branch **branch = &it->at[number >> (LEAF_BITS + BRANCH_BITS)];
    Leaf **leaf = leaf_place(it, number);
    (*leaf)->at[number & (LEAF - 1)] = NULL;
    if (--(*leaf)->used)
        return;
    PyMem_Free(it->spare_leaf);
    it->spare_leaf = *leaf;
    *leaf = NULL;
    if (--(*branch)->used)
        return;
    PyMem_Free(it->spare_branch);
    it->spare_branch = *branch;
    *branch = NULL;
}

/* Whether no object has this number or a larger one. */
static bool is_none_from(const NodeTable *it, uint32_t number)
{
    const size_t first = number >> LEAF_BITS, end = it->length << BRANCH_BITS;
    for (size_t at = first; at < end; at++) {
        const Branch *branch = it->at[at >> BRANCH_BITS];
        const Leaf *leaf = branch ? branch->at[at & (BRANCH - 1)] : NULL;
        for (size_t part = at == first ? number & (LEAF - 1) : 0; leaf && part < LEAF; part++) {
            if (leaf->at[part])
                return false;
        }
        at |= branch ? 0 : BRANCH - 1;
    }
    return true;
}

static void nodes_drop(NodeTable *it)
{
    for (size_t at = 0; at < it->length; at++) {
        for (size_t part = 0; it->at[at] && part < BRANCH; part++)
            PyMem_Free(it->at[at]->at[part]);
        PyMem_Free(it->at[at]);
    }
    PyMem_Free(it->at);
    PyMem_Free(it->spare_leaf);
    PyMem_Free(it->spare_branch);
}

/* ---- the others */

static size_t place_of(const Table *it, uint32_t number, uint32_t family)
{
    return (size_t)(((uint64_t)number + ((uint64_t)family << 32)) * 0x9E3779B97F4A7C15u >> (64 - it->bits));
}

/* Where an entry is, or the empty place where it would be. */
static Entry *entry_of(const Table *it, uint32_t number, uint32_t family)
{
    size_t at = place_of(it, number, family);
    while (it->entries[at].object && (it->entries[at].number != number || it->entries[at].family != family))
        at = (at + 1) & it->mask;
    return &it->entries[at];
}

static bool table_grow(Table *it)
{
    int bits = it->entries ? it->bits + 1 : 3;
    Table wider = { it->nodes, NULL, ((size_t)1 << bits) - 1, it->used, bits };
    wider.entries = zeroed(wider.mask + 1, sizeof(Entry));
    if (!wider.entries)
        return false;
    for (size_t at = 0; it->entries && at <= it->mask; at++) {
        Entry *from = &it->entries[at];
        if (from->object)
            *entry_of(&wider, from->number, from->family) = *from;
    }
    PyMem_Free(it->entries);
    *it = wider;
    return true;
}

/* Empties a place, and moves up those that passed it. */
static void table_close_gap(Table *it, size_t gap)
{
    size_t at = gap;
    while (true) {
        at = (at + 1) & it->mask;
        Entry *next = &it->entries[at];
        if (!next->object)
            break;
        size_t home = place_of(it, next->number, next->family);
        if (((at - home) & it->mask) >= ((at - gap) & it->mask)) {
            it->entries[gap] = *next;
            gap = at;
        }
    }
    it->entries[gap].object = NULL;
}

/* ---- all of them */

/* The object of a number, without a reference; or null. */
static PyObject *table_at(const Table *it, uint32_t number, uint32_t family)
{
    if (family)
        return it->entries ? entry_of(it, number, family)->object : NULL;
    PyObject **found = node_place(&it->nodes, number);
    return found ? *found : NULL;
}

/* The object, with a reference of its own. One that is going already is none. (The count of references has 32 bits in later versions.) */
static PyObject *table_find(const Table *it, uint32_t number, uint32_t family)
{
    PyObject *found = table_at(it, number, family);
    if (!found || (uint32_t)Py_REFCNT(found) == 0)
        return NULL;
    Py_INCREF(found);
    return found;
}

/* Puts an object among those that are hashed. */
static bool entries_put(Table *it, uint32_t number, uint32_t family, PyObject *object)
{
    if ((!it->entries || 2 * (it->used + 1) > it->mask) && !table_grow(it))
        return false;
    Entry *to = entry_of(it, number, family);
    it->used += to->object == NULL;
    *to = (Entry){ number, family, object };
    return true;
}

/* Inserts an object, or finds the one that is stored already. Returns it with a new reference, or null, with an exception, if out of memory. */
static PyObject *table_put(Table *it, uint32_t number, uint32_t family, PyObject *object)
{
    PyObject *found = table_find(it, number, family);
    if (found)
        return found;
    if (family ? !entries_put(it, number, family, object) : !nodes_put(&it->nodes, number, object))
        return PyErr_NoMemory();
    Py_INCREF(object);
    return object;
}

/* Takes out an object, where it is the one that stands there. */
static void table_take(Table *it, uint32_t number, uint32_t family, PyObject *object)
{
    if (table_at(it, number, family) != object)
        return;
    if (!family) {
        nodes_take(&it->nodes, number);
        return;
    }
    table_close_gap(it, (size_t)(entry_of(it, number, family) - it->entries));
    it->used--;
}

static void table_drop(Table *it)
{
    nodes_drop(&it->nodes);
    PyMem_Free(it->entries);
}

#endif
