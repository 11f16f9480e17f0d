/* A course through a tree, in tree order, by the numbers of children: one call for those of each node that may have any. Where it has led is kept
 * as long as nothing moves. */
#ifndef HUCKLEPORT_COURSE_H
#define HUCKLEPORT_COURSE_H

#include "answers.h"

/* Which of the numbers that wait are still to come on a level. */
typedef struct {
    size_t at, end;
} Level;

typedef struct {
    Calls *calls;
    Numbers waiting;
    Level *levels;
    size_t depth, room;
    /* Whether memory was there all the way. */
    bool is_whole;
} Course;

static bool has_children(uint8_t kind)
{
    return kind == KIND_ELEMENT || kind == KIND_DOCUMENT || kind == KIND_DOCUMENT_FRAGMENT;
}

static bool course_fails(Course *it)
{
    it->is_whole = false;
    return PyErr_NoMemory() != NULL;
}

/* Reserves room for more numbers behind those that wait. */
static bool course_reserve(Course *it, size_t more)
{
    Numbers *list = &it->waiting;
    if (list->room - list->length >= more)
        return true;
    size_t room = 2 * list->room + more;
    uint32_t *wider = PyMem_Realloc(list->at, room * sizeof(uint32_t));
    if (!wider)
        return course_fails(it);
    list->at = wider;
    list->room = room;
    return true;
}

/* Opens a level of numbers that stand at the end of those that wait. */
static bool course_open(Course *it, size_t count)
{
    if (it->depth == it->room) {
        size_t room = 2 * it->room + 32;
        Level *wider = PyMem_Realloc(it->levels, room * sizeof(Level));
        if (!wider)
            return course_fails(it);
        it->levels = wider;
        it->room = room;
    }
    it->levels[it->depth++] = (Level){ it->waiting.length, it->waiting.length + count };
    it->waiting.length += count;
    return true;
}

/* Puts the children of a node where the course goes on. */
static void course_enter(Course *it, uint32_t node)
{
    enum { FIRST = 32 };
    size_t count = 0;
    if (!course_reserve(it, FIRST))
        return;
    uint32_t *end = it->waiting.at + it->waiting.length;
    hp_children_into(&it->calls->session, node, end, it->waiting.room - it->waiting.length, &count);
    if (count > it->waiting.room - it->waiting.length) {
        if (!course_reserve(it, count))
            return;
        hp_children_into(&it->calls->session, node, it->waiting.at + it->waiting.length, count, &count);
    }
    if (count)
        course_open(it, count);
}

/* A course that begins with one node. */
static void course_begin(Course *it, Calls *calls, uint32_t node)
{
    *it = (Course){ calls, { NULL, NULL, 0, 0 }, NULL, 0, 0, true };
    if (!course_reserve(it, 1))
        return;
    it->waiting.at[0] = node;
    course_open(it, 1);
}

static void course_end(Course *it)
{
    numbers_drop(&it->waiting);
    PyMem_Free(it->levels);
}

/* The kind of a node, which is asked for where it is not known, and learned; or 0 where it is no more. */
static uint8_t kind_at(Calls *calls, uint32_t node)
{
    Labels *labels = &calls->labels;
    unsigned label = label_place(labels, node);
    hp_node_links links;
    if (label)
        return labels->at[label].kind;
    if (hp_links(&calls->session, node, &links) != HP_OK)
        return 0;
    learn(labels, &calls->session, node, label_of_kind(labels, links.kind));
    return links.kind;
}

/* Goes to the next node, and below it after that. */
static bool course_step(Course *it, Order *to)
{
    while (it->depth && it->levels[it->depth - 1].at == it->levels[it->depth - 1].end) {
        it->depth--;
        it->waiting.length = it->depth ? it->levels[it->depth - 1].end : 0;
    }
    if (!it->is_whole || !it->depth)
        return false;
    uint32_t number = it->waiting.at[it->levels[it->depth - 1].at++];
    uint8_t kind = kind_at(it->calls, number);
    it->is_whole = order_push(to, number, it->depth - 1, kind);
    if (it->is_whole && has_children(kind))
        course_enter(it, number);
    return it->is_whole;
}

/* Returns a node and all below it in tree order, or null, with an exception, if out of memory. The order is cached until something moves. */
static const Order *order_below(Calls *calls, uint32_t node)
{
    Order *order = &calls->order;
    Course course;
    if (order->length && order->at[0].number == node)
        return order;
    order_drop(order);
    course_begin(&course, calls, node);
    while (course_step(&course, order)) {
    }
    course_end(&course);
    if (course.is_whole)
        return order;
    order_drop(order);
    return NULL;
}

/* Whether a name of a node was asked for, and is lent. */
static bool is_name_lent(Calls *calls, uint32_t node, uint8_t part, hp_bytes *to)
{
    return hp_name_of(&calls->session, node, part, to) == HP_OK;
}

/* The name of an element, which is asked for where it is not known, and learned. It lies there until the next call, or until a label is new. */
static bool element_name(Calls *calls, uint32_t node, unsigned *label, hp_bytes *to)
{
    Labels *labels = &calls->labels;
    if (!*label || !labels->at[*label].is_named) {
        if (!is_name_lent(calls, node, 0, to))
            return false;
        *label = label_of_name(labels, KIND_ELEMENT, to->bytes, to->length);
        learn(labels, &calls->session, node, *label);
    }
    const Label *known = *label ? &labels->at[*label] : NULL;
    if (known && known->is_named)
        *to = (hp_bytes){ (const uint8_t *)known->name, known->length };
    return true;
}

#endif
