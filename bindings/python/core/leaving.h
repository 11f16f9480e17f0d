/* A session of the library, its living objects, and the things that are freed after their object has ended.
 *
 * The end of an object only notes its number, since it may happen at any time. A later call frees the noted things: it releases ranges,
 * iterators, walkers and observers, and discards each tree in which no node has an object. */
#ifndef HUCKLEPORT_LEAVING_H
#define HUCKLEPORT_LEAVING_H

#include "labels.h"
#include "memory.h"
#include "table.h"

/* Numbers of nodes, and then the kind of each. */
typedef struct {
    uint32_t *at;
    uint8_t *kinds;
    size_t length, room;
} Numbers;

static void numbers_drop(Numbers *it)
{
    PyMem_Free(it->at);
    PyMem_Free(it->kinds);
}

/* Numbers of what may go. */
typedef struct {
    uint32_t *at;
    size_t length, room;
} Leaving;

/* A node with its kind. */
typedef struct {
    uint32_t number;
    uint8_t kind;
} Spot;

/* Nodes that an iterator has found and not handed out: they stay, also where they have no object and stand in no tree any more. */
typedef struct Waiting {
    Spot *at;
    size_t from, length;
    /* The numbers in order, once it was asked of one. */
    uint32_t *sorted;
    size_t sorted_length;
    struct Waiting *next, *previous;
} Waiting;

enum { DEPTH_BITS = 27 };

/* A node in a tree: how deep it stands below the root, its kind, and whether it has one child, which is a Text. The last is so only if both have the
 * numbers that they have if all nodes of the tree have one behind the other. */
typedef struct {
    uint32_t number;
    uint32_t depth : DEPTH_BITS, has_one_text : 1, kind : 4;
} Ranked;

/* All nodes of a tree in tree order, and the number of the first. */
typedef struct {
    Ranked *at;
    size_t length, room;
    uint32_t first;
} Order;

/* What a call has to wait for: another thread in a long call, or room for a copy of the library's last answer. */
typedef enum { FREE, IN_LONG_CALL, HAS_ANSWER } Busy;

/* A session, and the objects of it that live. */
typedef struct {
    PyObject_HEAD
    State *state;
    hp_session session;
    Table kept;
    Labels labels;
    /* The tree that was gone through last. It is kept as long as nothing moves in the session. */
    Order order;
    /* The root of the last deep copy, as long as nothing moves: the nodes of its tree have the numbers from its own on. Or HP_NONE. */
    uint32_t copied;
    /* Counts the calls that may have freed nodes: cached names are stale after each. */
    uint32_t epoch;
    /* The noted numbers, by families; the roots of trees that were held or in use when they were tried; and whether any number is noted. */
    Leaving noted[FAMILIES], held;
    bool is_due;
    /* How many steps it takes to try those roots again, and how many numbers were noted since they were tried. */
    size_t steps, since;
    /* How many answers are being made objects of; what they name may have none yet. */
    size_t making;
    /* What iterators have found. */
    Waiting *waiting;
    /* Observers that were still to be notified when memory ran out; records that were taken from observers; and notices that are left for later. */
    Numbers untold;
    struct Taken *taken;
    struct Left *left;
    Busy busy;
    /* Whether a line was answered. Lines name nodes by their numbers, so none goes by itself then. */
    bool has_lines;
} Calls;

/* An object with a number in a session. */
typedef struct {
    PyObject_HEAD
    PyObject *session;
    Calls *calls;
    PyObject *name;
    uint32_t number;
    uint32_t epoch;
    uint8_t family;
    bool is_kept;
    /* Whether its end is noted: of what a call of Python made, and among nodes of those that may be roots. */
    char is_own;
} Thing;

/* ---- the order of a tree */

static void order_drop(Order *it)
{
    PyMem_Free(it->at);
    *it = (Order){ NULL, 0, 0, 0 };
}

/* Tells the last node that the next one is its child, or the one before it that its Text has a sibling. */
static inline void order_tell(Order *it, uint32_t number, size_t depth, uint8_t kind)
{
    Ranked *end = it->at + it->length;
    if (kind == KIND_TEXT && it->length && end[-1].depth + 1u == depth)
        end[-1].has_one_text = number == it->first + it->length && end[-1].number + 1 == number;
    else if (it->length > 1 && end[-2].has_one_text && end[-1].depth == depth)
        end[-2].has_one_text = false;
}

static bool order_push(Order *it, uint32_t number, size_t depth, uint8_t kind)
{
    if (it->length == it->room) {
        size_t room = it->room ? 2 * it->room : 32;
        Ranked *wider = depth < 1 << DEPTH_BITS ? PyMem_Realloc(it->at, room * sizeof(Ranked)) : NULL;
        if (!wider)
            return out_of_memory();
        it->at = wider;
        it->room = room;
    }
    order_tell(it, number, depth, kind);
    it->first = it->length ? it->first : number;
    it->at[it->length++] = (Ranked){ number, (uint32_t)depth, false, kind };
    return true;
}

/* Tells that nodes may move. */
static void moved(Calls *it)
{
    it->copied = HP_NONE;
    if (it->order.at)
        order_drop(&it->order);
}

/* Tells that the attributes of an element may be others. */
static void reshaped(Calls *it, uint32_t element)
{
    learn_shape(&it->labels, &it->session, element, UNKNOWN);
}

/* ---- numbers */

/* Appends a number. If out of memory it is dropped, and the thing that it names stays until the session ends. */
static void leaving_push(Leaving *it, uint32_t number)
{
    if (it->length == it->room) {
        size_t room = it->room ? 2 * it->room : 32;
        uint32_t *wider = PyMem_Realloc(it->at, room * sizeof(uint32_t));
        if (!wider)
            return;
        it->at = wider;
        it->room = room;
    }
    it->at[it->length++] = number;
}

static void leaving_drop(Leaving *it)
{
    PyMem_Free(it->at);
    *it = (Leaving){ NULL, 0, 0 };
}

/* Room for many is given back. */
static void leaving_clear(Leaving *it)
{
    it->length = 0;
    if (it->room > 1024)
        leaving_drop(it);
}

static void note(Calls *it, uint32_t family, uint32_t number)
{
    leaving_push(&it->noted[family], number);
    it->is_due = true;
}

static void leaving_end(Calls *it)
{
    for (int family = 0; family < FAMILIES; family++)
        leaving_drop(&it->noted[family]);
    leaving_drop(&it->held);
}

/* ---- objects */

/* The object of a number, without a reference. One that is going already is none. */
static Thing *living(const Calls *it, uint32_t number, uint32_t family)
{
    PyObject *found = table_at(&it->kept, number, family);
    return found && (uint32_t)Py_REFCNT(found) > 0 ? (Thing *)found : NULL;
}

/* Whether a number that was noted has an object again, whose end is noted then. */
static bool is_found_again(const Calls *it, uint32_t number, uint32_t family)
{
    Thing *found = living(it, number, family);
    if (found)
        found->is_own = true;
    return found != NULL;
}

static int order_of_numbers(const void *one, const void *other)
{
    uint32_t a = *(const uint32_t *)one, b = *(const uint32_t *)other;
    return a < b ? -1 : a > b;
}

/* Puts the numbers in order, once. */
static bool waiting_sort(Waiting *it)
{
    if (it->sorted)
        return true;
    it->sorted = zeroed(it->length - it->from + 1, sizeof(uint32_t));
    if (!it->sorted)
        return false;
    for (size_t at = it->from; at < it->length; at++)
        it->sorted[it->sorted_length++] = it->at[at].number;
    qsort(it->sorted, it->sorted_length, sizeof(uint32_t), order_of_numbers);
    return true;
}

/* Checks whether an iterator still has to hand a node out. Returns true, too, if out of memory. */
static bool is_waited_for(Calls *it, uint32_t number)
{
    for (Waiting *its = it->waiting; its; its = its->next) {
        if (!waiting_sort(its) || bsearch(&number, its->sorted, its->sorted_length, sizeof(uint32_t), order_of_numbers))
            return true;
    }
    return false;
}

static void waiting_begin(Calls *of, Waiting *it)
{
    it->next = of->waiting;
    if (it->next)
        it->next->previous = it;
    of->waiting = it;
}

static void waiting_end(Calls *of, Waiting *it)
{
    if (it->next)
        it->next->previous = it->previous;
    if (it->previous)
        it->previous->next = it->next;
    else if (of->waiting == it)
        of->waiting = it->next;
    PyMem_Free(it->at);
    PyMem_Free(it->sorted);
    *it = (Waiting){ NULL, 0, 0, NULL, 0, NULL, NULL };
}

/* The node behind another in tree order, within a tree, or none. */
static uint32_t following(Calls *it, uint32_t at, uint32_t root)
{
    hp_node_links links;
    bool is_there = hp_links(&it->session, at, &links) == HP_OK;
    if (is_there && links.first_child != HP_NONE)
        return links.first_child;
    while (is_there && at != root && links.next == HP_NONE) {
        at = links.parent;
        is_there = hp_links(&it->session, at, &links) == HP_OK;
    }
    return is_there && at != root ? links.next : HP_NONE;
}

/* Whether a node of a tree has an object, or is to be handed out. Counts the nodes that are asked. */
static bool is_held(Calls *it, uint32_t root, size_t *steps)
{
    for (uint32_t at = root; at != HP_NONE; at = following(it, at, root)) {
        ++*steps;
        if (living(it, at, FAMILY_NODE) || (it->waiting && is_waited_for(it, at)))
            return true;
    }
    return false;
}

/* Whether a tree is a copy that is as it was made, and no object refers to a node of it or to a later one. */
static bool is_free_copy(const Calls *it, uint32_t root)
{
    return it->copied == root && !it->waiting && is_none_from(&it->kept.nodes, root);
}

/* ---- letting go */

typedef uint8_t Release(hp_session *, uint32_t);

static Release *const RELEASES[FAMILIES] = {
    [FAMILY_RANGE] = hp_release_range,
    [FAMILY_STATIC_RANGE] = hp_release_static_range,
    [FAMILY_NODE_ITERATOR] = hp_release_iterator,
    [FAMILY_TREE_WALKER] = hp_release_walker,
    [FAMILY_OBSERVER] = hp_release_observer,
};

static void release_noted(Calls *it, uint32_t family)
{
    Leaving *noted = &it->noted[family];
    while (noted->length) {
        uint32_t number = noted->at[--noted->length];
        if (is_found_again(it, number, family))
            continue;
        RELEASES[family](&it->session, number);
        it->since++;
    }
    leaving_clear(noted);
}

static uint8_t discarded(hp_session *session, uint32_t node)
{
    memory_own();
    uint8_t status = hp_discard(session, node);
    memory_release();
    return status;
}

/* Discards the tree of a root, unless it is held or in use. A node that stands in a tree goes with that one. */
static void discard_noted(Calls *it, uint32_t node)
{
    hp_node_links links;
    size_t steps = 0;
    if (is_found_again(it, node, FAMILY_NODE) || hp_links(&it->session, node, &links) != HP_OK || links.parent != HP_NONE)
        return;
    bool is_free = is_free_copy(it, node);
    moved(it);
    if ((!is_free && is_held(it, node, &steps)) || discarded(&it->session, node) == HP_IN_USE) {
        leaving_push(&it->held, node);
        it->steps += steps;
    }
}

/* Puts the roots that were held or in use among those that are tried. */
static void try_again(Calls *it)
{
    for (size_t at = 0; at < it->held.length; at++)
        note(it, FAMILY_NODE, it->held.at[at]);
    leaving_clear(&it->held);
    it->steps = it->since = 0;
}

/* Trying again waits until as many numbers were noted as it takes steps, so that nothing is asked over and over. */
static void discard_all_noted(Calls *it)
{
    Leaving *noted = &it->noted[FAMILY_NODE];
    it->since += noted->length;
    if (it->since >= it->steps)
        try_again(it);
    while (noted->length && !it->has_lines)
        discard_noted(it, noted->at[--noted->length]);
    leaving_clear(noted);
}

/* Frees the noted things, at the start of a call. No code of Python runs meanwhile. */
static void let_go_noted(Calls *it)
{
    if (!it->is_due || it->making)
        return;
    it->is_due = false;
    for (uint32_t family = FAMILY_RANGE; family < FAMILIES; family++)
        release_noted(it, family);
    discard_all_noted(it);
}

/* Frees all that nobody holds. It tries again, since a freed thing may have been the last use of a tree. */
static void let_all_go(Calls *it)
{
    size_t before;
    do {
        before = it->held.length + it->noted[FAMILY_NODE].length;
        try_again(it);
        it->is_due = true;
        let_go_noted(it);
    } while (it->held.length && it->held.length < before);
}

/* ---- nodes that the call which is made next may leave without a parent, though they have no object */

static void note_children(Calls *it, uint32_t node)
{
    hp_node_links links;
    uint32_t child = HP_NONE;
    hp_first_child(&it->session, node, &child);
    while (child != HP_NONE && hp_links(&it->session, child, &links) == HP_OK) {
        note(it, FAMILY_NODE, child);
        child = links.next;
    }
}

/* Notes the Texts that normalizing may take out: empty ones, and those behind another node. */
static void note_texts(Calls *it, uint32_t root)
{
    hp_node_links links;
    for (uint32_t at = root; at != HP_NONE && hp_links(&it->session, at, &links) == HP_OK; at = following(it, at, root)) {
        if (links.kind == KIND_TEXT && (links.length == 0 || links.previous != HP_NONE))
            note(it, FAMILY_NODE, at);
    }
}

#endif
