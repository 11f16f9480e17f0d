/* A cache of facts about nodes, by their numbers: the kind and the name, which never change, if the name is not long; and the names of the attributes
 * until one is set or removed. Entries are added as nodes are made and asked for. The library is asked for all that is not cached. */
#ifndef HUCKLEPORT_LABELS_H
#define HUCKLEPORT_LABELS_H

#include "core.h"

enum { PAGE_BITS = 10, PAGE = 1 << PAGE_BITS, LABEL_ROOM = 45, MOST_LABELS = 4096, MET = 256 };

/* A kind, and a name where it is known. */
typedef struct {
    uint8_t kind, length;
    bool is_named;
    char name[LABEL_ROOM];
} Label;

/* The names of attributes in their order: those of another shape, and one more. */
typedef struct {
    uint16_t before, label, count;
} Shape;

/* The first shape means that the names are unknown, the second has no name. */
enum { UNKNOWN = 0, BARE = 1 };

/* The places of a number's label and shape, or 0. */
typedef struct {
    uint16_t label, shape;
} Known;

/* The labels, with an index by their content, and the last one that was found for names with the same ends; the shapes, with an index; and an entry
 * for each number. The entries are stored in pages. */
typedef struct {
    Label *at;
    size_t length, room;
    uint16_t *index;
    size_t index_room;
    uint16_t met[MET];
    uint16_t of_kind[KINDS];
    Shape *shapes;
    uint16_t *shapes_index;
    size_t shapes_length;
    Known **pages;
    size_t pages_length, pages_made;
} Labels;

static void labels_drop_pages(Labels *it)
{
    for (size_t at = 0; at < it->pages_length; at++)
        PyMem_Free(it->pages[at]);
    PyMem_Free(it->pages);
    it->pages = NULL;
    it->pages_length = it->pages_made = 0;
}

static void labels_drop(Labels *it)
{
    labels_drop_pages(it);
    PyMem_Free(it->at);
    PyMem_Free(it->index);
    PyMem_Free(it->shapes);
    PyMem_Free(it->shapes_index);
    memset(it, 0, sizeof(*it));
}

/* Returns the entry of a number, or null. */
static Known *known_of(const Labels *it, uint32_t number)
{
    size_t page = number >> PAGE_BITS;
    return page < it->pages_length && it->pages[page] ? &it->pages[page][number & (PAGE - 1)] : NULL;
}

/* The place of the label of a number, or 0. */
static unsigned label_place(const Labels *it, uint32_t number)
{
    const Known *found = known_of(it, number);
    return found ? found->label : 0;
}

static unsigned shape_place(const Labels *it, uint32_t number)
{
    const Known *found = known_of(it, number);
    return found ? found->shape : UNKNOWN;
}

/* ---- labels by what they say */

static uint16_t *label_slot(const Labels *it, const Label *label)
{
    uint32_t mark = label->kind + 16u * label->is_named;
    for (unsigned at = 0; at < label->length; at++)
        mark = mark * 31 + (uint8_t)label->name[at];
    size_t at = (mark ^ mark >> 15) & (it->index_room - 1);
    for (; it->index[at]; at = (at + 1) & (it->index_room - 1)) {
        const Label *found = &it->at[it->index[at]];
        if (found->kind == label->kind && found->is_named == label->is_named && found->length == label->length && memcmp(found->name, label->name, label->length) == 0)
            break;
    }
    return &it->index[at];
}

/* Makes room for one more; the first place stays empty. */
static bool labels_grow(Labels *it)
{
    size_t room = it->room ? 2 * it->room : 32;
    Label *wider = PyMem_Realloc(it->at, room * sizeof(Label));
    uint16_t *index = wider ? zeroed(2 * room, sizeof(uint16_t)) : NULL;
    it->at = wider ? wider : it->at;
    if (!index)
        return false;
    PyMem_Free(it->index);
    it->index = index;
    it->index_room = 2 * room;
    it->room = room;
    it->length += it->length == 0;
    for (size_t at = 1; at < it->length; at++)
        *label_slot(it, &it->at[at]) = (uint16_t)at;
    return true;
}

/* The place of a label, which is put in where it is new; or 0 where there is no room. */
static unsigned label_put(Labels *it, const Label *label)
{
    if (it->length == it->room && (it->room == MOST_LABELS || !labels_grow(it)))
        return 0;
    uint16_t *slot = label_slot(it, label);
    if (!*slot) {
        it->at[it->length] = *label;
        *slot = (uint16_t)it->length++;
    }
    return *slot;
}

/* The label of a kind whose name is not known, or that has none. */
static unsigned label_of_kind(Labels *it, uint8_t kind)
{
    uint16_t *known = &it->of_kind[kind];
    if (*known && it->at[*known].kind == kind)
        return *known;
    Label label = { kind, 0, false, "" };
    unsigned found = label_put(it, &label);
    *known = (uint16_t)found;
    return found;
}

/* Checks whether a label is of a kind with a name. */
static bool is_label(const Label *it, uint8_t kind, const void *name, size_t length)
{
    return it->is_named && it->kind == kind && it->length == length && memcmp(it->name, name, length) == 0;
}

/* The place of the last label that was found for a name of these ends. The factors keep most of HTML's names apart. */
static uint16_t *label_met(Labels *it, uint8_t kind, const uint8_t *name, size_t length)
{
    size_t ends = length ? 3 * length + 17u * name[0] + 9u * name[length - 1] : 0;
    return &it->met[(ends + 67u * kind) & (MET - 1)];
}

/* The label of a kind with a name; a long one is left out. */
static unsigned label_of_name(Labels *it, uint8_t kind, const void *name, size_t length)
{
    uint16_t *met = label_met(it, kind, name, length);
    if (*met && is_label(&it->at[*met], kind, name, length))
        return *met;
    Label label = { kind, (uint8_t)length, true, "" };
    if (length > LABEL_ROOM)
        return label_of_kind(it, kind);
    memcpy(label.name, name, length);
    unsigned found = label_put(it, &label);
    *met = (uint16_t)found;
    return found ? found : label_of_kind(it, kind);
}

/* ---- shapes */

enum { MOST_SHAPES = 1024 };

static uint16_t *shape_slot(const Labels *it, unsigned before, unsigned label)
{
    size_t at = (before * 31 + label) * 2654435761u >> 7 & (2 * MOST_SHAPES - 1);
    while (it->shapes_index[at] && (it->shapes[it->shapes_index[at]].before != before || it->shapes[it->shapes_index[at]].label != label))
        at = (at + 1) & (2 * MOST_SHAPES - 1);
    return &it->shapes_index[at];
}

static bool has_shapes(Labels *it)
{
    if (it->shapes_length)
        return true;
    it->shapes = it->shapes ? it->shapes : zeroed(MOST_SHAPES, sizeof(Shape));
    it->shapes_index = it->shapes_index ? it->shapes_index : zeroed(2 * MOST_SHAPES, sizeof(uint16_t));
    it->shapes_length = it->shapes && it->shapes_index ? BARE + 1 : 0;
    return it->shapes_length;
}

/* Whether a shape has a name. */
static bool shape_has(const Labels *it, unsigned shape, unsigned label)
{
    while (shape > BARE && it->shapes[shape].label != label)
        shape = it->shapes[shape].before;
    return shape > BARE;
}

/* The shape with a name more, or the unknown one where there is no room. */
static unsigned shape_with(Labels *it, unsigned before, const void *name, size_t length)
{
    unsigned label = before && length <= LABEL_ROOM && has_shapes(it) ? label_of_name(it, KIND_ATTRIBUTE, name, length) : 0;
    if (!label || !it->at[label].is_named)
        return UNKNOWN;
    if (shape_has(it, before, label))
        return before;
    uint16_t *slot = shape_slot(it, before, label);
    if (!*slot && it->shapes_length < MOST_SHAPES) {
        it->shapes[it->shapes_length] = (Shape){ (uint16_t)before, (uint16_t)label, (uint16_t)(it->shapes[before].count + 1) };
        *slot = (uint16_t)it->shapes_length++;
    }
    return *slot;
}

/* ---- numbers and their entries */

/* Whether the pages have far more numbers than there are nodes: then all of them go. */
static bool is_sparse(const Labels *it, hp_session *session)
{
    hp_counts counts;
    return it->pages_made >= 64 && hp_in_use(session, &counts) == HP_OK && it->pages_made * (PAGE / 8) > counts.nodes;
}

/* Makes the page of entries if it is missing; returns it, or null if out of memory. */
static Known *page_made(Labels *it, hp_session *session, size_t page)
{
    if (is_sparse(it, session))
        labels_drop_pages(it);
    if (page >= it->pages_length) {
        size_t length = page + page / 2 + 8;
        Known **wider = PyMem_Realloc(it->pages, length * sizeof(*wider));
        if (!wider)
            return NULL;
        memset(wider + it->pages_length, 0, (length - it->pages_length) * sizeof(*wider));
        it->pages = wider;
        it->pages_length = length;
    }
    it->pages[page] = zeroed(PAGE, sizeof(Known));
    it->pages_made += it->pages[page] != NULL;
    return it->pages[page];
}

/* Returns the entry of a number, which is made if it is missing, or null if out of memory. */
static Known *known_made(Labels *it, hp_session *session, uint32_t number)
{
    Known *known = known_of(it, number);
    if (known)
        return known;
    Known *page = page_made(it, session, number >> PAGE_BITS);
    return page ? &page[number & (PAGE - 1)] : NULL;
}

/* Learns the label of a number. */
static void learn(Labels *it, hp_session *session, uint32_t number, unsigned label)
{
    Known *known = label ? known_made(it, session, number) : NULL;
    if (known)
        known->label = (uint16_t)label;
}

/* Learns the label of an element and the names of its attributes. */
static void learn_element(Labels *it, hp_session *session, uint32_t element, unsigned label, unsigned shape)
{
    Known *known = label || shape ? known_made(it, session, element) : NULL;
    if (known)
        *known = (Known){ (uint16_t)label, (uint16_t)shape };
}

/* Learns the names of the attributes of an element. */
static void learn_shape(Labels *it, hp_session *session, uint32_t element, unsigned shape)
{
    Known *known = shape ? known_made(it, session, element) : known_of(it, element);
    if (known)
        known->shape = (uint16_t)shape;
}

#endif
