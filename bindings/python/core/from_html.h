/* HTML by html5-parser, whose trees are those of libxml2: they are read where they are, so nothing is linked. */
#ifndef HUCKLEPORT_FROM_HTML_H
#define HUCKLEPORT_FROM_HTML_H

#include "building.h"

/* Nodes as libxml2 has them in every version 2 (its tree.h), up to the last field that is read here: elements, attributes and texts... */
typedef struct {
    void *next;
    int type;
    const char *href, *prefix;
} TheirNamespace;

typedef struct Theirs {
    void *private;
    int type;
    const char *name;
    struct Theirs *children, *last, *parent, *next, *previous, *document;
    const TheirNamespace *namespace;
    const char *content;
    struct Theirs *attributes;
} Theirs;

/* ...doctypes, and documents. */
typedef struct {
    void *private;
    int type;
    const char *name;
    Theirs *children, *last, *parent, *next, *previous, *document;
    void *tables[4];
    const char *public_id, *system_id;
} TheirDoctype;

typedef struct {
    void *private;
    int type;
    const char *name;
    Theirs *children, *last, *parent, *next, *previous, *document;
    int compression, standalone;
    const TheirDoctype *doctype;
} TheirDocument;

/* Their numbers of types, which are the standard's. */
enum { THEIR_ELEMENT = 1, THEIR_TEXT = 3, THEIR_CDATA = 4, THEIR_INSTRUCTION = 7, THEIR_COMMENT = 8 };

/* The prefix that a name of a namespace has in HTML. */
static const char *prefix_of(const TheirNamespace *namespace)
{
    static const char *const known[][2] = {
        { "http://www.w3.org/1999/xlink", "xlink" },
        { "http://www.w3.org/XML/1998/namespace", "xml" },
        { "http://www.w3.org/2000/xmlns/", "xmlns" },
    };
    for (size_t at = 0; namespace && namespace->href && at < sizeof(known) / sizeof(*known); at++) {
        if (strcmp(namespace->href, known[at][0]) == 0)
            return known[at][1];
    }
    return NULL;
}

static bool add_prefixed(Builder *it, const char *prefix, const char *name)
{
    size_t first = strlen(prefix), length = strlen(name);
    char *whole = PyMem_Malloc(first + length + 2);
    if (!whole)
        return out_of_memory();
    memcpy(whole, prefix, first);
    whole[first] = ':';
    memcpy(whole + first + 1, name, length + 1);
    bool done = add_attribute(it, whole);
    PyMem_Free(whole);
    return done;
}

static bool add_their_attributes(Builder *it, const Theirs *attribute)
{
    bool done = true;
    for (; done && attribute; attribute = attribute->next) {
        const char *prefix = prefix_of(attribute->namespace);
        it->value.length = 0;
        for (const Theirs *part = attribute->children; done && part; part = part->next)
            done = !part->content || units_push(&it->value, part->content, strlen(part->content));
        done = done && (prefix ? add_prefixed(it, prefix, attribute->name) : add_attribute(it, attribute->name));
    }
    if (done)
        end_attributes(it);
    return done;
}

/* Adds a node without its descendants; an element stays open. */
static bool add_theirs(Builder *it, const Theirs *node)
{
    if (node->type == THEIR_ELEMENT)
        return start_element(it, node->name) && add_their_attributes(it, node->attributes);
    if (node->type == THEIR_COMMENT)
        return add_comment(it, node->content);
    if (node->type == THEIR_INSTRUCTION)
        return add_instruction(it, node->name, node->content);
    bool is_text = (node->type == THEIR_TEXT || node->type == THEIR_CDATA) && node->content;
    return !is_text || units_push(&it->text, node->content, strlen(node->content));
}

/* Adds all that is below a node. */
static bool add_below(Builder *it, const Theirs *top)
{
    const Theirs *node = top->children;
    bool done = true;
    memory_own();
    while (done && node && node != top) {
        done = add_theirs(it, node);
        if (done && node->type == THEIR_ELEMENT && node->children) {
            node = node->children;
            continue;
        }
        done = done && (node->type != THEIR_ELEMENT || end_element(it));
        while (done && !node->next && node->parent != top) {
            node = node->parent;
            done = end_element(it);
        }
        node = node->next;
    }
    done = done && put_text(it);
    memory_release();
    return done;
}

/* Whether a comment stands before the root. */
static bool has_comment_first(const TheirDocument *document)
{
    const Theirs *node = document->children;
    while (node && node->type != THEIR_ELEMENT && node->type != THEIR_COMMENT)
        node = node->next;
    return node && node->type == THEIR_COMMENT;
}

/* The document that a capsule of html5-parser has, or null with an exception. */
static const TheirDocument *document_in(PyObject *page)
{
    static const char name[] = "libxml2:xmlDoc";
    if (PyCapsule_IsValid(page, name))
        return PyCapsule_GetPointer(page, name);
    PyErr_SetString(PyExc_TypeError, "expected a page of html5-parser");
    return NULL;
}

/* Adds the nodes of a page, first the doctype. Where that may not stand first, since there are comments, nothing is added if that is asked for,
 * and it returns False. */
static PyObject *builder_add_page(PyObject *self, PyObject *words)
{
    if (is_busy(((Builder *)self)->calls))
        return NULL;
    Builder *it = (Builder *)self;
    bool is_exact = false;
    if (!is_counted(words, 2, "add_page") || !bool_of(word(words, 1), &is_exact))
        return NULL;
    const TheirDocument *document = document_in(word(words, 0));
    if (!document)
        return NULL;
    const TheirDoctype *doctype = document->doctype;
    if (doctype && is_exact && has_comment_first(document))
        return PyBool_FromLong(false);
    bool done = building_begins(it) && (!doctype || add_doctype(it, doctype->name, doctype->public_id, doctype->system_id));
    if (!done || !add_below(it, (const Theirs *)document))
        return NULL;
    building_ends(it);
    return PyBool_FromLong(true);
}

/* Adds the nodes of a part of a page, which stand under the root. */
static PyObject *builder_add_part(PyObject *self, PyObject *page)
{
    if (is_busy(((Builder *)self)->calls))
        return NULL;
    const TheirDocument *document = document_in(page);
    const Theirs *root = document ? document->children : NULL;
    while (root && root->type != THEIR_ELEMENT)
        root = root->next;
    if (!document || !building_begins((Builder *)self) || (root && !add_below((Builder *)self, root)))
        return NULL;
    building_ends((Builder *)self);
    return none();
}

#endif
