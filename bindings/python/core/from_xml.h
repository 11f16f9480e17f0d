/* XML by expat, as Python has it: its functions are those that the module pyexpat hands to other modules, so nothing is linked. */
#ifndef HUCKLEPORT_FROM_XML_H
#define HUCKLEPORT_FROM_XML_H

#include "building.h"

typedef struct XML_ParserStruct *Parser;
typedef void OnStart(void *, const char *, const char **);
typedef void OnEnd(void *, const char *);
typedef void OnText(void *, const char *, int);
typedef void OnComment(void *, const char *);
typedef void OnInstruction(void *, const char *, const char *);
typedef void OnDoctype(void *, const char *, const char *, const char *, int);
typedef int OnEncoding(void *, const char *, void *);

/* The functions that pyexpat hands out (its pyexpat.h), up to the last one that is used here. */
typedef struct {
    const char *magic;
    int size, version[3];
    const char *(*error_string)(int);
    int (*error_code)(Parser);
    unsigned long (*error_column)(Parser), (*error_line)(Parser);
    int (*parse)(Parser, const char *, int, int);
    Parser (*create)(const char *, const void *, const char *);
    void (*end)(Parser);
    void (*set_text)(Parser, OnText *);
    void (*set_comment)(Parser, OnComment *);
    void (*set_other)(Parser, OnText *);
    void (*set_element)(Parser, OnStart *, OnEnd *);
    void (*set_namespace)(Parser, void *, void *);
    void (*set_instruction)(Parser, OnInstruction *);
    void (*set_encodings)(Parser, OnEncoding *, void *);
    void (*set_data)(Parser, void *);
    void (*set_doctype)(Parser, OnDoctype *);
    int (*set_encoding)(Parser, const char *);
    OnEncoding *other_encoding;
} Expat;

/* A document that is parsed, and whether all went well so far. */
typedef struct {
    const Expat *expat;
    Parser parser;
    Builder *builder;
    bool is_whole;
    /* Whether this is within a doctype, whose content is not kept; there, whether it is within a declaration, and the quote of the open literal. */
    bool is_in_doctype, is_in_declaration;
    char quote;
} Xml;

/* (From the first element on the lock of memory is owned, unless another thread waits for it.) */
static void on_start(void *data, const char *name, const char **attributes)
{
    Xml *it = data;
    memory_own();
    it->is_whole = it->is_whole && start_element(it->builder, name);
    for (; it->is_whole && *attributes; attributes += 2)
        it->is_whole = value_of(it->builder, attributes[1]) && add_attribute(it->builder, attributes[0]);
    if (it->is_whole)
        end_attributes(it->builder);
}

static void on_end(void *data, const char *name)
{
    Xml *it = data;
    (void)name;
    memory_own();
    it->is_whole = it->is_whole && end_element(it->builder);
}

static void on_text(void *data, const char *text, int length)
{
    Xml *it = data;
    it->is_whole = it->is_whole && units_push(&it->builder->text, text, (size_t)length);
}

static void on_comment(void *data, const char *text)
{
    Xml *it = data;
    it->is_whole = it->is_whole && (it->is_in_doctype || add_comment(it->builder, text));
}

static void on_instruction(void *data, const char *target, const char *text)
{
    Xml *it = data;
    it->is_whole = it->is_whole && (it->is_in_doctype || add_instruction(it->builder, target, text));
}

/* Reads the content of a doctype, token by token. It ends with a > that ends no declaration in it, and is in no literal. */
static void on_token(void *data, const char *token, int length)
{
    Xml *it = data;
    char first = token[0], last = token[length - 1];
    if (it->quote) {
        it->quote = last == it->quote ? 0 : it->quote;
    } else if (first == '"' || first == '\'') {
        it->quote = length > 1 && last == first ? 0 : first;
    } else if (first == '<') {
        it->is_in_declaration = true;
    } else if (first == '>') {
        it->is_in_doctype = it->is_in_declaration;
        it->is_in_declaration = false;
    }
    if (!it->is_in_doctype)
        it->expat->set_other(it->parser, NULL);
}

static void on_doctype(void *data, const char *name, const char *system_id, const char *public_id, int has_internal)
{
    Xml *it = data;
    it->is_whole = it->is_whole && add_doctype(it->builder, name, public_id, system_id);
    it->is_in_doctype = has_internal;
    if (has_internal)
        it->expat->set_other(it->parser, on_token);
}

/* Python is asked for an encoding that expat does not know, and may run code. */
static int on_encoding(void *data, const char *name, void *to)
{
    memory_release();
    return ((const Expat *)data)->other_encoding(NULL, name, to);
}

/* Parses in pieces, since a length is an int. Whether it is well-formed. */
static bool is_parsed(const Xml *it, const char *octets, size_t length)
{
    const size_t most = 1 << 30;
    int status = 1;
    while (status && length > most) {
        status = it->expat->parse(it->parser, octets, (int)most, 0);
        octets += most;
        length -= most;
    }
    status = status && it->expat->parse(it->parser, octets, (int)length, 1);
    memory_release();
    return status;
}

/* What pyexpat hands out, or null with an exception. */
static const Expat *expat_found(void)
{
    static const char magic[] = "pyexpat.expat_CAPI 1.1";
    const Expat *found = PyCapsule_Import("pyexpat.expat_CAPI", 0);
    if (found && (strcmp(found->magic, magic) != 0 || (size_t)found->size < sizeof(Expat))) {
        PyErr_Format(PyExc_ImportError, "this Python's pyexpat is \"%s\" of %d bytes, and \"%s\" is needed", found->magic, found->size, magic);
        return NULL;
    }
    return found;
}

/* Whether XML was well-formed, and is built; an exception may be raised as well. */
static bool add_xml(Builder *builder, const char *octets, size_t length, bool is_utf8)
{
    const Expat *expat = expat_found();
    Xml it = { expat, expat ? expat->create(is_utf8 ? "utf-8" : NULL, NULL, NULL) : NULL, builder, true, false, false, 0 };
    if (!it.parser)
        return expat && PyErr_NoMemory();
    expat->set_data(it.parser, &it);
    expat->set_element(it.parser, on_start, on_end);
    expat->set_text(it.parser, on_text);
    expat->set_comment(it.parser, on_comment);
    expat->set_instruction(it.parser, on_instruction);
    expat->set_doctype(it.parser, on_doctype);
    expat->set_encodings(it.parser, on_encoding, (void *)expat);
    it.is_whole = building_begins(builder);
    bool is_done = is_parsed(&it, octets, length) && it.is_whole;
    expat->end(it.parser);
    if (is_done)
        building_ends(builder);
    return is_done;
}

/* Adds the nodes of a document of XML. Returns False where it is not well-formed. */
static PyObject *builder_add_xml(PyObject *self, PyObject *source)
{
    if (is_busy(((Builder *)self)->calls))
        return NULL;
    bool is_text = PyUnicode_Check(source);
    PyObject *octets = is_text ? PyUnicode_AsUTF8String(source) : same(source);
    char *at = NULL;
    Py_ssize_t length = 0;
    bool is_done = octets && PyBytes_AsStringAndSize(octets, &at, &length) == 0 && add_xml((Builder *)self, at, (size_t)length, is_text);
    Py_XDECREF(octets);
    return PyErr_Occurred() ? NULL : PyBool_FromLong(is_done);
}

#endif
