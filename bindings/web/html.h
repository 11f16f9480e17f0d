/* Nodes as HTML: a node and all below it are written by one call, in UTF-16, by the steps of the HTML Standard (serializing HTML fragments).
 *
 * What an element is by its name, and how names are written, JavaScript tells once for each name, when it is first met. How a tree is written stands here
 * alone. */
#ifndef HUCKLEPORT_WEB_HTML_H
#define HUCKLEPORT_WEB_HTML_H

#include "base.h"

/* The status of a call that met names whose form is unknown. It puts these names: the number of each, and 1 for an attribute's name, otherwise 0. */
#define UNTOLD 253

enum { INSTRUCTION = 7, COMMENT = 8 };

/* What an element is by its name: without content, with text as it is, with content elsewhere. */
enum { IS_VOID = 1, IS_RAW = 2, IS_TEMPLATE = 4 };

/* ---- How names are written. */

/* How a name is written. For an element: its start tag up to the attributes, then its end tag. For an attribute: the text before its value. */
struct form {
    uint32_t marks, start, end;
    uint16_t units[];
};

/* Tells how the name of an element (kind 0) or of an attribute (1) is written, by units that stand in the room. */
SHOWN(tell_form)(uint32_t number, uint32_t kind, uint32_t marks, uint32_t at, uint32_t start, uint32_t end)
{
    if (is_busy)
        return STUCK;
    if (number >= name_count || kind > 1)
        return HP_NOT_THERE;
    size_t size = ((size_t)start + end) * sizeof(uint16_t);
    struct form *its = heap_take(sizeof(*its) + size);
    if (!its)
        return HP_OUT_OF_MEMORY;
    *its = (struct form){ .marks = marks, .start = start, .end = end };
    __builtin_memcpy(its->units, pointer(at), size);
    heap_give(names[number].forms[kind]);
    names[number].forms[kind] = its;
    return HP_OK;
}

/* The number of the current call, so that it notes each unknown name once, and whether it has met one. */
static uint32_t asking;
static bool is_untold;

static bool note_untold(uint32_t number, uint32_t kind)
{
    if (!is_untold)
        begin_words();
    is_untold = true;
    if (names[number].asked[kind] == asking)
        return true;
    names[number].asked[kind] = asking;
    if (!has_words(2))
        return false;
    put(number);
    put(kind);
    return true;
}

/* Finds how a name is written, or NULL if that is unknown. Fails if out of memory. */
static bool find_form(uint32_t number, uint32_t kind, const struct form **found)
{
    if (number == HP_NONE)
        return false;
    *found = names[number].forms[kind];
    return *found || note_untold(number, kind);
}

/* ---- The text that is written. */

static uint16_t *html;
static uint32_t html_length, html_room;

static bool has_html(size_t more)
{
    if (html_length + more <= html_room)
        return true;
    uint16_t *its = lengthened(html, &html_room, html_length + more, sizeof(*html));
    if (!its)
        return false;
    html = its;
    return true;
}

static bool write_units(const uint16_t *units, size_t count)
{
    if (!has_html(count))
        return false;
    uint16_t *to = html + html_length;
    for (size_t at = 0; at < count; at++)
        to[at] = units[at];
    html_length += (uint32_t)count;
    return true;
}

static bool write_ascii(const char *text)
{
    for (; *text; text++) {
        if (!has_html(1))
            return false;
        html[html_length++] = (uint8_t)*text;
    }
    return true;
}

/* Returns the escape of a unit in a text or in an attribute's value, or NULL if the unit is written as it is. */
static const char *escape_of(uint16_t unit, bool is_value)
{
    switch (unit) {
    case '&': return "&amp;";
    case 0xa0: return "&nbsp;";
    case '<': return "&lt;";
    case '>': return "&gt;";
    case '"': return is_value ? "&quot;" : NULL;
    default: return NULL;
    }
}

/* How many units from the first on stand for themselves. */
static size_t plain_run(const uint16_t *units, size_t count, bool is_value)
{
    size_t at = 0;
    while (at < count && !escape_of(units[at], is_value))
        at++;
    return at;
}

static bool write_escaped(const hp_text_view *text, bool is_value)
{
    const uint16_t *units = text->units;
    for (size_t left = text->length; left > 0;) {
        size_t run = plain_run(units, left, is_value);
        if (!write_units(units, run))
            return false;
        units += run;
        left -= run;
        if (left == 0)
            break;
        if (!write_ascii(escape_of(*units, is_value)))
            return false;
        units++;
        left--;
    }
    return true;
}

/* Writes a name, which is UTF-8. */
static bool write_name(const name *its)
{
    size_t at = 0;
    while (at < its->length) {
        uint8_t first = its->bytes[at];
        uint32_t more = first < 0xc0 ? 0 : first < 0xe0 ? 1 : first < 0xf0 ? 2 : 3, point = more ? first & (0x3f >> more) : first;
        for (at++; more > 0; more--, at++)
            point = point << 6 | (its->bytes[at] & 0x3f);
        if (!has_html(2))
            return false;
        if (point > 0xffff)
            html[html_length++] = (uint16_t)(0xd7c0 + (point >> 10));
        html[html_length++] = (uint16_t)(point > 0xffff ? 0xdc00 | (point & 0x3ff) : point);
    }
    return true;
}

/* ---- The steps, from node to node by their links. */

/* An open node:
 *
 * - how its tags are written, NULL if it has none;
 * - whether its tags are left out, since only its content is asked for;
 * - whether its content is left out;
 * - the node after it. */
struct open {
    const struct form *form;
    bool is_bare, is_shut;
    uint32_t next;
};

static struct open *open;
static uint32_t open_count, open_room;
/* The options of the call: whether only the content of the first node is written, and whether the contents of templates are left out. */
static bool is_inner, has_contents;

static bool put_open(struct open its)
{
    if (open_count == open_room) {
        struct open *longer = lengthened(open, &open_room, open_count + 1, sizeof(*open));
        if (!longer)
            return false;
        open = longer;
    }
    open[open_count++] = its;
    return true;
}

static bool write_end(const struct open *its)
{
    return !its->form || its->is_bare || write_units(its->form->units + its->form->start, its->form->end);
}

static bool write_attributes(hp_session *session, uint32_t node)
{
    hp_bytes its;
    hp_text_view value;
    const struct form *form;
    for (size_t at = 0; hp_attribute_at(session, node, at, &its, &value) == HP_OK; at++) {
        if (!find_form(number_of_name(its.bytes, its.length), 1, &form))
            return false;
        if (form && !(write_units(form->units, form->start) && write_escaped(&value, true) && write_ascii("\"")))
            return false;
    }
    return true;
}

/* Notes a template, whose contents come where the text ends now. */
static bool note_template(uint32_t node)
{
    if (is_untold)
        return true;
    if (!has_words(2))
        return false;
    put(node);
    put(html_length);
    return true;
}

static bool write_tag(hp_session *session, uint32_t node, const struct form *form)
{
    return (!form || write_units(form->units, form->start)) && write_attributes(session, node) && write_ascii(">");
}

static bool write_start(hp_session *session, uint32_t node, struct open *its)
{
    uint32_t number;
    its->is_bare = is_inner && open_count == 0;
    if (name_of(session, node, &number) != HP_OK || !find_form(number, 0, &its->form))
        return false;
    if (!its->is_bare && !write_tag(session, node, its->form))
        return false;
    uint32_t marks = its->form ? its->form->marks : 0;
    bool is_template = marks & IS_TEMPLATE && has_contents && !its->is_bare;
    its->is_shut = marks & IS_VOID || is_template;
    return !is_template || note_template(node);
}

static bool write_text(const hp_text_view *data)
{
    const struct form *within = open_count ? open[open_count - 1].form : NULL;
    return within && within->marks & IS_RAW ? write_units(data->units, data->length) : write_escaped(data, false);
}

/* Writes a node that has no children. */
static bool write_leaf(hp_session *session, uint32_t node, uint8_t kind)
{
    uint32_t number;
    hp_text_view data = { NULL, 0 };
    if (kind != DOCTYPE && hp_data_of(session, node, &data) != HP_OK)
        return false;
    if (kind == TEXT)
        return write_text(&data);
    if (kind == COMMENT)
        return write_ascii("<!--") && write_units(data.units, data.length) && write_ascii("-->");
    if (name_of(session, node, &number) != HP_OK || !write_ascii(kind == DOCTYPE ? "<!DOCTYPE " : "<?") || !write_name(&names[number]))
        return false;
    return kind == DOCTYPE ? write_ascii(">") : write_ascii(" ") && write_units(data.units, data.length) && write_ascii(">");
}

/* Writes a node up to its content, and sets `next` to the node that follows: its first child, the node after it, or HP_NONE. */
static bool write_node(hp_session *session, uint32_t node, uint32_t *next)
{
    hp_node_links links;
    if (hp_links(session, node, &links) != HP_OK)
        return false;
    *next = open_count == 0 ? HP_NONE : links.next;
    if (links.kind == TEXT || links.kind == COMMENT || links.kind == INSTRUCTION || links.kind == DOCTYPE)
        return write_leaf(session, node, links.kind);
    struct open its = { .next = *next };
    if (links.kind == ELEMENT && !write_start(session, node, &its))
        return false;
    if (its.is_shut || links.first_child == HP_NONE)
        return write_end(&its);
    *next = links.first_child;
    return put_open(its);
}

/* Ends the nodes in which none is left, and goes on behind them. */
static bool end_nodes(uint32_t *next)
{
    while (*next == HP_NONE && open_count > 0) {
        struct open its = open[--open_count];
        *next = its.next;
        if (!write_end(&its))
            return false;
    }
    return true;
}

static void begin_html(void)
{
    html_length = open_count = 0;
    html = unless_large(html, &html_room, sizeof(*html));
    open = unless_large(open, &open_room, sizeof(*open));
    is_untold = false;
    asking++;
}

/* Writes a node and its descendants as HTML, or its content alone if `inner` is not 0. The third and fourth numbers are the text's address and length.
 * If `contents` is not 0, the contents of templates are left out. The call then puts the templates: the number of each, and the offset in the text at which
 * its contents belong. */
SHOWN(html)(uint32_t index, uint32_t node, uint32_t inner, uint32_t contents)
{
    hp_session *session;
    hp_node_links links;
    uint32_t refused = enter(index, &session);
    if (refused)
        return refused;
    begin_words();
    begin_html();
    is_inner = inner != 0;
    has_contents = contents != 0;
    uint32_t status = hp_links(session, node, &links);
    while (status == HP_OK && node != HP_NONE)
        if (!write_node(session, node, &node) || !end_nodes(&node))
            status = HP_OUT_OF_MEMORY;
    numbers[2] = place(html);
    numbers[3] = html_length;
    return end_words(status == HP_OK && is_untold ? UNTOLD : status);
}

#endif
