/* Loads a page of HTML into a session by the callbacks of libxml2's parser (SAX), and writes the page as HTML.
 * Build: gcc load_html.c $(pkg-config --cflags --libs huckleport libxml-2.0)
 * Run: ./a.out page.html, a page in UTF-8; without a name it is read from standard input.
 */
#include "huckleport.h"
#include <libxml/HTMLparser.h>
#include <stdio.h>
#include <stdlib.h>
#include <string.h>

typedef struct loader {
    hp_session session;
    htmlParserCtxtPtr parser;
    uint32_t parent; /* the node that is filled now */
    uint32_t text; /* the Text at its end, or HP_NONE */
    uint16_t *units; /* the last text in UTF-16 */
    size_t count, room;
    const char *refused; /* the first call that was refused, or null, and why it was */
    uint8_t status;
} loader;

/* Returns whether a call and all calls before it succeeded. The first refused call ends the loading, and is reported in the end. */
static bool did(loader *it, const char *call, uint8_t status)
{
    if (status == HP_OK)
        return !it->refused;
    if (!it->refused) {
        it->refused = call;
        it->status = status;
        if (it->parser)
            xmlStopParser(it->parser);
    }
    return false;
}

/* ---- Texts. The parser uses UTF-8, the library UTF-16. */

static size_t length_of(const xmlChar *text)
{
    return text ? strlen((const char *)text) : 0;
}

/* Stores a text as UTF-16 units. There are at most as many units as bytes. */
static bool keep_units(loader *it, const xmlChar *text, size_t length)
{
    if (it->room < length) {
        uint16_t *more = realloc(it->units, length * sizeof *more);
        if (!more)
            return did(it, "realloc", HP_OUT_OF_MEMORY);
        it->units = more;
        it->room = length;
    }
    it->count = 0;
    for (size_t at = 0; at < length;) {
        int width = length - at < 4 ? (int)(length - at) : 4;
        int code = xmlGetUTF8Char(text + at, &width);
        at += code < 0 ? 1 : (size_t)width;
        if (code > 0xffff)
            it->units[it->count++] = (uint16_t)(0xd7c0 + (code >> 10));
        it->units[it->count++] = (uint16_t)(code < 0 ? 0xfffd : code > 0xffff ? 0xdc00 | (code & 0x3ff) : code);
    }
    return true;
}

/* ---- The callbacks of the parser. */

static void put(loader *it, uint32_t node)
{
    it->text = HP_NONE;
    did(it, "hp_append_child", hp_append_child(&it->session, it->parent, node));
}

static void doctype(void *data, const xmlChar *name, const xmlChar *public_id, const xmlChar *system_id)
{
    loader *it = data;
    uint32_t made;
    if (did(it, "hp_create_doctype", hp_create_doctype(&it->session, 0, name, length_of(name), public_id, length_of(public_id), system_id, length_of(system_id), &made)))
        put(it, made);
}

/* Sets an attribute. The parser takes names that no attribute has by the DOM Standard; these are left out. */
static void set_attribute(loader *it, uint32_t element, const xmlChar *name, const xmlChar *value)
{
    uint8_t status;
    if (!keep_units(it, value, length_of(value)))
        return;
    status = hp_set_attribute(&it->session, element, name, length_of(name), it->units, it->count);
    if (status == HP_INVALID_CHARACTER_ERROR)
        fprintf(stderr, "load_html: left out the attribute %s: %s\n", (const char *)name, hp_status_word(status));
    else
        did(it, "hp_set_attribute", status);
}

static void start_element(void *data, const xmlChar *name, const xmlChar **attributes)
{
    loader *it = data;
    uint32_t made;
    if (!did(it, "hp_create_element", hp_create_element(&it->session, 0, name, length_of(name), &made)))
        return;
    for (; attributes && attributes[0]; attributes += 2)
        set_attribute(it, made, attributes[0], attributes[1]);
    put(it, made);
    it->parent = made;
}

static void end_element(void *data, const xmlChar *name)
{
    loader *it = data;
    hp_place place;
    (void)name;
    it->text = HP_NONE;
    if (it->parent != 0 && did(it, "hp_node", hp_node(&it->session, it->parent, &place)))
        it->parent = place.parent;
}

/* The parser tells a text in pieces; they become one Text. White space outside of all elements has no place in a Document. */
static void characters(void *data, const xmlChar *text, int length)
{
    loader *it = data;
    uint32_t made;
    if (it->parent == 0 || !keep_units(it, text, (size_t)length))
        return;
    if (it->text != HP_NONE) {
        did(it, "hp_append_data", hp_append_data(&it->session, it->text, it->units, it->count));
    } else if (did(it, "hp_create_text", hp_create_text(&it->session, 0, it->units, it->count, &made))) {
        put(it, made);
        it->text = made;
    }
}

static void comment(void *data, const xmlChar *text)
{
    loader *it = data;
    uint32_t made;
    if (keep_units(it, text, length_of(text)) && did(it, "hp_create_comment", hp_create_comment(&it->session, 0, it->units, it->count, &made)))
        put(it, made);
}

static void instruction(void *data, const xmlChar *target, const xmlChar *text)
{
    loader *it = data;
    uint32_t made;
    if (keep_units(it, text, length_of(text)) && did(it, "hp_create_pi", hp_create_pi(&it->session, 0, target, length_of(target), it->units, it->count, &made)))
        put(it, made);
}

/* Feeds the parser with a file, piece by piece. Tells whether the file could be read. */
static bool load(loader *it, FILE *page)
{
    char piece[4096];
    size_t length;
    htmlSAXHandler told = { 0 };
    told.internalSubset = doctype;
    told.startElement = start_element;
    told.endElement = end_element;
    told.characters = told.cdataBlock = told.ignorableWhitespace = characters;
    told.comment = comment;
    told.processingInstruction = instruction;
    it->parser = htmlCreatePushParserCtxt(&told, it, NULL, 0, NULL, XML_CHAR_ENCODING_UTF8);
    if (!it->parser)
        return did(it, "htmlCreatePushParserCtxt", HP_OUT_OF_MEMORY);
    while (!it->refused && (length = fread(piece, 1, sizeof piece, page)) > 0)
        htmlParseChunk(it->parser, piece, (int)length, 0);
    htmlParseChunk(it->parser, NULL, 0, 1);
    htmlFreeParserCtxt(it->parser);
    it->parser = NULL;
    return !ferror(page);
}

/* ---- Writing, by the serialization rules of the HTML Standard. */

static const char *const voids[] = { "area", "base", "basefont", "bgsound", "br", "col", "embed", "frame", "hr", "img", "input", "keygen", "link", "meta", "param", "source",
    "track", "wbr", NULL };
static const char *const plains[] = { "iframe", "noembed", "noframes", "plaintext", "script", "style", "xmp", NULL };

static bool is_one_of(hp_bytes name, const char *const *names)
{
    while (*names && (strlen(*names) != name.length || memcmp(*names, name.bytes, name.length)))
        names++;
    return *names != NULL;
}

static void put_bytes(hp_bytes it)
{
    fwrite(it.bytes, 1, it.length, stdout);
}

static void put_code(uint32_t code)
{
    if (code < 0x80)
        putchar((int)code);
    else if (code < 0x800)
        printf("%c%c", (int)(0xc0 | code >> 6), (int)(0x80 | (code & 63)));
    else if (code < 0x10000)
        printf("%c%c%c", (int)(0xe0 | code >> 12), (int)(0x80 | (code >> 6 & 63)), (int)(0x80 | (code & 63)));
    else
        printf("%c%c%c%c", (int)(0xf0 | code >> 18), (int)(0x80 | (code >> 12 & 63)), (int)(0x80 | (code >> 6 & 63)), (int)(0x80 | (code & 63)));
}

static const char *escape_of(uint32_t code, bool is_value)
{
    switch (code) {
    case '&': return "&amp;";
    case '<': return "&lt;";
    case '>': return "&gt;";
    case 0xa0: return "&nbsp;";
    case '"': return is_value ? "&quot;" : NULL;
    default: return NULL;
    }
}

/* How a text is written: as it is, with its signs escaped, or as the value of an attribute. */
enum form { PLAIN, ESCAPED, VALUE };

/* Writes units as UTF-8; a surrogate that stands alone is U+FFFD. */
static void put_units(hp_text_view text, enum form form)
{
    for (size_t i = 0; i < text.length; i++) {
        uint32_t code = text.units[i];
        if ((code & 0xfc00) == 0xd800 && i + 1 < text.length && (text.units[i + 1] & 0xfc00) == 0xdc00)
            code = 0x10000 + ((code & 0x3ff) << 10) + (text.units[++i] & 0x3ff);
        else if ((code & 0xf800) == 0xd800)
            code = 0xfffd;
        const char *escape = form == PLAIN ? NULL : escape_of(code, form == VALUE);
        if (escape)
            fputs(escape, stdout);
        else
            put_code(code);
    }
}

/* The calls that read the answer of hp_tree take a row by its index. */
static hp_bytes name_of(loader *it, size_t row)
{
    hp_bytes name;
    did(it, "hp_row_name", hp_row_name(&it->session, row, 0, &name));
    return name;
}

static void put_start(loader *it, size_t row, size_t attributes)
{
    putchar('<');
    put_bytes(name_of(it, row));
    for (size_t at = 0; at < attributes; at++) {
        hp_bytes name;
        hp_text_view value;
        did(it, "hp_row_attribute_name", hp_row_attribute_name(&it->session, row, at, &name));
        did(it, "hp_row_attribute_value", hp_row_attribute_value(&it->session, row, at, &value));
        putchar(' ');
        put_bytes(name);
        fputs("=\"", stdout);
        put_units(value, VALUE);
        putchar('"');
    }
    putchar('>');
}

static void put_end(loader *it, size_t row)
{
    fputs("</", stdout);
    put_bytes(name_of(it, row));
    putchar('>');
}

static void put_data(loader *it, size_t row, enum form form)
{
    hp_text_view data;
    did(it, "hp_row_text", hp_row_text(&it->session, row, &data));
    put_units(data, form);
}

static void put_doctype(loader *it, size_t row)
{
    fputs("<!DOCTYPE ", stdout);
    put_bytes(name_of(it, row));
    putchar('>');
}

static void put_comment(loader *it, size_t row)
{
    fputs("<!--", stdout);
    put_data(it, row, PLAIN);
    fputs("-->", stdout);
}

static void put_instruction(loader *it, size_t row)
{
    fputs("<?", stdout);
    put_bytes(name_of(it, row));
    putchar(' ');
    put_data(it, row, PLAIN);
    putchar('>');
}

/* An element that has no end tag yet: its row, and how deep it stands. */
typedef struct open_row {
    size_t row, depth;
} open_row;

/* Writes a row inside the open element around it, if any. Returns whether its contents and an end tag follow. */
static bool put_row(loader *it, size_t at, const hp_row *row, const open_row *around)
{
    switch (row->type) {
    case 1: put_start(it, at, row->attributes); return !is_one_of(name_of(it, at), voids);
    case 3: put_data(it, at, around && is_one_of(name_of(it, around->row), plains) ? PLAIN : ESCAPED); return false;
    case 7: put_instruction(it, at); return false;
    case 8: put_comment(it, at); return false;
    case 10: put_doctype(it, at); return false;
    default: return false;
    }
}

/* Ends each open element that is not above this depth; returns how many are still open. */
static size_t end_down_to(loader *it, size_t depth, const open_row *open, size_t height)
{
    for (; height > 0 && open[height - 1].depth >= depth; height--)
        put_end(it, open[height - 1].row);
    return height;
}

/* Writes all rows but the first, which is the Document's. The contents of an element that has no end tag are not written. */
static void put_rows(loader *it, size_t count, open_row *open)
{
    size_t height = 0, hidden = SIZE_MAX;
    hp_row row;
    for (size_t at = 1; at < count && did(it, "hp_row_at", hp_row_at(&it->session, at, &row)); at++) {
        if (row.depth > hidden)
            continue;
        height = end_down_to(it, row.depth, open, height);
        bool is_open = put_row(it, at, &row, height > 0 ? &open[height - 1] : NULL);
        hidden = is_open ? SIZE_MAX : row.depth;
        if (is_open)
            open[height++] = (open_row){ at, row.depth };
    }
    end_down_to(it, 0, open, height);
}

static void write_page(loader *it)
{
    size_t count;
    if (!did(it, "hp_tree", hp_tree(&it->session, 0)) || !did(it, "hp_count", hp_count(&it->session, &count)))
        return;
    open_row *open = malloc(count * sizeof *open);
    if (open)
        put_rows(it, count, open);
    else
        did(it, "malloc", HP_OUT_OF_MEMORY);
    free(open);
    putchar('\n');
}

int main(int count, char **words)
{
    loader it = { .session = HP_SESSION_INIT, .text = HP_NONE };
    FILE *page = count > 1 ? fopen(words[1], "rb") : stdin;
    if (!page) {
        perror(words[1]);
        return 1;
    }
    bool was_read = did(&it, "hp_open", hp_open(&it.session, 4294967295u, 1)) && load(&it, page);
    if (was_read && !it.refused)
        write_page(&it);
    if (it.refused)
        fprintf(stderr, "load_html: %s: %s\n", it.refused, hp_status_word(it.status));
    else if (!was_read || fflush(stdout) != 0)
        perror("load_html");
    hp_close(&it.session);
    free(it.units);
    fclose(page);
    xmlCleanupParser();
    return it.refused || !was_read || ferror(stdout) ? 1 : 0;
}
