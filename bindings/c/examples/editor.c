/* A small editor's core: a document with a paragraph of text, a bookmark that stays at its words while they are edited, and an observer
 * whose records have the changes. Build: gcc editor.c $(pkg-config --cflags --libs huckleport)
 */
#include "huckleport.h"
#include <stdio.h>
#include <stdlib.h>

typedef struct editor {
    hp_session session;
    uint32_t paragraph, text;
    uint32_t bookmark;
    uint32_t observer;
} editor;

/* Ends the program if the status of a call is not HP_OK. */
static void must(uint8_t status)
{
    if (status == HP_OK)
        return;
    fprintf(stderr, "editor: %s\n", hp_status_word(status));
    exit(1);
}

/* Prints UTF-16 units as UTF-8; a lone surrogate is U+FFFD. */
static void put_units(const uint16_t *units, size_t length)
{
    for (size_t i = 0; i < length; i++) {
        uint32_t code = units[i];
        if ((code & 0xfc00) == 0xd800 && i + 1 < length && (units[i + 1] & 0xfc00) == 0xdc00)
            code = 0x10000 + ((code & 0x3ff) << 10) + (units[++i] & 0x3ff);
        else if ((code & 0xf800) == 0xd800)
            code = 0xfffd;
        if (code < 0x80)
            putchar((int)code);
        else if (code < 0x800)
            printf("%c%c", (int)(0xc0 | code >> 6), (int)(0x80 | (code & 63)));
        else if (code < 0x10000)
            printf("%c%c%c", (int)(0xe0 | code >> 12), (int)(0x80 | (code >> 6 & 63)), (int)(0x80 | (code & 63)));
        else
            printf("%c%c%c%c", (int)(0xf0 | code >> 18), (int)(0x80 | (code >> 12 & 63)), (int)(0x80 | (code >> 6 & 63)), (int)(0x80 | (code & 63)));
    }
}

/* Prints the text that the last call returned. It is borrowed until the next call, so it is printed at once. */
static void put_answer(editor *it)
{
    hp_text_view text;
    must(hp_text(&it->session, &text));
    put_units(text.units, text.length);
}

static void open_editor(editor *it)
{
    hp_options options = HP_OPTIONS_INIT;
    it->session = (hp_session)HP_SESSION_INIT;
    must(hp_open(&it->session, 4294967295u, 1));
    must(hp_create_element(&it->session, 0, hp_name("p"), &it->paragraph));
    must(hp_append_child(&it->session, 0, it->paragraph));
    must(hp_create_text(&it->session, 0, hp_text_literal("A document core that keeps its bookmarks."), &it->text));
    must(hp_append_child(&it->session, it->paragraph, it->text));
    must(hp_create_range(&it->session, 0, &it->bookmark));
    must(hp_create_observer(&it->session, &it->observer));
    options.child_list = options.character_data = options.attributes = options.subtree = 1;
    options.character_data_old_value = options.attribute_old_value = 1;
    must(hp_observe(&it->session, it->observer, it->paragraph, &options, NULL, 0, NULL, 0));
}

/* Sets the bookmark around units of the text. */
static void mark(editor *it, uint32_t from, uint32_t to)
{
    must(hp_set_start(&it->session, it->bookmark, it->text, from));
    must(hp_set_end(&it->session, it->bookmark, it->text, to));
}

/* Prints the ends of the bookmark and its text. */
static void tell_bookmark(editor *it)
{
    hp_ends ends;
    must(hp_range(&it->session, it->bookmark, &ends));
    printf("bookmark (%u,%zu)-(%u,%zu): \"", ends.start, ends.start_offset, ends.end, ends.end_offset);
    must(hp_range_text(&it->session, it->bookmark));
    put_answer(it);
    printf("\"\n");
}

/* Prints a borrowed name, which is UTF-8 already. */
static void put_name(hp_bytes name)
{
    printf("%.*s", (int)name.length, (const char *)name.bytes);
}

/* Prints the nodes that a change added or removed. */
static void tell_nodes(editor *it, size_t change, const hp_record *record)
{
    uint32_t node;
    for (size_t at = 0; at < record->added; at++) {
        must(hp_record_added_at(&it->session, 0, change, at, &node));
        printf(", added %u", node);
    }
    for (size_t at = 0; at < record->removed; at++) {
        must(hp_record_removed_at(&it->session, 0, change, at, &node));
        printf(", removed %u", node);
    }
}

/* Prints one change: its type, its target, the added and removed nodes, and the old value. */
static void tell_change(editor *it, size_t change)
{
    hp_record record;
    hp_bytes name;
    hp_text_view old_value;
    must(hp_record_at(&it->session, 0, change, &record));
    printf("  %s of %u", record.type == HP_CHILD_LIST ? "children" : record.type == HP_ATTRIBUTES ? "attribute" : "data", record.target);
    if (hp_record_name(&it->session, 0, change, &name) == HP_OK) {
        printf(" ");
        put_name(name);
    }
    tell_nodes(it, change, &record);
    if (hp_record_old_value(&it->session, 0, change, &old_value) == HP_OK) {
        printf(", it was \"");
        put_units(old_value.units, old_value.length);
        printf("\"");
    }
    printf("\n");
}

/* Prints the changes since the last call, and the text of the paragraph now. */
static void tell_changes(editor *it)
{
    size_t changes;
    must(hp_take_records(&it->session, it->observer));
    must(hp_count(&it->session, &changes));
    printf("%zu changes:\n", changes);
    for (size_t change = 0; change < changes; change++)
        tell_change(it, change);
    must(hp_text_content(&it->session, it->paragraph));
    printf("now: \"");
    put_answer(it);
    printf("\"\n");
}

/* Puts the contents of the bookmark into a new element of that name, as an editor makes words bold. */
static void wrap_bookmark(editor *it, const char *name, size_t length)
{
    uint32_t element;
    must(hp_create_element(&it->session, 0, (const uint8_t *)name, length, &element));
    must(hp_surround_contents(&it->session, it->bookmark, element));
    must(hp_set_attribute(&it->session, element, hp_name("class"), hp_text_literal("marked")));
}

int main(void)
{
    editor it;
    open_editor(&it);
    mark(&it, 2, 15);
    tell_bookmark(&it);

    must(hp_insert_data(&it.session, it.text, 0, hp_text_literal("Huckleport: ")));
    must(hp_insert_data(&it.session, it.text, 22, hp_text_literal("'s")));
    tell_changes(&it);
    tell_bookmark(&it);

    wrap_bookmark(&it, "b", 1);
    tell_changes(&it);
    tell_bookmark(&it);

    /* A refused call returns why, and changes nothing. */
    printf("a text in a document: %s\n", hp_status_word(hp_append_child(&it.session, 0, it.text)));
    tell_changes(&it);
    must(hp_close(&it.session));
    return 0;
}
