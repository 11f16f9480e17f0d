/* Bytes that one more of a kind takes in a session, by what malloc has in use before and after many are made. */
#include "huckleport.h"
#include <malloc.h>
#include <stdbool.h>
#include <stdio.h>
#include <stdlib.h>
#include <string.h>

enum { COUNT = 100000 };

static hp_session session = HP_SESSION_INIT;

static void must(uint8_t status)
{
    if (status == HP_OK)
        return;
    fprintf(stderr, "sizes: %s\n", hp_status_word(status));
    exit(1);
}

static void element(uint32_t parent)
{
    uint32_t made;
    must(hp_create_element(&session, 0, hp_name("item"), &made));
    must(hp_append_child(&session, parent, made));
}

static void text(uint32_t parent)
{
    uint32_t made;
    must(hp_create_text(&session, 0, hp_text_literal("some text"), &made));
    must(hp_append_child(&session, parent, made));
}

static void attribute(uint32_t node)
{
    must(hp_set_attribute(&session, node, hp_name("name"), hp_text_literal("a value")));
}

static void attributes(uint32_t node)
{
    static const char *const names[] = { "name", "nam1", "nam2", "nam3", "nam4", "nam5" };
    for (size_t i = 0; i < sizeof names / sizeof *names; i++)
        must(hp_set_attribute(&session, node, (const uint8_t *)names[i], strlen(names[i]), hp_text_literal("a value")));
}

static void range(uint32_t node)
{
    uint32_t made;
    must(hp_create_range(&session, 0, &made));
    must(hp_select_node_contents(&session, made, node));
}

static void static_range(uint32_t node)
{
    uint32_t made;
    must(hp_create_static_range(&session, node, 0, node, 0, &made));
}

static void iterator(uint32_t node)
{
    uint32_t made;
    must(hp_create_iterator(&session, node, HP_NONE, NULL, 0, NULL, 0, NULL, 0, &made));
}

static void walker(uint32_t node)
{
    uint32_t made;
    must(hp_create_walker(&session, node, HP_NONE, NULL, 0, NULL, 0, NULL, 0, &made));
}

static void observer(uint32_t node)
{
    hp_options options = HP_OPTIONS_INIT;
    uint32_t made;
    options.child_list = 1;
    must(hp_create_observer(&session, &made));
    must(hp_observe(&session, made, node, &options, NULL, 0, NULL, 0));
}

/* Each is made at a node of its own, or below node 1, where the second word says so. */
static const struct kind {
    const char *name;
    void (*make)(uint32_t node);
    bool below;
} kinds[] = {
    { "an element `item`, in a tree", element, true },
    { "a Text of nine units, in a tree", text, true },
    { "an element's first attribute, `name` with seven units", attribute, false },
    { "an element's first six attributes, like it", attributes, false },
    { "a live range over a node", range, false },
    { "a static range", static_range, false },
    { "an iterator", iterator, false },
    { "a walker", walker, false },
    { "an observer that watches a node", observer, false },
};

static double each_takes(const struct kind *kind)
{
    must(hp_open(&session, 4294967295u, 1));
    element(0);
    if (!kind->below)
        for (uint32_t i = 0; i < COUNT; i++)
            element(1);
    size_t before = mallinfo2().uordblks;
    for (uint32_t i = 0; i < COUNT; i++)
        kind->make(kind->below ? 1 : 2 + i);
    double found = (double)(mallinfo2().uordblks - before) / COUNT;
    hp_close(&session);
    return found;
}

int main(void)
{
    for (size_t i = 0; i < sizeof kinds / sizeof *kinds; i++)
        printf("| %s | %.0f |\n", kinds[i].name, each_takes(&kinds[i]));
    return 0;
}
