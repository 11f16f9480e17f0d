/* Sessions that have ended, since an allocation was refused in the middle of a call. Their state is read, whole, and is as it was before the call.
 * Commands return HP_OUT_OF_MEMORY, a question that would be refused is refused, and after hp_close nothing is read. Each allocation of each call is
 * refused in turn. Linked with --wrap for malloc, realloc and free. */
#include "refusing.h"
#include "wanting.h"
#include <stdarg.h>
#include <string.h>

enum { NODES = 9, ROOM = 1 << 16 };

struct said {
    size_t length;
    char text[ROOM];
};

static struct said before, after;
/* The status of a successful read: HP_OK, or HP_ENDED. */
static uint8_t found;

static void say(struct said *to, const char *form, ...)
{
    va_list given;
    va_start(given, form);
    to->length += (size_t)vsnprintf(to->text + to->length, ROOM - to->length, form, given);
    va_end(given);
}

static void build(void)
{
    hp_options options = HP_OPTIONS_INIT;
    uint32_t made;
    options.child_list = options.subtree = options.attributes = options.character_data = 1;
    int said = hp_open(&session, 1000, 1000);
    said |= hp_create_doctype(&session, 0, hp_name("html"), hp_name("public"), hp_name("system"), &made);
    said |= hp_create_element(&session, 0, hp_name("article"), &made);
    said |= hp_create_text(&session, 0, hp_text_literal("some text"), &made);
    said |= hp_create_comment(&session, 0, hp_text_literal("aside"), &made);
    said |= hp_create_pi(&session, 0, hp_name("target"), hp_text_literal("data"), &made);
    said |= hp_create_element(&session, 0, hp_name("p"), &made);
    said |= hp_create_text(&session, 0, hp_text_literal("more"), &made);
    said |= hp_create_element(&session, 0, hp_name("b"), &made);
    said |= hp_append_child(&session, 0, 1) | hp_append_child(&session, 0, 2) | hp_append_child(&session, 2, 3);
    said |= hp_append_child(&session, 2, 4) | hp_append_child(&session, 2, 5) | hp_append_child(&session, 2, 6);
    said |= hp_append_child(&session, 6, 7);
    said |= hp_set_attribute(&session, 2, hp_name("id"), hp_text_literal("first"));
    said |= hp_set_attribute(&session, 2, hp_name("lang"), hp_text_literal("en"));
    said |= hp_create_range(&session, 0, &made) | hp_set_start(&session, 0, 3, 2) | hp_set_end(&session, 0, 7, 1);
    said |= hp_create_static_range(&session, 3, 1, 7, 2, &made);
    said |= hp_create_iterator(&session, 2, HP_NONE, NULL, 0, NULL, 0, NULL, 0, &made) | hp_next_node(&session, 0, &made);
    said |= hp_create_walker(&session, 2, HP_NONE, NULL, 0, NULL, 0, NULL, 0, &made) | hp_walk(&session, 0, 2, &made);
    said |= hp_create_observer(&session, &made) | hp_observe(&session, 0, 0, &options, NULL, 0, NULL, 0);
    WANT(said == HP_OK);
}

/* Writes the kind, the names and the attributes of a node, and its data if no edit stopped in the middle. */
static void say_node(struct said *to, uint32_t node, bool stays)
{
    hp_node_links links;
    hp_bytes name;
    hp_text_view text;
    WANT(hp_links(&session, node, &links) == found);
    say(to, "%u kind %u document %u", node, links.kind, links.document);
    for (uint8_t part = 0; part < 3; part++) {
        uint8_t status = hp_name_of(&session, node, part, &name);
        WANT(status == found || status == HP_NOT_THERE);
        if (status == found)
            say(to, " %.*s", (int)name.length, (const char *)name.bytes);
    }
    uint8_t status = hp_data_of(&session, node, &text);
    WANT(status == found || status == HP_NOT_THERE);
    for (size_t at = 0; stays && status == found && at < text.length; at++)
        say(to, " %x", text.units[at]);
    for (size_t at = 0; (status = hp_attribute_at(&session, node, at, &name, &text)) != HP_NOT_THERE; at++) {
        WANT(status == found);
        say(to, " %.*s=%x+%zu", (int)name.length, (const char *)name.bytes, text.units[0], text.length);
    }
    say(to, "\n");
}

/* Where a node stands. */
static void say_place(struct said *to, uint32_t node)
{
    hp_node_links it;
    uint32_t first, last, child, root, numbers[NODES] = { 0 };
    size_t count, index, length;
    WANT(hp_links(&session, node, &it) == found && hp_root(&session, node, &root) == found);
    WANT(hp_index(&session, node, &index) == found && hp_length(&session, node, &length) == found && length == it.length);
    WANT(hp_first_child(&session, node, &first) == found && first == it.first_child);
    WANT(hp_last_child(&session, node, &last) == found && last == it.last_child);
    WANT(hp_children_into(&session, node, numbers, NODES, &count) == found && count == it.children);
    say(to, "%u in %u at %zu, between %d and %d:", node, root, index, (int)it.previous, (int)it.next);
    for (size_t at = 0; at < count; at++) {
        WANT(hp_child_at(&session, node, at, &child) == found && child == numbers[at]);
        say(to, " %u", child);
    }
    say(to, "\n");
}

/* Where ranges end, and where an iterator and a walker stand. */
static void say_others(struct said *to)
{
    hp_ends ends;
    hp_static_ends fixed;
    hp_iterator_at iterator;
    hp_walker_at walker;
    hp_counts counts_now;
    uint8_t there;
    WANT(hp_range(&session, 0, &ends) == found);
    say(to, "range %u %zu %u %zu\n", ends.start, ends.start_offset, ends.end, ends.end_offset);
    WANT(hp_static_range(&session, 0, &fixed) == found);
    say(to, "static range %u %zu %u %zu %u\n", fixed.start, fixed.start_offset, fixed.end, fixed.end_offset, fixed.is_valid);
    WANT(hp_iterator(&session, 0, &iterator) == found);
    say(to, "iterator %u %u %u\n", iterator.root, iterator.reference, iterator.is_before);
    WANT(hp_walker(&session, 0, &walker) == found);
    say(to, "walker %u %u\n", walker.root, walker.current);
    WANT(hp_has_attribute(&session, 2, hp_name("lang"), &there) == found);
    say(to, "attribute %u\n", there);
    WANT(hp_in_use(&session, &counts_now) == found);
    say(to, "ranges %zu iterators %zu walkers %zu observers %zu\n", counts_now.ranges, counts_now.iterators, counts_now.walkers, counts_now.observers);
}

/* All that a session holds; of one that ended in an edit, the names and the attributes of each node. */
static void read_all(struct said *to, bool stays)
{
    to->length = 0;
    for (uint32_t node = 0; node < NODES; node++)
        say_node(to, node, stays);
    for (uint32_t node = 0; stays && node < NODES; node++)
        say_place(to, node);
    if (stays)
        say_others(to);
}

/* The calls that end a session if they are refused memory, by number: up to COPIES those that change no node that is there. */
enum { COPIES = 2, CALLS = 9 };

/* (the range ends behind the second child first: it may hold no part of an element) */
static uint8_t surround(void)
{
    uint8_t status = hp_set_end(&session, 0, 2, 2);
    return status ? status : hp_surround_contents(&session, 0, 8);
}

static uint8_t call(int number)
{
    uint32_t made;
    switch (number) {
    case 0: return hp_clone_node(&session, 2, true, &made);
    case 1: return hp_clone_contents(&session, 0, &made);
    case 2: return hp_replace_child(&session, 2, 8, 4);
    case 3: return hp_split_text(&session, 3, 2, &made);
    case 4: return hp_extract_contents(&session, 0, &made);
    case 5: return hp_replace_children(&session, 2, 8);
    case 6: return hp_delete_contents(&session, 0);
    case 7: return hp_normalize(&session, 0);
    default: return surround();
    }
}

/* Once a session has ended, only reading succeeds. */
static void ended(void)
{
    uint32_t number = 7;
    hp_node_links links = { 7, 7, 7, 7, 7, 7, 7, 7, 7 };
    hp_ends ends = { 7, 7, 7, 7 };
    hp_text_view text;
    uint8_t there = 7;
    WANT(hp_links(&session, 900, &links) == HP_NO_SUCH_OBJECT && links.kind == 7);
    WANT(hp_range(&session, 5, &ends) == HP_NO_SUCH_OBJECT && ends.start == 7);
    WANT(hp_has_attribute(&session, 900, hp_name("a"), &there) == HP_NO_SUCH_OBJECT && there == 7);
    WANT(hp_has_attribute(&session, 2, hp_name("\xff"), &there) == HP_NOT_UTF8 && there == 7);
    WANT(hp_has_attribute(&session, 3, hp_name("a"), &there) == HP_TYPE_ERROR && there == 7);
    WANT(hp_create_element(&session, 0, hp_name("a"), &number) == HP_OUT_OF_MEMORY && number == 7);
    WANT(hp_remove(&session, 3) == HP_OUT_OF_MEMORY && hp_next_node(&session, 0, &number) == HP_OUT_OF_MEMORY && number == 7);
    WANT(hp_tree(&session, 0) == HP_OUT_OF_MEMORY && hp_text(&session, &text) == HP_OUT_OF_MEMORY);
}

static void closed(void)
{
    uint32_t number = 7;
    hp_node_links links = { 7, 7, 7, 7, 7, 7, 7, 7, 7 };
    hp_ends ends = { 7, 7, 7, 7 };
    hp_bytes name = { NULL, 7 };
    WANT(hp_close(&session) == HP_OK);
    WANT(hp_links(&session, 0, &links) == HP_CLOSED && links.kind == 7);
    WANT(hp_first_child(&session, 0, &number) == HP_CLOSED && number == 7);
    WANT(hp_range(&session, 0, &ends) == HP_CLOSED && ends.start == 7);
    WANT(hp_name_of(&session, 1, 0, &name) == HP_CLOSED && name.length == 0);
}

/* One call with one allocation refused: whether the refusal was met. */
static bool once(int number, unsigned long at, unsigned long *ends)
{
    bool stays = number < COPIES;
    build();
    found = HP_OK;
    read_all(&before, stays);
    refuse(at);
    uint8_t status = call(number);
    unsigned long so_far = asked;
    counts = false;
    WANT(status == HP_OK || status == HP_OUT_OF_MEMORY);
    if (status == HP_OUT_OF_MEMORY) {
        found = HP_ENDED;
        refuse(1);
        read_all(&after, stays);
        WANT(asked == 0);
        ended();
        counts = false;
        WANT(after.length == before.length && memcmp(after.text, before.text, after.length) == 0);
        ++*ends;
    }
    closed();
    return so_far >= at;
}

int main(void)
{
    unsigned long ends = 0;
    for (int number = 0; number < CALLS; number++) {
        for (unsigned long at = 1; once(number, at, &ends) && !faults; at++)
            continue;
        if (faults)
            printf("in call %d\n", number);
    }
    printf("%d calls, %lu sessions that have ended, read whole\n", CALLS, ends);
    return faults || ends < CALLS;
}
