/* Calls that read the neighbours and the contents of a node with no command: their results, that they take no memory, and that the last answer stays.
 * And a program that removes the first child, or the last, as long as there is one: it takes no longer for each child if there are many. Linked with
 * --wrap for malloc, realloc and free. */
#include "refusing.h"
#include "wanting.h"
#include <string.h>
#include <time.h>

enum { CHILDREN = 100000, FEW = 1000 };

static uint32_t numbers[CHILDREN + 1];

/* Makes an element with as many children as the count, from the number after its own on. */
static uint32_t parent_of(uint32_t count)
{
    uint32_t parent = HP_NONE, child;
    WANT(hp_create_element(&session, 0, hp_name("parent"), &parent) == HP_OK);
    for (uint32_t at = 0; at < count; at++) {
        if (hp_create_element(&session, 0, hp_name("child"), &child) || hp_append_child(&session, parent, child))
            faults++;
    }
    return parent;
}

static void ends(uint32_t parent, uint32_t count)
{
    uint32_t first = 7, last = 7, child = 7;
    WANT(hp_first_child(&session, parent, &first) == HP_OK && first == parent + 1);
    WANT(hp_last_child(&session, parent, &last) == HP_OK && last == parent + count);
    WANT(hp_child_at(&session, parent, 0, &child) == HP_OK && child == first);
    WANT(hp_child_at(&session, parent, count - 1, &child) == HP_OK && child == last);
    WANT(hp_child_at(&session, parent, count - 2, &child) == HP_OK && child == last - 1);
    WANT(hp_child_at(&session, parent, 1, &child) == HP_OK && child == first + 1);
    WANT(hp_child_at(&session, parent, count, &child) == HP_OK && child == HP_NONE);
    WANT(hp_child_at(&session, parent, (size_t)-1, &child) == HP_OK && child == HP_NONE);
    WANT(hp_first_child(&session, first, &child) == HP_OK && child == HP_NONE);
    child = 7;
    WANT(hp_last_child(&session, first, &child) == HP_OK && child == HP_NONE);
}

static void links(uint32_t parent, uint32_t count)
{
    hp_node_links it;
    WANT(hp_links(&session, parent, &it) == HP_OK);
    WANT(it.kind == 1 && it.document == 0 && it.parent == HP_NONE && it.previous == HP_NONE && it.next == HP_NONE);
    WANT(it.first_child == parent + 1 && it.last_child == parent + count && it.children == count && it.length == count);
    WANT(hp_links(&session, parent + 2, &it) == HP_OK);
    WANT(it.parent == parent && it.previous == parent + 1 && it.next == parent + 3);
    WANT(it.first_child == HP_NONE && it.last_child == HP_NONE && it.children == 0 && it.length == 0);
    WANT(hp_links(&session, 0, &it) == HP_OK && it.kind == 9 && it.document == 0);
}

static void unknown(void)
{
    hp_node_links it = { 7, 7, 7, 7, 7, 7, 7, 7, 7 }, before = it;
    uint32_t child = 7;
    size_t count = 7;
    WANT(hp_links(&session, HP_NONE, &it) == HP_NO_SUCH_OBJECT && it.kind == before.kind && it.length == before.length);
    WANT(hp_first_child(&session, HP_NONE, &child) == HP_NO_SUCH_OBJECT && child == 7);
    WANT(hp_last_child(&session, 4000000000u, &child) == HP_NO_SUCH_OBJECT && child == 7);
    WANT(hp_child_at(&session, HP_NONE, 0, &child) == HP_NO_SUCH_OBJECT && child == 7);
    numbers[0] = 7;
    WANT(hp_children_into(&session, HP_NONE, numbers, 1, &count) == HP_NO_SUCH_OBJECT && count == 7 && numbers[0] == 7);
}

static bool are_children(uint32_t parent, uint32_t count)
{
    for (uint32_t at = 0; at < count; at++) {
        if (numbers[at] != parent + 1 + at)
            return false;
    }
    return true;
}

static void copied(uint32_t parent, uint32_t count)
{
    size_t told = 7;
    memset(numbers, 0xff, sizeof numbers);
    WANT(hp_children_into(&session, parent, numbers, 3, &told) == HP_OK && told == count);
    WANT(are_children(parent, 3) && numbers[3] == HP_NONE);
    WANT(hp_children_into(&session, parent, numbers, CHILDREN + 1, &told) == HP_OK && told == count);
    WANT(are_children(parent, count) && numbers[count] == HP_NONE);
    told = 7;
    WANT(hp_children_into(&session, parent, NULL, 0, &told) == HP_OK && told == count);
    WANT(hp_children_into(&session, parent, NULL, 1, &told) == HP_BAD_LENGTHS);
    WANT(hp_children_into(&session, parent + 1, numbers, 1, &told) == HP_OK && told == 0);
}

/* ---- the contents of a node */

static bool is_text(const hp_text_view *it, const char *due)
{
    bool same = it->length == strlen(due);
    for (size_t at = 0; same && at < it->length; at++)
        same = it->units[at] == (unsigned char)due[at];
    return same;
}

static bool has_data(uint32_t node, const char *due)
{
    hp_text_view data;
    return hp_data_of(&session, node, &data) == HP_OK && is_text(&data, due);
}

/* Whether a node is said to have no data, and nothing is lent. */
static bool lacks_data(uint32_t node, uint8_t status)
{
    static const uint16_t before[1] = { 'a' };
    hp_text_view data = { before, 1 };
    return hp_data_of(&session, node, &data) == status && data.length == 0;
}

static bool has_attribute(uint32_t node, size_t index, const char *due_name, const char *due_value)
{
    hp_bytes name;
    hp_text_view value;
    if (hp_attribute_at(&session, node, index, &name, &value) != HP_OK)
        return false;
    return name.length == strlen(due_name) && memcmp(name.bytes, due_name, name.length) == 0 && is_text(&value, due_value);
}

static bool lacks_attribute(uint32_t node, size_t index, uint8_t status)
{
    static const uint8_t name_before[1] = { 'a' };
    static const uint16_t before[1] = { 'a' };
    hp_bytes name = { name_before, 1 };
    hp_text_view value = { before, 1 };
    return hp_attribute_at(&session, node, index, &name, &value) == status && name.length == 0 && value.length == 0;
}

/* An attribute that is set again stays where it is, and those behind one that is removed move up ("Interface Element"). */
static void attributes(uint32_t element, uint32_t text)
{
    size_t told = 7;
    WANT(hp_set_attribute(&session, element, hp_name("id"), hp_text_literal("one")) == HP_OK);
    WANT(hp_set_attribute(&session, element, hp_name("class"), hp_text_literal("two")) == HP_OK);
    WANT(hp_set_attribute(&session, element, hp_name("title"), NULL, 0) == HP_OK);
    WANT(hp_set_attribute(&session, element, hp_name("id"), hp_text_literal("again")) == HP_OK);
    WANT(hp_attribute_names(&session, element) == HP_OK);
    refuse(1);
    WANT(has_attribute(element, 0, "id", "again") && has_attribute(element, 1, "class", "two") && has_attribute(element, 2, "title", ""));
    WANT(lacks_attribute(element, 3, HP_NOT_THERE) && lacks_attribute(element, (size_t)-1, HP_NOT_THERE));
    WANT(lacks_attribute(text, 0, HP_NOT_THERE) && lacks_attribute(0, 0, HP_NOT_THERE));
    WANT(lacks_attribute(HP_NONE, 0, HP_NO_SUCH_OBJECT) && lacks_attribute(4000000000u, 0, HP_NO_SUCH_OBJECT));
    counts = false;
    WANT(asked == 0);
    WANT(hp_count(&session, &told) == HP_OK && told == 3);
    WANT(hp_remove_attribute(&session, element, hp_name("class")) == HP_OK);
    WANT(has_attribute(element, 1, "title", "") && lacks_attribute(element, 2, HP_NOT_THERE));
}

/* A Text, a Comment and a ProcessingInstruction have data ("Interface CharacterData"). */
static void holding(void)
{
    uint32_t element = 7, text = 7, comment = 7, instruction = 7, doctype = 7, fragment = 7;
    hp_text_view kept;
    WANT(hp_create_element(&session, 0, hp_name("p"), &element) == HP_OK);
    WANT(hp_create_text(&session, 0, hp_text_literal("some text"), &text) == HP_OK);
    WANT(hp_create_comment(&session, 0, NULL, 0, &comment) == HP_OK);
    WANT(hp_create_pi(&session, 0, hp_name("target"), hp_text_literal("a=1"), &instruction) == HP_OK);
    WANT(hp_create_doctype(&session, 0, hp_name("html"), hp_name("public"), hp_name("system"), &doctype) == HP_OK);
    WANT(hp_create_fragment(&session, 0, &fragment) == HP_OK);
    WANT(hp_append_child(&session, element, text) == HP_OK && hp_data(&session, instruction) == HP_OK);
    refuse(1);
    WANT(has_data(text, "some text") && has_data(comment, "") && has_data(instruction, "a=1"));
    WANT(lacks_data(element, HP_NOT_THERE) && lacks_data(0, HP_NOT_THERE) && lacks_data(doctype, HP_NOT_THERE) && lacks_data(fragment, HP_NOT_THERE));
    WANT(lacks_data(HP_NONE, HP_NO_SUCH_OBJECT) && lacks_data(4000000000u, HP_NO_SUCH_OBJECT));
    counts = false;
    WANT(asked == 0);
    WANT(hp_text(&session, &kept) == HP_OK && is_text(&kept, "a=1"));
    WANT(hp_replace_data(&session, text, 0, 4, hp_text_literal("other")) == HP_OK && has_data(text, "other text"));
    attributes(element, text);
    WANT(hp_discard(&session, comment) == HP_OK && lacks_data(comment, HP_NO_SUCH_OBJECT));
}

/* ---- ends that are removed */

/* The milliseconds of the processor that it takes to remove all children, each as the first or as the last. */
static double emptied(uint32_t parent, uint8_t (*end)(hp_session *, uint32_t, uint32_t *))
{
    uint32_t child = HP_NONE;
    clock_t from = clock();
    while (end(&session, parent, &child) == HP_OK && child != HP_NONE) {
        if (hp_remove_child(&session, parent, child)) {
            faults++;
            break;
        }
    }
    clock_t to = clock();
    WANT(child == HP_NONE);
    return (double)(to - from) * 1e3 / CLOCKS_PER_SEC;
}

static void reading(uint32_t parent, uint32_t count)
{
    uint32_t child = 7;
    size_t told = 7;
    WANT(hp_children(&session, parent) == HP_OK);
    refuse(1);
    ends(parent, count);
    links(parent, count);
    copied(parent, count);
    unknown();
    counts = false;
    WANT(asked == 0);
    WANT(hp_count(&session, &told) == HP_OK && told == count);
    WANT(hp_number_at(&session, count - 1, &child) == HP_OK && child == parent + count);
}

int main(int argc, char **words)
{
    /* (under valgrind each takes much longer) */
    bool is_timed = argc > 1 && strcmp(words[1], "timed") == 0;
    WANT(hp_open(&session, 4294967295u, 100) == HP_OK);
    holding();
    reading(parent_of(FEW), FEW);
    uint32_t parent = parent_of(CHILDREN);
    reading(parent, CHILDREN);
    double first = emptied(parent, (hp_first_child));
    double last = emptied(parent_of(CHILDREN), (hp_last_child));
    if (is_timed)
        WANT(first < 50 && last < 50);
    WANT(hp_close(&session) == HP_OK);
    printf("%d children removed from the front in %.1f ms and from the back in %.1f ms, %d faults\n", CHILDREN, first, last, faults);
    return faults != 0;
}
