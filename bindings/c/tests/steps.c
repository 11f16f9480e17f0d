/* Steps of iterators and walkers in turn: the nodes, the place, the status and the last answer are those of single calls, with any room and any
 * filter, and no memory is taken. Also between edits, and once the session has ended. Linked with --wrap for malloc, realloc and free. */
#include "refusing.h"
#include "wanting.h"
#include <string.h>

enum { NODES = 60, MOVES = 7, FILTERS = 4 };

/* What single calls and a call for many did: one of two equal iterators or walkers each. */
struct steps {
    uint8_t status, printed;
    size_t count, length;
    uint32_t nodes[NODES + 2], place[3];
    char line[200];
};

static const size_t rooms[] = { 0, 1, 2, 3, 17, NODES + 1 };

/* A document of six levels: each fifth node is a comment, each third element of another name, and a node's parent has half its number. */
static void build(void)
{
    uint32_t made, parent;
    int said = hp_open(&session, 100000, 1000);
    said |= hp_create_element(&session, 0, hp_name("a"), &made) | hp_append_child(&session, 0, made);
    for (uint32_t at = 2; at < NODES; at++) {
        parent = at / 2 % 5 ? at / 2 : at / 2 - 1;
        if (at % 5 == 0)
            said |= hp_create_comment(&session, 0, NULL, 0, &made);
        else if (at % 3)
            said |= hp_create_element(&session, 0, hp_name("b"), &made);
        else
            said |= hp_create_element(&session, 0, hp_name("skipped"), &made);
        said |= made != at || hp_append_child(&session, parent, made);
    }
    WANT(said == HP_OK && made == NODES - 1);
}

/* An iterator or a walker: over all nodes, over elements, without one name and the subtrees of another, or over none. */
static uint32_t made_over(bool walks, uint32_t root, int filter)
{
    static const uint32_t lengths[] = { 7, 1 };
    static const uint8_t verdicts[] = { 3, 2 };
    uint32_t made = HP_NONE, show = filter == 1 ? 1 : filter == 3 ? 0 : HP_NONE;
    size_t rules = filter == 2 ? 2 : 0;
    const uint8_t *names = (const uint8_t *)"skippedb";
    if (filter == 2)
        rules = root % 2 ? 2 : 1;
    if (walks)
        WANT(hp_create_walker(&session, root, show, names, rules == 2 ? 8 : rules ? 7 : 0, lengths, rules, verdicts, rules, &made) == HP_OK);
    else
        WANT(hp_create_iterator(&session, root, show, names, rules == 2 ? 8 : rules ? 7 : 0, lengths, rules, verdicts, rules, &made) == HP_OK);
    return made;
}

/* A last answer that no step gives. */
static void answer_before(void)
{
    uint8_t ignored = hp_children(&session, 1);
    (void)ignored;
}

static void look(struct steps *it, bool walks, uint32_t number)
{
    hp_iterator_at at = { 7, 7, 7 };
    hp_walker_at walker_at = { 7, 7 };
    hp_bytes line;
    it->printed = hp_print(&session);
    if (it->printed == HP_OK && hp_reply_line(&session, &line) == HP_OK && line.length < sizeof it->line) {
        memcpy(it->line, line.bytes, line.length);
        it->length = line.length;
    }
    if (walks)
        WANT(hp_walker(&session, number, &walker_at) == HP_OK);
    else
        WANT(hp_iterator(&session, number, &at) == HP_OK);
    it->place[0] = walks ? walker_at.root : at.root;
    it->place[1] = walks ? walker_at.current : at.reference;
    it->place[2] = walks ? 7 : at.is_before;
}

static struct steps one_by_one(bool walks, uint32_t number, uint8_t move, size_t room)
{
    struct steps it;
    memset(&it, 0, sizeof it);
    memset(it.nodes, 0x5a, sizeof it.nodes);
    answer_before();
    for (bool goes_on = true; goes_on && it.count < room;) {
        uint32_t node = 7;
        it.status = walks ? hp_walk(&session, number, move, &node) : hp_next_node(&session, number, &node);
        goes_on = it.status == HP_OK && node != HP_NONE;
        if (goes_on)
            it.nodes[it.count++] = node;
    }
    look(&it, walks, number);
    return it;
}

static struct steps at_once(bool walks, uint32_t number, uint8_t move, size_t room)
{
    struct steps it;
    memset(&it, 0, sizeof it);
    memset(it.nodes, 0x5a, sizeof it.nodes);
    it.count = 1000;
    answer_before();
    counts = true;
    asked = 0;
    it.status = walks ? hp_walk_into(&session, number, move, it.nodes, room, &it.count) : hp_next_nodes_into(&session, number, it.nodes, room, &it.count);
    counts = false;
    WANT(asked == 0);
    look(&it, walks, number);
    return it;
}

static bool are_same(const struct steps *one, const struct steps *other)
{
    return one->status == HP_OK && one->status == other->status && one->count == other->count && one->printed == other->printed && one->length == other->length &&
        memcmp(one->line, other->line, one->length) == 0 && memcmp(one->nodes, other->nodes, sizeof one->nodes) == 0 && memcmp(one->place, other->place, sizeof one->place) == 0;
}

/* Both to their end, a call at a time, and once more there. */
static size_t to_the_end(bool walks, uint32_t single, uint32_t many, uint8_t move, size_t room)
{
    size_t passed = 0;
    for (int left = 2; left && passed <= NODES && !faults;) {
        struct steps one = one_by_one(walks, single, move, room), all = at_once(walks, many, move, room);
        WANT(are_same(&one, &all));
        passed += all.count;
        left -= all.count < room || room == 0;
    }
    return passed;
}

static size_t with_each_room(void)
{
    size_t passed = 0;
    for (uint32_t root = 0; root < NODES; root += root < 3 ? 1 : 13) {
        for (int filter = 0; filter < FILTERS; filter++) {
            for (size_t at = 0; at < sizeof rooms / sizeof *rooms; at++) {
                passed += to_the_end(false, made_over(false, root, filter), made_over(false, root, filter), 0, rooms[at]);
                for (uint8_t move = 0; move < MOVES; move++) {
                    uint32_t single = made_over(true, root, filter), many = made_over(true, root, filter);
                    passed += to_the_end(true, single, many, 6, 5);
                    passed += to_the_end(true, single, many, move, rooms[at]);
                }
            }
        }
    }
    return passed;
}

/* Iterators and walkers that have come half-way, and then a subtree is moved or removed. */
static void between_edits(void)
{
    uint32_t numbers[4] = { made_over(false, 0, 0), made_over(false, 0, 0), made_over(true, 0, 0), made_over(true, 0, 0) };
    for (int round = 0; round < 6; round++) {
        for (int walks = 0; walks < 2; walks++) {
            struct steps one = one_by_one(walks, numbers[2 * walks], 6, 4), all = at_once(walks, numbers[2 * walks + 1], 6, 4);
            WANT(are_same(&one, &all));
            uint32_t here = all.place[1];
            if (here > 2)
                WANT((round % 2 ? hp_remove(&session, here) : hp_append_child(&session, 1, here)) == HP_OK);
        }
    }
}

static void refused(uint32_t number, uint8_t move, size_t room, uint8_t status, uint8_t status_of_walk)
{
    uint32_t node = 7, *nodes = room > 1 ? NULL : &node;
    size_t count = 7;
    WANT(hp_next_nodes_into(&session, number, nodes, room, &count) == status && node == 7 && count == 7);
    WANT(hp_walk_into(&session, number, move, nodes, room, &count) == status_of_walk && node == 7 && count == 7);
}

/* Numbers that were not given out, or were released, and moves that are none. */
static void all_refused(void)
{
    uint32_t iterator = made_over(false, 0, 0), walker = made_over(true, 0, 0), node = 7;
    WANT(hp_next_node(&session, iterator, &node) == HP_OK && hp_walk(&session, walker, 6, &node) == HP_OK);
    for (size_t room = 0; room < 2; room++) {
        refused(HP_NONE, 6, room, HP_NO_SUCH_OBJECT, HP_NO_SUCH_OBJECT);
        refused(HP_NONE, 7, room, HP_NO_SUCH_OBJECT, HP_BAD_CHOICE);
        refused(HP_NONE, 255, room, HP_NO_SUCH_OBJECT, HP_BAD_CHOICE);
    }
    refused(0, 6, 2, HP_BAD_LENGTHS, HP_BAD_LENGTHS);
    WANT(hp_release_iterator(&session, iterator) == HP_OK && hp_release_walker(&session, walker) == HP_OK);
    size_t count = 7;
    node = 7;
    WANT(hp_next_nodes_into(&session, iterator, &node, 1, &count) == HP_NO_SUCH_OBJECT && node == 7 && count == 7);
    WANT(hp_walk_into(&session, walker, 6, &node, 1, &count) == HP_NO_SUCH_OBJECT && node == 7 && count == 7);
}

/* Ends the session: one of the few calls that do so is refused memory. */
static void end(void)
{
    static const uint16_t units[64];
    /* (the first allocation is for the copied text) */
    do
        refuse(2);
    while (hp_set_text_content(&session, 5, units, 64) == HP_OK);
    counts = false;
}

static void all_ended(uint8_t status)
{
    for (size_t room = 0; room < 2; room++) {
        refused(0, 6, room, status, status);
        refused(HP_NONE, 6, room, status, status);
        refused(0, 7, room, status, status);
    }
}

int main(void)
{
    build();
    size_t passed = with_each_room();
    between_edits();
    all_refused();
    end();
    all_ended(HP_OUT_OF_MEMORY);
    WANT(hp_close(&session) == HP_OK);
    all_ended(HP_CLOSED);
    printf("%zu steps in turn, as single ones, %d faults\n", passed, faults);
    return faults != 0;
}
