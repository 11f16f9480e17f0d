/* Scenes through the calls of huckleport.h. */
#define _POSIX_C_SOURCE 200809L
#include "bench.h"
#include "huckleport.h"

static hp_session session = HP_SESSION_INIT;

static void must(uint8_t status)
{
    if (status == HP_OK)
        return;
    fprintf(stderr, "bench: %s\n", hp_status_word(status));
    exit(1);
}

static uint32_t element(uint32_t parent)
{
    uint32_t made;
    must(hp_create_element(&session, 0, hp_name("item"), &made));
    must(hp_append_child(&session, parent, made));
    return made;
}

static uint32_t text(uint32_t parent)
{
    uint32_t made;
    must(hp_create_text(&session, 0, hp_text_literal("some text"), &made));
    must(hp_append_child(&session, parent, made));
    return made;
}

static uint64_t front_to_back(uint32_t count)
{
    begin();
    uint32_t root = element(0);
    for (uint32_t i = 1; i < count; i++)
        i % 2 ? element(root) : text(root);
    end();
    return 2ull * count;
}

static uint64_t chain(uint32_t count)
{
    uint32_t at = 0;
    begin();
    for (uint32_t i = 0; i < count; i++)
        at = element(at);
    end();
    return 2ull * count;
}

/* A tree of elements: node 1 and each LEAVES-th have others below them, and each of these a first leaf that stays. */
static uint32_t *groups, *stays, *leaves;
static uint32_t group_count, leaf_count;

static void tree(uint32_t count)
{
    groups = calloc(count + 1, sizeof *groups);
    stays = calloc(count + 1, sizeof *stays);
    leaves = calloc(count + 1, sizeof *leaves);
    if (!groups || !stays || !leaves)
        exit(1);
    for (uint32_t i = 0; i < count; i++) {
        if (i % LEAVES == 0) {
            groups[group_count] = element(group_count ? groups[chance(group_count)] : 0);
            stays[group_count] = element(groups[group_count]);
            group_count++;
        } else {
            leaves[leaf_count++] = element(groups[chance(group_count)]);
        }
    }
}

static void move(void)
{
    uint32_t group = chance(group_count), leaf = leaves[chance(leaf_count)], is_last = chance(2);
    must(hp_insert_before(&session, groups[group], leaf, is_last ? HP_NONE : stays[group]));
}

static uint64_t moves(uint32_t count)
{
    begin();
    for (uint32_t i = 0; i < count; i++)
        move();
    end();
    return count;
}

static uint64_t moving(uint32_t count)
{
    tree(count);
    return moves(count);
}

static uint64_t iterator(uint32_t count)
{
    uint32_t made, node = 0, seen = 0;
    tree(count);
    must(hp_create_iterator(&session, 1, HP_NONE, NULL, 0, NULL, 0, NULL, 0, &made));
    begin();
    for (; node != HP_NONE; seen++)
        must(hp_next_node(&session, made, &node));
    end();
    return seen;
}

static uint64_t walker(uint32_t count)
{
    uint32_t made, node = 0, seen = 0;
    tree(count);
    must(hp_create_walker(&session, 1, HP_NONE, NULL, 0, NULL, 0, NULL, 0, &made));
    begin();
    for (; node != HP_NONE; seen++)
        must(hp_walk(&session, made, 6, &node));
    end();
    return seen;
}

/* The same in calls for a thousand steps each. */
static uint64_t iterator_into(uint32_t count)
{
    static uint32_t nodes[1000];
    uint32_t made;
    uint64_t seen = 0;
    size_t found = 1000;
    tree(count);
    must(hp_create_iterator(&session, 1, HP_NONE, NULL, 0, NULL, 0, NULL, 0, &made));
    begin();
    for (; found == 1000; seen += found)
        must(hp_next_nodes_into(&session, made, nodes, 1000, &found));
    end();
    return seen;
}

static uint64_t walker_into(uint32_t count)
{
    static uint32_t nodes[1000];
    uint32_t made;
    uint64_t seen = 0;
    size_t found = 1000;
    tree(count);
    must(hp_create_walker(&session, 1, HP_NONE, NULL, 0, NULL, 0, NULL, 0, &made));
    begin();
    for (; found == 1000; seen += found)
        must(hp_walk_into(&session, made, 6, nodes, 1000, &found));
    end();
    return seen;
}

/* Copies a tree, in rows of a thousand nodes. */
static uint64_t subtree(uint32_t count)
{
    static hp_subtree_row rows[1000];
    uint32_t next = 1;
    uint64_t seen = 0;
    size_t copied;
    tree(count);
    begin();
    while (next != HP_NONE) {
        must(hp_subtree_into(&session, 1, next, rows, 1000, &copied, &next));
        seen += copied;
    }
    end();
    return seen;
}

/* A Text of 2,000 units, and 1,000 live ranges in it. */
static uint32_t ranges(void)
{
    static uint16_t units[2000];
    uint32_t made, range;
    for (int i = 0; i < 2000; i++)
        units[i] = 'a';
    must(hp_create_text(&session, 0, units, 2000, &made));
    must(hp_append_child(&session, element(1), made));
    for (uint32_t i = 0; i < 1000; i++) {
        must(hp_create_range(&session, 0, &range));
        must(hp_set_start(&session, range, made, i));
        must(hp_set_end(&session, range, made, 2 * i));
    }
    return made;
}

static uint64_t beside_ranges(uint32_t count)
{
    tree(count);
    ranges();
    return moves(count);
}

static uint64_t within_ranges(uint32_t count)
{
    tree(LEAVES);
    uint32_t made = ranges();
    begin();
    for (uint32_t i = 0; i < count; i++) {
        uint32_t at = chance(1999);
        must(hp_delete_data(&session, made, at, 1));
        must(hp_insert_data(&session, made, at, hp_text_literal("b")));
    }
    end();
    return 2ull * count;
}

static uint64_t observed(uint32_t count)
{
    hp_options options = HP_OPTIONS_INIT;
    uint32_t observer;
    tree(count);
    options.child_list = options.subtree = 1;
    must(hp_create_observer(&session, &observer));
    must(hp_observe(&session, observer, 1, &options, NULL, 0, NULL, 0));
    begin();
    for (uint32_t i = 1; i <= count; i++) {
        move();
        if (i % 500 == 0)
            must(hp_take_records(&session, observer));
    }
    end();
    return count + count / 500;
}

/* Ten of a hundred children are taken out into a fragment, and put in again where they were. */
static uint64_t contents(uint32_t count)
{
    uint32_t root = element(0), range, fragment;
    for (int i = 0; i < 100; i++)
        text(element(root));
    must(hp_create_range(&session, 0, &range));
    begin();
    for (uint32_t i = 0; i < count; i++) {
        uint32_t at = chance(90);
        must(hp_set_start(&session, range, root, at));
        must(hp_set_end(&session, range, root, at + 10));
        must(hp_extract_contents(&session, range, &fragment));
        must(hp_insert_node(&session, range, fragment));
        must(hp_discard(&session, fragment));
    }
    end();
    return 5ull * count;
}

static const struct scene scenes[] = {
    { "front-to-back", front_to_back },
    { "chain", chain },
    { "moving", moving },
    { "iterator", iterator },
    { "walker", walker },
    { "iterator-into", iterator_into },
    { "walker-into", walker_into },
    { "subtree", subtree },
    { "beside-1000-ranges", beside_ranges },
    { "within-1000-ranges", within_ranges },
    { "observed", observed },
    { "contents", contents },
};

int main(int count, char **words)
{
    must(hp_open(&session, 4294967295u, 1));
    int status = run_scenes(count, words, scenes, sizeof scenes / sizeof *scenes);
    free(groups);
    free(stays);
    free(leaves);
    must(hp_close(&session));
    return status;
}
