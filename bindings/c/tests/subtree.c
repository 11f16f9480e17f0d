/* The nodes of a subtree, copied: the rows are those of single calls, whatever the room, and no memory is taken. So it is once the
 * session has ended. Linked with --wrap for malloc, realloc and free. */
#include "refusing.h"
#include "wanting.h"
#include <string.h>

enum { NODES = 60 };

/* The status of an answer: HP_OK, or HP_ENDED. */
static uint8_t found;

/* A document of six levels: each fifth node is a comment, and a node's parent has half its number. */
static void build(void)
{
    uint32_t made, parent;
    int said = hp_open(&session, 1000, 1000);
    said |= hp_create_element(&session, 0, hp_name("a"), &made) | hp_append_child(&session, 0, made);
    for (uint32_t at = 2; at < NODES; at++) {
        parent = at / 2 % 5 ? at / 2 : at / 2 - 1;
        said |= at % 5 ? hp_create_element(&session, 0, hp_name("b"), &made) : hp_create_comment(&session, 0, NULL, 0, &made);
        said |= made != at || hp_append_child(&session, parent, made);
    }
    said |= hp_create_element(&session, 0, hp_name("apart"), &made);
    WANT(said == HP_OK && made == NODES);
}

static hp_node_links links_of(uint32_t node)
{
    hp_node_links it = { 0 };
    WANT(hp_links(&session, node, &it) == found);
    return it;
}

/* The next node in tree order inside the root, by single calls. */
static uint32_t following(uint32_t root, uint32_t node)
{
    hp_node_links it = links_of(node);
    if (it.first_child != HP_NONE)
        return it.first_child;
    for (; node != root; it = links_of(node)) {
        if (it.next != HP_NONE)
            return it.next;
        node = it.parent;
    }
    return HP_NONE;
}

/* The rows of a walk by single calls, and how many there are. */
static size_t walked(uint32_t root, uint32_t node, hp_subtree_row *rows)
{
    size_t count = 0;
    for (; node != HP_NONE; node = following(root, node)) {
        hp_node_links it = links_of(node);
        hp_subtree_row row = { node, it.parent, it.kind };
        rows[count++] = row;
    }
    return count;
}

static bool are_rows(const hp_subtree_row *rows, const hp_subtree_row *due, size_t count)
{
    for (size_t at = 0; at < count; at++) {
        if (rows[at].node != due[at].node || rows[at].parent != due[at].parent || rows[at].kind != due[at].kind)
            return false;
    }
    return true;
}

/* A walk with so much room at each call. */
static void in_pieces(uint32_t root, uint32_t start, size_t room)
{
    hp_subtree_row due[NODES], rows[NODES + 1];
    size_t whole = walked(root, start, due), passed = 0;
    for (uint32_t next = start; next != HP_NONE && !faults;) {
        size_t count = 7, left = whole - passed;
        memset(rows, 0xff, sizeof rows);
        WANT(hp_subtree_into(&session, root, next, rows, room, &count, &next) == found);
        WANT(count == (left < room ? left : room));
        WANT(are_rows(rows, due + passed, count) && rows[count].node == HP_NONE);
        passed += count;
        WANT(next == (passed < whole ? due[passed].node : HP_NONE));
    }
    WANT(passed == whole);
}

static void without_room(uint32_t root, uint32_t start)
{
    size_t count = 7;
    uint32_t next = 7;
    WANT(hp_subtree_into(&session, root, start, NULL, 0, &count, &next) == found && count == 0 && next == start);
}

static void refused(uint32_t root, uint32_t start, size_t room, uint8_t status)
{
    hp_subtree_row row = { 7, 7, 7 };
    size_t count = 7;
    uint32_t next = 7;
    WANT(hp_subtree_into(&session, root, start, room > 1 ? NULL : &row, room, &count, &next) == status);
    WANT(row.node == 7 && row.parent == 7 && row.kind == 7 && count == 7 && next == 7);
}

static bool is_inside(uint32_t root, uint32_t node)
{
    while (node != root && node != HP_NONE)
        node = links_of(node).parent;
    return node == root;
}

static void from_each(uint32_t root)
{
    for (uint32_t start = 0; start <= NODES; start++) {
        if (!is_inside(root, start)) {
            refused(root, start, 1, HP_NOT_THERE);
            continue;
        }
        without_room(root, start);
        for (size_t room = 1; room <= NODES; room += room < 4 ? 1 : 28)
            in_pieces(root, start, room);
    }
}

static void all(void)
{
    for (uint32_t root = 0; root <= NODES; root++)
        from_each(root);
    refused(HP_NONE, 0, 1, HP_NO_SUCH_OBJECT);
    refused(0, HP_NONE, 1, HP_NO_SUCH_OBJECT);
    refused(4000000000u, HP_NONE, 0, HP_NO_SUCH_OBJECT);
    refused(0, 0, 2, HP_BAD_LENGTHS);
}

int main(void)
{
    static const uint16_t units[64];
    size_t told = 7;
    build();
    WANT(hp_children(&session, 1) == HP_OK);
    refuse(1);
    all();
    counts = false;
    WANT(asked == 0);
    WANT(hp_count(&session, &told) == HP_OK && told == 2);
    /* (the first allocation is for the copied text; only a few calls, as this one, end a session that is refused memory) */
    do
        refuse(2);
    while (hp_set_text_content(&session, 5, units, 64) == HP_OK);
    counts = false;
    found = HP_ENDED;
    all();
    WANT(hp_close(&session) == HP_OK);
    found = HP_CLOSED;
    refused(0, 0, 1, HP_CLOSED);
    printf("subtrees of %d roots from each of their nodes, in pieces, %d faults\n", NODES + 1, faults);
    return faults != 0;
}
