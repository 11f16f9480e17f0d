/* State and helpers that the module's calls share: sessions by index, a guard, a buffer for arguments, and results of many parts in one buffer.
 *
 * Only numbers of 32 bits cross the boundary. A call writes its results into `numbers`. A text or a name is passed as an address in `room` and a length,
 * and borrowed data is returned as an address and a length. */
#ifndef HUCKLEPORT_WEB_BASE_H
#define HUCKLEPORT_WEB_BASE_H

#include "heap.h"
#include "huckleport.h"

int memcmp(const void *one, const void *other, size_t length);

#define SHOWN(name) __attribute__((export_name(#name))) uint32_t call_##name

/* The status of a call that comes while another is under way, or after one that did not end. */
#define STUCK 255
/* A room or an answer larger than this is given back once less is enough. */
#define LARGE 1048576
#define LEAST 65536

static uint32_t numbers[16];

static uint32_t place(const void *at)
{
    return (uint32_t)(uintptr_t)at;
}

static void *pointer(uint32_t at)
{
    return (void *)(uintptr_t)at;
}

SHOWN(numbers)(void)
{
    return place(numbers);
}

/* Grows a buffer by doubling until it holds `wanted` items of `size` bytes. Returns NULL if out of memory; the old buffer then stays as it is. */
static void *lengthened(void *piece, uint32_t *room, size_t wanted, size_t size)
{
    size_t parts = *room ? *room : LEAST / size;
    while (parts < wanted)
        parts *= 2;
    void *found = parts > 4294967295u / size ? NULL : heap_resize(piece, parts * size);
    if (found)
        *room = (uint32_t)parts;
    return found;
}

/* Returns a buffer as it is, or frees it and returns NULL if its capacity is more than LARGE bytes. */
static void *unless_large(void *piece, uint32_t *room, size_t size)
{
    if (*room <= LARGE / size)
        return piece;
    heap_give(piece);
    *room = 0;
    return NULL;
}

/* ---- The guard: a call that does not end, by a trap or since the stack is too short, leaves the flag up, and no later call reads what it left. */

static bool is_busy;

static uint32_t leave(uint32_t status)
{
    is_busy = false;
    return status;
}

/* ---- Sessions. */

/* The name of a node, which never changes: its number plus one, 0 where nothing stands. */
typedef struct named {
    uint32_t node, name;
} named;

/* A session that is open, and names of nodes that were asked for (see name_of). */
typedef struct opened {
    hp_session its;
    named *named;
    uint32_t named_room;
} opened;

static hp_session **sessions;
static uint32_t session_count;

static uint32_t enter(uint32_t index, hp_session **session)
{
    if (is_busy)
        return STUCK;
    *session = index < session_count ? sessions[index] : NULL;
    if (!*session)
        return HP_CLOSED;
    is_busy = true;
    return HP_OK;
}

/* An index without a session, or the count of all of them where there is none. */
static uint32_t free_index(void)
{
    uint32_t index = 0;
    while (index < session_count && sessions[index])
        index++;
    return index;
}

static bool has_place(uint32_t index)
{
    if (index < session_count)
        return true;
    hp_session **longer = heap_resize(sessions, (session_count + 1) * sizeof(*longer));
    if (!longer)
        return false;
    longer[session_count] = NULL;
    sessions = longer;
    session_count++;
    return true;
}

/* Opens a session; its index is the first number. */
SHOWN(open)(uint32_t count, uint32_t line)
{
    if (is_busy)
        return STUCK;
    is_busy = true;
    uint32_t index = free_index();
    opened *made = has_place(index) ? heap_take(sizeof(*made)) : NULL;
    if (!made)
        return leave(HP_OUT_OF_MEMORY);
    *made = (opened){ .its = HP_SESSION_INIT };
    uint32_t status = hp_open(&made->its, count, line);
    if (status == HP_OK) {
        sessions[index] = &made->its;
        numbers[0] = index;
        return leave(status);
    }
    hp_close(&made->its);
    heap_give(made);
    return leave(status);
}

SHOWN(close)(uint32_t index)
{
    hp_session *session;
    uint32_t refused = enter(index, &session);
    if (refused)
        return refused;
    sessions[index] = NULL;
    uint32_t status = hp_close(session);
    heap_give(((opened *)session)->named);
    heap_give(session);
    return leave(status);
}

/* ---- The buffer for arguments. */

static uint8_t *room;
static uint32_t room_size;

/* Returns the address of a buffer of at least `size` bytes, or 0 if out of memory or busy. Its old content is lost; its capacity is the first number. */
SHOWN(room)(uint32_t size)
{
    if (is_busy)
        return 0;
    if (room_size < size || (room_size > LARGE && size <= LARGE)) {
        heap_give(room);
        room_size = size < LEAST ? LEAST : size;
        room = heap_take(room_size);
    }
    if (!room)
        room_size = 0;
    numbers[0] = room_size;
    return place(room);
}

SHOWN(held)(void)
{
    return (uint32_t)heap_held();
}

/* Keeps the memory from growing past `bytes` bytes from now on; 0 removes the limit. */
SHOWN(bound)(uint32_t bytes)
{
    heap_bound(bytes);
    return HP_OK;
}

/* ---- Names: each is kept once, by a number of its own from 0 on. */

typedef struct name {
    uint32_t sum;
    uint32_t length;
    uint8_t *bytes;
    /* How it is written as that of an element and of an attribute, and which call asked for it last (see html.h). */
    struct form *forms[2];
    uint32_t asked[2];
} name;

static name *names;
static uint32_t name_count, name_room;
/* The names by their sums: numbers plus one, 0 where there is none; as many as a power of two. */
static uint32_t *buckets, bucket_count;

static uint32_t sum_of(const uint8_t *bytes, size_t length)
{
    uint32_t sum = 2166136261u;
    for (size_t at = 0; at < length; at++)
        sum = (sum ^ bytes[at]) * 16777619u;
    return sum;
}

static uint32_t *bucket_of(uint32_t sum, const uint8_t *bytes, size_t length)
{
    uint32_t at = sum & (bucket_count - 1);
    while (buckets[at]) {
        name *its = &names[buckets[at] - 1];
        if (its->sum == sum && its->length == length && !memcmp(its->bytes, bytes, length))
            break;
        at = (at + 1) & (bucket_count - 1);
    }
    return &buckets[at];
}

/* Twice as many buckets, with the names that are there. */
static bool spread(void)
{
    uint32_t count = bucket_count ? 2 * bucket_count : 256;
    uint32_t *wider = heap_take(count * sizeof(*wider));
    if (!wider)
        return false;
    __builtin_memset(wider, 0, count * sizeof(*wider));
    heap_give(buckets);
    buckets = wider;
    bucket_count = count;
    for (uint32_t at = 0; at < name_count; at++)
        *bucket_of(names[at].sum, names[at].bytes, names[at].length) = at + 1;
    return true;
}

static bool has_name_room(void)
{
    if (2 * (name_count + 1) > bucket_count && !spread())
        return false;
    if (name_count < name_room)
        return true;
    uint32_t more = name_room ? 2 * name_room : 128;
    name *longer = heap_resize(names, more * sizeof(*longer));
    if (!longer)
        return false;
    names = longer;
    name_room = more;
    return true;
}

/* The number of a name, or HP_NONE where there is no memory for it. */
static uint32_t number_of_name(const uint8_t *bytes, size_t length)
{
    if (!has_name_room())
        return HP_NONE;
    uint32_t sum = sum_of(bytes, length), *bucket = bucket_of(sum, bytes, length);
    if (*bucket)
        return *bucket - 1;
    uint8_t *copy = heap_take(length + 1);
    if (!copy)
        return HP_NONE;
    __builtin_memcpy(copy, bytes, length);
    names[name_count] = (name){ .sum = sum, .length = (uint32_t)length, .bytes = copy };
    *bucket = ++name_count;
    return name_count - 1;
}

/* The number of a name of `length` bytes in the room, or HP_NONE. */
SHOWN(name_number)(uint32_t at, uint32_t length)
{
    return is_busy ? HP_NONE : number_of_name(pointer(at), length);
}

/* Where the bytes of a name stand, and how many they are. */
SHOWN(name_bytes)(uint32_t number)
{
    if (number >= name_count)
        return HP_NOT_THERE;
    numbers[0] = place(names[number].bytes);
    numbers[1] = names[number].length;
    return HP_OK;
}

/* ---- Names of nodes: a cache of those that were read last, at most MOST_NAMED. A node's number is the key of its slot. */

enum { FEWEST_NAMED = 512, MOST_NAMED = 131072 };

/* Grows the cache until a node has a slot of its own, or to MOST_NAMED slots. If out of memory, the cache stays as it is. */
static void widen(opened *its, uint32_t node)
{
    uint32_t places = its->named_room ? its->named_room : FEWEST_NAMED;
    while (places <= node && places < MOST_NAMED)
        places *= 2;
    named *wider = places == its->named_room ? NULL : heap_take(places * sizeof(*wider));
    if (!wider)
        return;
    __builtin_memset(wider, 0, places * sizeof(*wider));
    for (uint32_t at = 0; at < its->named_room; at++)
        if (its->named[at].name)
            wider[its->named[at].node & (places - 1)] = its->named[at];
    heap_give(its->named);
    its->named = wider;
    its->named_room = places;
}

/* Returns the slot of a node, or NULL. */
static named *place_of_node(hp_session *session, uint32_t node)
{
    opened *its = (opened *)session;
    if (node >= its->named_room && its->named_room < MOST_NAMED)
        widen(its, node);
    return its->named_room ? &its->named[node & (its->named_room - 1)] : NULL;
}

static void note_name(hp_session *session, uint32_t node, uint32_t number)
{
    named *at = place_of_node(session, node);
    if (at)
        *at = (named){ node, number + 1 };
}

/* Asks for a part of a node's name: its number. */
static uint32_t ask_name(hp_session *session, uint32_t node, uint8_t part, uint32_t *number)
{
    hp_bytes bytes;
    uint32_t status = hp_name_of(session, node, part, &bytes);
    if (status != HP_OK)
        return status;
    *number = number_of_name(bytes.bytes, bytes.length);
    return *number == HP_NONE ? HP_OUT_OF_MEMORY : HP_OK;
}

/* The number of a node's name. */
static uint32_t name_of(hp_session *session, uint32_t node, uint32_t *number)
{
    named *at = place_of_node(session, node);
    if (at && at->name && at->node == node) {
        *number = at->name - 1;
        return HP_OK;
    }
    uint32_t status = ask_name(session, node, 0, number);
    if (status == HP_OK && at)
        *at = (named){ node, *number + 1 };
    return status;
}

/* ---- Answers of many parts: words of 32 bits, which stand here until the next such answer. Its place and its count are the first numbers. */

static uint32_t *words, word_count, word_room;

static void begin_words(void)
{
    word_count = 0;
    words = unless_large(words, &word_room, sizeof(*words));
}

static bool has_words(size_t more)
{
    if (word_count + more <= word_room)
        return true;
    uint32_t *its = lengthened(words, &word_room, word_count + more, sizeof(*words));
    if (!its)
        return false;
    words = its;
    return true;
}

static void put(uint32_t word)
{
    words[word_count++] = word;
}

static uint32_t end_words(uint32_t status)
{
    numbers[0] = place(words);
    numbers[1] = word_count;
    return leave(status);
}

/* Puts the count of the units of a text, and the units; HP_NONE where the call that lent it did not. */
static bool put_text(uint32_t status, const hp_text_view *text)
{
    size_t length = status == HP_OK ? text->length : 0, taken = (length + 1) / 2;
    if (!has_words(taken + 1))
        return false;
    put(status == HP_OK ? (uint32_t)length : HP_NONE);
    __builtin_memcpy(&words[word_count], text->units, length * sizeof(uint16_t));
    word_count += (uint32_t)taken;
    return true;
}

/* Puts the number of a name, or HP_NONE where the call that lent it did not. */
static bool put_name(uint32_t status, const hp_bytes *bytes)
{
    uint32_t number = status == HP_OK ? number_of_name(bytes->bytes, bytes->length) : HP_NONE;
    if ((status == HP_OK && number == HP_NONE) || !has_words(1))
        return false;
    put(number);
    return true;
}

/* The numbers of the session's last answer. */
SHOWN(listed)(uint32_t index)
{
    hp_session *session;
    size_t count = 0;
    uint32_t refused = enter(index, &session);
    if (refused)
        return refused;
    begin_words();
    uint32_t status = hp_count(session, &count);
    if (status == HP_OK && !has_words(count))
        status = HP_OUT_OF_MEMORY;
    if (status == HP_OK)
        status = hp_numbers_into(session, words, count, &count);
    word_count = status == HP_OK ? (uint32_t)count : 0;
    return end_words(status);
}

/* The children of a node. */
SHOWN(children)(uint32_t index, uint32_t node)
{
    hp_session *session;
    hp_node_links links;
    size_t count = 0;
    uint32_t refused = enter(index, &session);
    if (refused)
        return refused;
    begin_words();
    uint32_t status = hp_links(session, node, &links);
    if (status == HP_OK && !has_words(links.children))
        status = HP_OUT_OF_MEMORY;
    if (status == HP_OK)
        status = hp_children_into(session, node, words, links.children, &count);
    word_count = status == HP_OK ? (uint32_t)count : 0;
    return end_words(status);
}

/* ---- Trees. */

enum { ELEMENT = 1, TEXT = 3, DOCTYPE = 10, FRAGMENT = 11 };

/* The children of a node that are elements. */
SHOWN(element_children)(uint32_t index, uint32_t node)
{
    hp_session *session;
    hp_node_links links;
    uint32_t at = HP_NONE, refused = enter(index, &session);
    if (refused)
        return refused;
    begin_words();
    uint32_t status = hp_first_child(session, node, &at);
    while (status == HP_OK && at != HP_NONE) {
        status = hp_links(session, at, &links);
        if (status == HP_OK && !has_words(1))
            status = HP_OUT_OF_MEMORY;
        if (status == HP_OK && links.kind == ELEMENT)
            put(at);
        at = links.next;
    }
    return end_words(status);
}

static bool put_attributes(hp_session *session, size_t at, size_t count)
{
    for (size_t each = 0; each < count; each++) {
        hp_bytes its;
        hp_text_view value;
        if (!put_name(hp_row_attribute_name(session, at, each, &its), &its) || !put_text(hp_row_attribute_value(session, at, each, &value), &value))
            return false;
    }
    return true;
}

/* Puts a row: depth, node, type, the count of attributes; the name or HP_NONE; the text (as put_text); of a doctype its two ids, and the attributes. */
static bool put_row(hp_session *session, size_t at)
{
    hp_row row;
    hp_bytes its;
    hp_text_view text;
    if (hp_row_at(session, at, &row) != HP_OK || !has_words(4))
        return false;
    put((uint32_t)row.depth);
    put(row.node);
    put(row.type);
    put((uint32_t)row.attributes);
    if (!put_name(hp_row_name(session, at, 0, &its), &its) || !put_text(hp_row_text(session, at, &text), &text))
        return false;
    for (uint8_t part = 1; row.type == DOCTYPE && part < 3; part++)
        if (!put_name(hp_row_name(session, at, part, &its), &its))
            return false;
    return put_attributes(session, at, row.attributes);
}

/* Puts the number and the name of a row that is an element. */
static bool put_element(hp_session *session, size_t at)
{
    hp_row row;
    hp_bytes bytes;
    if (hp_row_at(session, at, &row) != HP_OK || row.type != ELEMENT)
        return true;
    if (!has_words(1))
        return false;
    put(row.node);
    return put_name(hp_row_name(session, at, 0, &bytes), &bytes);
}

/* Where among a row's attributes a name stands; their count where it does not. */
static size_t place_of(hp_session *session, size_t at, size_t count, const name *its)
{
    size_t each = 0;
    hp_bytes bytes;
    while (each < count && hp_row_attribute_name(session, at, each, &bytes) == HP_OK) {
        if (bytes.length == its->length && !memcmp(bytes.bytes, its->bytes, bytes.length))
            return each;
        each++;
    }
    return count;
}

/* Puts the number of a row that has an attribute of a name, and its value. */
static bool put_holder(hp_session *session, size_t at, const name *its)
{
    hp_row row;
    hp_text_view value;
    if (hp_row_at(session, at, &row) != HP_OK || !row.attributes)
        return true;
    size_t found = place_of(session, at, row.attributes, its);
    if (found == row.attributes)
        return true;
    if (!has_words(1))
        return false;
    put(row.node);
    return put_text(hp_row_attribute_value(session, at, found, &value), &value);
}

/* Which part of each row of a tree is put. (This is no pointer to a function, since the module has no table for calls through pointers.) */
enum part { WHOLE, ELEMENTS, HOLDERS };

static bool put_part(hp_session *session, enum part part, size_t at, const name *its)
{
    if (part == WHOLE)
        return put_row(session, at);
    return part == ELEMENTS ? put_element(session, at) : put_holder(session, at, its);
}

/* ---- The same of a session that has ended, by calls that take no memory. */

static bool put_held_attributes(hp_session *session, uint32_t node, uint32_t *count)
{
    hp_bytes its;
    hp_text_view value;
    for (*count = 0; hp_attribute_at(session, node, *count, &its, &value) == HP_OK; ++*count)
        if (!put_name(HP_OK, &its) || !put_text(HP_OK, &value))
            return false;
    return true;
}

static bool put_held_row(hp_session *session, uint32_t node, uint32_t depth, uint8_t kind)
{
    hp_bytes its;
    hp_text_view text;
    uint32_t at = word_count + 3, count = 0;
    if (!has_words(4))
        return false;
    put(depth);
    put(node);
    put(kind);
    put(0);
    if (!put_name(hp_name_of(session, node, 0, &its), &its) || !put_text(hp_data_of(session, node, &text), &text))
        return false;
    for (uint8_t part = 1; kind == DOCTYPE && part < 3; part++)
        if (!put_name(hp_name_of(session, node, part, &its), &its))
            return false;
    if (!put_held_attributes(session, node, &count))
        return false;
    words[at] = count;
    return true;
}

/* Finds an attribute by its name: its value, which is lent. */
static uint32_t held_value(hp_session *session, uint32_t node, const name *its, hp_text_view *value)
{
    hp_bytes bytes;
    uint32_t status;
    for (size_t at = 0; (status = hp_attribute_at(session, node, at, &bytes, value)) == HP_OK; at++)
        if (bytes.length == its->length && !memcmp(bytes.bytes, its->bytes, bytes.length))
            return HP_OK;
    return status;
}

static bool put_held(hp_session *session, enum part part, uint32_t node, uint32_t depth, uint8_t kind, const name *its)
{
    hp_bytes bytes;
    hp_text_view value;
    if (part == WHOLE)
        return put_held_row(session, node, depth, kind);
    if (kind != ELEMENT || (part == HOLDERS && held_value(session, node, its, &value) != HP_OK))
        return true;
    if (!has_words(1))
        return false;
    put(node);
    return part == ELEMENTS ? put_name(hp_name_of(session, node, 0, &bytes), &bytes) : put_text(HP_OK, &value);
}

/* From the links of a node: the next in tree order among those below the node at depth 0; HP_NONE behind the last. */
static uint32_t next_below(hp_session *session, hp_node_links *links, uint32_t *depth)
{
    if (links->first_child != HP_NONE) {
        ++*depth;
        return links->first_child;
    }
    while (*depth && links->next == HP_NONE) {
        if (hp_links(session, links->parent, links) != HP_OK)
            return HP_NONE;
        --*depth;
    }
    return *depth ? links->next : HP_NONE;
}

static uint32_t of_held(hp_session *session, uint32_t node, enum part part, const name *its)
{
    hp_node_links links;
    uint32_t depth = 0, status = HP_OK;
    while (status == HP_OK && node != HP_NONE) {
        status = hp_links(session, node, &links);
        if (status == HP_OK && !put_held(session, part, node, depth, links.kind, its))
            status = HP_OUT_OF_MEMORY;
        if (status == HP_OK)
            node = next_below(session, &links, &depth);
    }
    return status;
}

static uint32_t of_rows(uint32_t index, uint32_t node, enum part part, const name *its)
{
    hp_session *session;
    size_t count = 0;
    uint32_t refused = enter(index, &session);
    if (refused)
        return refused;
    begin_words();
    uint32_t status = hp_tree(session, node);
    if (status == HP_OUT_OF_MEMORY)
        return end_words(of_held(session, node, part, its));
    if (status == HP_OK)
        status = hp_count(session, &count);
    for (size_t at = 0; at < count && status == HP_OK; at++)
        if (!put_part(session, part, at, its))
            status = HP_OUT_OF_MEMORY;
    return end_words(status);
}

/* Puts a node and its descendants, row by row. */
SHOWN(rows)(uint32_t index, uint32_t node)
{
    return of_rows(index, node, WHOLE, NULL);
}

/* Puts the elements among a node and its descendants, in tree order: number and name. */
SHOWN(elements)(uint32_t index, uint32_t node)
{
    return of_rows(index, node, ELEMENTS, NULL);
}

/* Puts the elements among a node and its descendants that have an attribute of a name: number and value. */
SHOWN(holders)(uint32_t index, uint32_t node, uint32_t number)
{
    if (number >= name_count)
        return HP_NOT_THERE;
    name its = names[number];
    return of_rows(index, node, HOLDERS, &its);
}

/* ---- Attributes and elements by the number of a name. */

static uint32_t leave_text(uint32_t status, const hp_text_view *text)
{
    numbers[0] = status == HP_OK ? place(text->units) : 0;
    numbers[1] = status == HP_OK ? (uint32_t)text->length : 0;
    return leave(status);
}

static uint32_t lent(hp_session *session, uint32_t status)
{
    hp_text_view text = { NULL, 0 };
    if (status == HP_OK)
        status = hp_text(session, &text);
    return leave_text(status, &text);
}

/* The value of an attribute: its place and its length. */
SHOWN(value)(uint32_t index, uint32_t element, uint32_t number)
{
    hp_session *session;
    uint32_t refused = number >= name_count ? HP_NOT_THERE : enter(index, &session);
    if (refused)
        return refused;
    hp_text_view value;
    uint32_t status = hp_get_attribute(session, element, names[number].bytes, names[number].length);
    return status == HP_OUT_OF_MEMORY ? leave_text(held_value(session, element, &names[number], &value), &value) : lent(session, status);
}

SHOWN(set_value)(uint32_t index, uint32_t element, uint32_t number, uint32_t at, uint32_t length)
{
    hp_session *session;
    uint32_t refused = number >= name_count ? HP_NOT_THERE : enter(index, &session);
    if (refused)
        return refused;
    return leave(hp_set_attribute(session, element, names[number].bytes, names[number].length, pointer(at), length));
}

/* An element of a name; its number is the first number. */
SHOWN(element)(uint32_t index, uint32_t document, uint32_t number)
{
    hp_session *session;
    uint32_t refused = number >= name_count ? HP_NOT_THERE : enter(index, &session);
    if (refused)
        return refused;
    uint32_t status = hp_create_element(session, document, names[number].bytes, names[number].length, numbers);
    if (status == HP_OK)
        note_name(session, numbers[0], number);
    return leave(status);
}

/* The name of a node, or a part of a doctype's: its number. */
SHOWN(node_name)(uint32_t index, uint32_t node, uint32_t part)
{
    hp_session *session;
    uint32_t refused = enter(index, &session);
    if (refused)
        return refused;
    return leave(part ? ask_name(session, node, (uint8_t)part, numbers) : name_of(session, node, numbers));
}

/* The data of a node, and its text: place and length. */
SHOWN(data)(uint32_t index, uint32_t node)
{
    hp_session *session;
    hp_text_view data;
    uint32_t refused = enter(index, &session);
    if (refused)
        return refused;
    uint32_t status = hp_data(session, node);
    return status == HP_OUT_OF_MEMORY ? leave_text(hp_data_of(session, node, &data), &data) : lent(session, status);
}

/* The data of the Texts below a node of a session that has ended, one after another; they stand where words do. */
static uint32_t held_content(hp_session *session, uint32_t node)
{
    hp_node_links links;
    hp_text_view data;
    uint32_t depth = 0, status = HP_OK;
    size_t length = 0;
    begin_words();
    while (status == HP_OK && node != HP_NONE) {
        status = hp_links(session, node, &links);
        if (status == HP_OK && links.kind == TEXT)
            status = hp_data_of(session, node, &data);
        if (status == HP_OK && links.kind == TEXT) {
            if (!has_words((length + data.length) / 2 + 1))
                status = HP_OUT_OF_MEMORY;
            else
                __builtin_memcpy((uint16_t *)words + length, data.units, data.length * sizeof(uint16_t));
            length += data.length;
        }
        if (status == HP_OK)
            node = next_below(session, &links, &depth);
    }
    return leave_text(status, &(hp_text_view){ .units = (uint16_t *)words, .length = length });
}

SHOWN(content)(uint32_t index, uint32_t node)
{
    hp_session *session;
    hp_node_links links;
    hp_text_view data;
    uint32_t refused = enter(index, &session);
    if (refused)
        return refused;
    uint32_t status = hp_text_content(session, node);
    if (status != HP_OUT_OF_MEMORY)
        return lent(session, status);
    status = hp_links(session, node, &links);
    if (status != HP_OK || links.kind == ELEMENT || links.kind == FRAGMENT)
        return status == HP_OK ? held_content(session, node) : leave(status);
    return leave_text(hp_data_of(session, node, &data), &data);
}

/* The attributes of an element in their order: their count, the number of each name, and then the values. */
SHOWN(attributes)(uint32_t index, uint32_t element)
{
    hp_session *session;
    hp_bytes its;
    hp_text_view value = { NULL, 0 };
    size_t count = 0;
    uint32_t status, refused = enter(index, &session);
    if (refused)
        return refused;
    begin_words();
    while ((status = hp_attribute_at(session, element, count, &its, &value)) == HP_OK)
        count++;
    status = status != HP_NOT_THERE ? status : has_words(count + 1) ? HP_OK : HP_OUT_OF_MEMORY;
    if (status == HP_OK)
        put((uint32_t)count);
    for (size_t each = 0; each < count && status == HP_OK; each++)
        if (!put_name(hp_attribute_at(session, element, each, &its, &value), &its))
            status = HP_OUT_OF_MEMORY;
    for (size_t each = 0; each < count && status == HP_OK; each++)
        if (!put_text(hp_attribute_at(session, element, each, &its, &value), &value))
            status = HP_OUT_OF_MEMORY;
    return end_words(status);
}

/* ---- Nodes ahead of a walk. */

/* The most nodes of one call. */
enum { MOST_AHEAD = 256 };

/* Puts a node: its number, its parent's, its kind, and the number of its name if it is an element, otherwise HP_NONE. */
static uint32_t put_node(hp_session *session, const hp_subtree_row *row)
{
    uint32_t number = HP_NONE, status = row->kind == ELEMENT ? name_of(session, row->node, &number) : HP_OK;
    if (status != HP_OK)
        return status;
    put(row->node);
    put(row->parent);
    put(row->kind);
    put(number);
    return HP_OK;
}

/* Puts the nodes below a node in tree order, from `start` on, at most `most` of them and MOST_AHEAD. The third number is the next node, or HP_NONE. */
SHOWN(nodes_from)(uint32_t index, uint32_t node, uint32_t start, uint32_t most)
{
    static hp_subtree_row rows[MOST_AHEAD];
    hp_session *session;
    size_t count = 0;
    uint32_t status = enter(index, &session);
    if (status)
        return status;
    begin_words();
    status = hp_subtree_into(session, node, start, rows, most < MOST_AHEAD ? most : MOST_AHEAD, &count, &numbers[2]);
    if (status == HP_OK && !has_words(4 * count))
        status = HP_OUT_OF_MEMORY;
    for (size_t at = 0; at < count && status == HP_OK; at++)
        status = put_node(session, &rows[at]);
    return end_words(status);
}

/* ---- Walkers and observers. */

/* Moves an iterator forward, or back, by `steps` steps. */
SHOWN(iterate)(uint32_t index, uint32_t iterator, uint32_t is_back, uint32_t steps)
{
    hp_session *session;
    uint32_t status = enter(index, &session);
    if (status)
        return status;
    for (uint32_t step = 0; step < steps && status == HP_OK; step++)
        status = is_back ? hp_previous_node(session, iterator, numbers) : hp_next_node(session, iterator, numbers);
    return leave(status);
}

/* Where a walker comes from a node by a move. It stands on node 0 else, so that it keeps no other node in use. */
SHOWN(step)(uint32_t index, uint32_t walker, uint32_t node, uint32_t move)
{
    hp_session *session;
    uint32_t refused = enter(index, &session);
    if (refused)
        return refused;
    uint32_t status = hp_set_current(session, walker, node);
    if (status != HP_OK)
        return leave(status);
    status = hp_walk(session, walker, (uint8_t)move, numbers);
    hp_set_current(session, walker, 0);
    return leave(status);
}

static void put_added(hp_session *session, size_t notice, size_t index, size_t count)
{
    for (size_t at = 0; at < count; at++)
        hp_record_added_at(session, notice, index, at, &words[word_count++]);
}

static void put_removed(hp_session *session, size_t notice, size_t index, size_t count)
{
    for (size_t at = 0; at < count; at++)
        hp_record_removed_at(session, notice, index, at, &words[word_count++]);
}

static uint32_t put_record(hp_session *session, size_t notice, size_t index)
{
    hp_record record;
    uint32_t status = hp_record_at(session, notice, index, &record);
    if (status != HP_OK)
        return status;
    if (!has_words(6 + record.added + record.removed))
        return HP_OUT_OF_MEMORY;
    put(record.type);
    put(record.target);
    put((uint32_t)record.added);
    put((uint32_t)record.removed);
    put(record.previous);
    put(record.next);
    put_added(session, notice, index, record.added);
    put_removed(session, notice, index, record.removed);
    return HP_OK;
}

/* Puts the records of a notice: type, target, the counts of added and removed nodes, the siblings, and then the added and removed nodes. */
SHOWN(records)(uint32_t index, uint32_t notice, uint32_t count)
{
    hp_session *session;
    uint32_t status = enter(index, &session);
    if (status)
        return status;
    begin_words();
    for (size_t at = 0; at < count && status == HP_OK; at++)
        status = put_record(session, notice, at);
    return end_words(status);
}

#endif
