/* The number of objects of each kind, as they are made and released. Counting takes no memory, and the last answer stays. Linked with --wrap for
 * malloc, realloc and free. */
#include "huckleport.h"
#include "kinds.h"
#include "refusing.h"

enum { SOME = 3000 };

typedef uint8_t releasing(hp_session *, uint32_t);

/* Returns the number of objects of each kind, without taking memory. */
static hp_counts told(void)
{
    hp_counts found = { 7, 7, 7, 7, 7, 7, 7 };
    refuse(1);
    WANT(hp_in_use(&session, &found) == HP_OK);
    counts = false;
    WANT(asked == 0);
    return found;
}

static void are(size_t nodes, size_t ranges, size_t static_ranges, size_t iterators, size_t walkers, size_t observers, size_t registrations)
{
    hp_counts found = told();
    WANT(found.nodes == nodes);
    WANT(found.ranges == ranges && found.static_ranges == static_ranges);
    WANT(found.iterators == iterators && found.walkers == walkers);
    WANT(found.observers == observers && found.registrations == registrations);
}

/* One more of each kind counts, and none that is released. */
static void each(void)
{
    are(1, 0, 0, 0, 0, 0, 0);
    uint32_t top = tree();
    are(3, 0, 0, 0, 0, 0, 0);
    uint32_t range = range_over(top);
    are(3, 1, 0, 0, 0, 0, 0);
    uint32_t fixed = static_range_over(top);
    are(3, 1, 1, 0, 0, 0, 0);
    uint32_t iterator = iterator_over(top);
    are(3, 1, 1, 1, 0, 0, 0);
    uint32_t walker = walker_over(top);
    are(3, 1, 1, 1, 1, 0, 0);
    uint32_t observer = observer_over(top);
    are(3, 1, 1, 1, 1, 1, 1);
    WANT(hp_release_range(&session, range) == HP_OK);
    are(3, 0, 1, 1, 1, 1, 1);
    WANT(hp_release_static_range(&session, fixed) == HP_OK);
    are(3, 0, 0, 1, 1, 1, 1);
    WANT(hp_release_iterator(&session, iterator) == HP_OK);
    are(3, 0, 0, 0, 1, 1, 1);
    WANT(hp_release_walker(&session, walker) == HP_OK);
    are(3, 0, 0, 0, 0, 1, 1);
    WANT(hp_disconnect(&session, observer) == HP_OK);
    are(3, 0, 0, 0, 0, 1, 0);
    WANT(hp_release_observer(&session, observer) == HP_OK);
    are(3, 0, 0, 0, 0, 0, 0);
    WANT(hp_discard(&session, top) == HP_OK);
    are(1, 0, 0, 0, 0, 0, 0);
}

/* A removed node has one transient registration of each observer of its parent's subtree, until observers are notified. */
static void transient(void)
{
    uint32_t top = tree(), first = observer_over(top), second = observer_over(top), child = HP_NONE;
    are(3, 0, 0, 0, 0, 2, 2);
    WANT(hp_first_child(&session, top, &child) == HP_OK && hp_remove(&session, child) == HP_OK);
    are(3, 0, 0, 0, 0, 2, 4);
    WANT(hp_append_child(&session, top, child) == HP_OK && hp_remove(&session, child) == HP_OK);
    are(3, 0, 0, 0, 0, 2, 4);
    WANT(hp_release_observer(&session, first) == HP_OK);
    are(3, 0, 0, 0, 0, 1, 2);
    WANT(hp_notify(&session) == HP_OK);
    are(3, 0, 0, 0, 0, 1, 1);
    WANT(hp_release_observer(&session, second) == HP_OK);
    WANT(hp_discard(&session, child) == HP_OK && hp_discard(&session, top) == HP_OK);
    are(1, 0, 0, 0, 0, 0, 0);
}

/* Returns how many nodes were ever made, without taking memory. */
static uint64_t made(void)
{
    uint64_t found = 7;
    refuse(1);
    WANT(hp_nodes_made(&session, &found) == HP_OK);
    counts = false;
    WANT(asked == 0);
    return found;
}

/* Discards the nodes that were made since, unless they are in use, and returns how many. */
static size_t discarded(uint64_t since)
{
    size_t found = 0;
    for (uint64_t at = since; at < made(); at++) {
        uint8_t status = hp_discard(&session, (uint32_t)at);
        WANT(status == HP_OK || status == HP_IN_USE);
        found += status == HP_OK;
    }
    return found;
}

/* Surrounding makes a fragment that no answer names. It is found by its number and discarded, so the number of nodes does not grow with the turns. */
static void unnamed(void)
{
    uint64_t first = made();
    uint32_t top = tree(), range = range_over(top), child = HP_NONE;
    WANT(top == first && made() == first + 2);
    WANT(hp_first_child(&session, top, &child) == HP_OK);
    for (size_t turn = 0; turn < SOME; turn++) {
        uint32_t parent = HP_NONE;
        WANT(hp_create_element(&session, 0, hp_name("around"), &parent) == HP_OK);
        uint64_t before = made();
        WANT(before == parent + (uint64_t)1);
        WANT(hp_surround_contents(&session, range, parent) == HP_OK && made() == before + 1);
        are(5, 1, 0, 0, 0, 0, 0);
        WANT(discarded(before) == 1 && made() == before + 1);
        are(4, 1, 0, 0, 0, 0, 0);
        WANT(hp_insert_before(&session, top, child, parent) == HP_OK && hp_remove(&session, parent) == HP_OK);
        WANT(hp_discard(&session, parent) == HP_OK && hp_select_node_contents(&session, range, top) == HP_OK);
        are(3, 1, 0, 0, 0, 0, 0);
    }
    WANT(hp_release_range(&session, range) == HP_OK && hp_discard(&session, top) == HP_OK);
    are(1, 0, 0, 0, 0, 0, 0);
}

/* The answer that was there stays. */
static void stays(void)
{
    size_t count = 7;
    WANT(hp_children(&session, 0) == HP_OK);
    are(1, 0, 0, 0, 0, 0, 0);
    WANT(made() > 0);
    WANT(hp_count(&session, &count) == HP_OK && count == 0);
}

/* SOME objects are there at once, and are released in another order than they were made. */
static void many(uint32_t (*over)(uint32_t), releasing *release, size_t of(hp_counts))
{
    static uint32_t numbers[SOME];
    for (uint32_t at = 0; at < SOME; at++)
        numbers[at] = over(0);
    WANT(of(told()) == SOME);
    for (uint32_t at = 0; at < SOME; at += 2)
        WANT(release(&session, numbers[at]) == HP_OK);
    WANT(of(told()) == SOME / 2);
    for (uint32_t at = SOME; at > 0; at -= 2)
        WANT(release(&session, numbers[at - 1]) == HP_OK);
    WANT(of(told()) == 0);
}

static size_t ranges_of(hp_counts it)
{
    return it.ranges;
}

static size_t static_ranges_of(hp_counts it)
{
    return it.static_ranges;
}

static size_t iterators_of(hp_counts it)
{
    return it.iterators;
}

static size_t walkers_of(hp_counts it)
{
    return it.walkers;
}

static size_t observers_of(hp_counts it)
{
    return it.observers;
}

static size_t registrations_of(hp_counts it)
{
    return it.registrations;
}

int main(void)
{
    WANT(hp_open(&session, 4294967295u, 1000) == HP_OK);
    each();
    transient();
    unnamed();
    stays();
    many(range_over, (hp_release_range), ranges_of);
    many(static_range_over, (hp_release_static_range), static_ranges_of);
    many(iterator_over, (hp_release_iterator), iterators_of);
    many(walker_over, (hp_release_walker), walkers_of);
    many(observer_over, (hp_release_observer), observers_of);
    many(observer_over, (hp_release_observer), registrations_of);
    WANT(hp_close(&session) == HP_OK);
    printf("%d of each kind counted as they came and went, %d faults\n", SOME, faults);
    return faults != 0;
}
