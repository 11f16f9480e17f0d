/* Released objects: every call refuses them, their numbers are not used again, and they keep no tree in use. A hundred thousand of each kind are made
 * and released one by one, or a million with any argument. Only a few bytes stay in use for each thousand numbers, and releasing takes no memory.
 * Linked with --wrap for malloc, realloc and free. */
#include "huckleport.h"
#include "kinds.h"
#include <malloc.h>
#include <stdbool.h>
#include <stdio.h>

enum { FEW = 5000, MANY = 100000, MORE = 1000000, MOST_KEPT = 32768 };

typedef uint8_t releasing(hp_session *, uint32_t);

static size_t held;
static unsigned long asked;
static uint32_t many = MANY;

void *__real_malloc(size_t size);
void *__real_realloc(void *old, size_t size);
void __real_free(void *block);

void *__wrap_malloc(size_t size)
{
    void *block = __real_malloc(size);
    held += malloc_usable_size(block);
    asked++;
    return block;
}

void *__wrap_realloc(void *old, size_t size)
{
    size_t before = malloc_usable_size(old);
    void *block = __real_realloc(old, size);
    if (block)
        held += malloc_usable_size(block) - before;
    asked++;
    return block;
}

void __wrap_free(void *block)
{
    held -= malloc_usable_size(block);
    __real_free(block);
}

/* A tree is in use as long as one of its kind is over it, and no longer; the number is refused from then on, and the next one is another. */
static void frees(uint32_t (*over)(uint32_t), releasing *release)
{
    uint32_t top = tree(), first = over(top), second = over(top);
    WANT(second == first + 1);
    WANT(hp_discard(&session, top) == HP_IN_USE);
    WANT(release(&session, first) == HP_OK);
    WANT(release(&session, first) == HP_NO_SUCH_OBJECT);
    WANT(hp_discard(&session, top) == HP_IN_USE);
    WANT(release(&session, second) == HP_OK);
    WANT(hp_discard(&session, top) == HP_OK);
    WANT(release(&session, second + 1) == HP_NO_SUCH_OBJECT);
    WANT(release(&session, HP_NONE) == HP_NO_SUCH_OBJECT);
    uint32_t next = over(0);
    WANT(next == second + 1);
    WANT(release(&session, next) == HP_OK);
}

/* Every call refuses released objects, and the value at its out pointer stays. */
static void refused(void)
{
    hp_options options = HP_OPTIONS_INIT;
    hp_iterator_at iterator_at;
    hp_walker_at walker_at;
    hp_static_ends ends;
    uint32_t iterator = iterator_over(0), walker = walker_over(0), range = static_range_over(0), observer = observer_over(0), node = 7;
    options.child_list = 1;
    WANT(hp_release_iterator(&session, iterator) == HP_OK && hp_release_walker(&session, walker) == HP_OK);
    WANT(hp_release_static_range(&session, range) == HP_OK && hp_release_observer(&session, observer) == HP_OK);
    WANT(hp_iterator(&session, iterator, &iterator_at) == HP_NO_SUCH_OBJECT);
    WANT(hp_next_node(&session, iterator, &node) == HP_NO_SUCH_OBJECT && node == 7);
    WANT(hp_previous_node(&session, iterator, &node) == HP_NO_SUCH_OBJECT && node == 7);
    WANT(hp_walker(&session, walker, &walker_at) == HP_NO_SUCH_OBJECT);
    WANT(hp_set_current(&session, walker, 0) == HP_NO_SUCH_OBJECT);
    WANT(hp_walk(&session, walker, 1, &node) == HP_NO_SUCH_OBJECT && node == 7);
    WANT(hp_static_range(&session, range, &ends) == HP_NO_SUCH_OBJECT);
    WANT(hp_observe(&session, observer, 0, &options, NULL, 0, NULL, 0) == HP_NO_SUCH_OBJECT);
    WANT(hp_disconnect(&session, observer) == HP_NO_SUCH_OBJECT);
    WANT(hp_take_records(&session, observer) == HP_NO_SUCH_OBJECT);
    WANT(hp_tell_observer(&session, observer) == HP_NO_SUCH_OBJECT);
}

static bool tells(uint32_t observer, size_t records)
{
    size_t count = 7;
    return hp_tell_observer(&session, observer) == HP_OK && hp_count(&session, &count) == HP_OK && count == records;
}

static bool takes_pending(size_t observers)
{
    size_t count = 7;
    return hp_take_pending(&session) == HP_OK && hp_count(&session, &count) == HP_OK && count == observers;
}

static bool is_at(size_t index, uint32_t observer)
{
    uint32_t number = HP_NONE;
    return hp_number_at(&session, index, &number) == HP_OK && number == observer;
}

/* Four observers are notified in turn. Before their turns the second is disconnected, the third's records are taken, and the last is released. */
static void in_turn(void)
{
    uint32_t top = tree(), child = HP_NONE;
    uint32_t first = observer_over(top), second = observer_over(top), third = observer_over(top), last = observer_over(top);
    WANT(hp_create_element(&session, 0, hp_name("late"), &child) == HP_OK && hp_append_child(&session, top, child) == HP_OK);
    WANT(takes_pending(4) && is_at(0, first) && is_at(1, second) && is_at(2, third) && is_at(3, last));
    WANT(takes_pending(0));
    WANT(tells(first, 1) && tells(first, 0));
    WANT(hp_disconnect(&session, second) == HP_OK && tells(second, 0));
    WANT(hp_take_records(&session, third) == HP_OK && tells(third, 0));
    WANT(hp_release_observer(&session, last) == HP_OK && hp_tell_observer(&session, last) == HP_NO_SUCH_OBJECT);
    WANT(hp_release_observer(&session, first) == HP_OK && hp_release_observer(&session, second) == HP_OK);
    WANT(hp_release_observer(&session, third) == HP_OK && hp_discard(&session, top) == HP_OK);
}

/* An observer that is released while records wait for it is no longer notified; another one is. */
static void untold(void)
{
    uint32_t top = tree(), gone = observer_over(top), stays = observer_over(top), child = HP_NONE, told = HP_NONE;
    size_t count = 7;
    hp_notice notice;
    WANT(hp_create_element(&session, 0, hp_name("late"), &child) == HP_OK && hp_append_child(&session, top, child) == HP_OK);
    WANT(hp_release_observer(&session, gone) == HP_OK);
    WANT(hp_pending(&session) == HP_OK && hp_count(&session, &count) == HP_OK && count == 1);
    WANT(hp_number_at(&session, 0, &told) == HP_OK && told == stays);
    WANT(hp_notify(&session) == HP_OK && hp_count(&session, &count) == HP_OK && count == 1);
    WANT(hp_notice_at(&session, 0, &notice) == HP_OK && notice.observer == stays && notice.records == 1);
    WANT(hp_release_observer(&session, stays) == HP_OK && hp_discard(&session, top) == HP_OK);
}

/* No line says a release of these four. */
static void no_line(void)
{
    const char *lines[] = { "[\"releaseIterator\",0]", "[\"releaseWalker\",0]", "[\"releaseStaticRange\",0]", "[\"releaseObserver\",0]" };
    for (int at = 0; at < 4; at++) {
        size_t length = 0;
        while (lines[at][length])
            length++;
        WANT(hp_line(&session, (const uint8_t *)lines[at], length) == HP_BAD_COMMAND);
    }
}

static void come_and_go(uint32_t count, uint32_t (*over)(uint32_t), releasing *release)
{
    for (uint32_t at = 0; at < count; at++) {
        uint32_t made = over(0);
        unsigned long before = asked;
        if (release(&session, made) != HP_OK || asked != before)
            faults++;
    }
}

/* How many bytes more are in use once many came and went than once a few did. */
static void level(const char *name, uint32_t (*over)(uint32_t), releasing *release)
{
    come_and_go(FEW, over, release);
    size_t before = held;
    come_and_go(many, over, release);
    long more = (long)held - (long)before;
    printf("%u %s: %ld bytes more\n", many, name, more);
    WANT(more < MOST_KEPT);
}

int main(int count, char **words)
{
    (void)words;
    if (count > 1)
        many = MORE;
    WANT(hp_open(&session, 4294967295u, 1000) == HP_OK);
    frees(iterator_over, (hp_release_iterator));
    frees(walker_over, (hp_release_walker));
    frees(static_range_over, (hp_release_static_range));
    frees(observer_over, (hp_release_observer));
    frees(range_over, (hp_release_range));
    refused();
    untold();
    in_turn();
    no_line();
    level("iterators", iterator_over, (hp_release_iterator));
    level("walkers", walker_over, (hp_release_walker));
    level("static ranges", static_range_over, (hp_release_static_range));
    level("observers", observer_over, (hp_release_observer));
    level("live ranges", range_over, (hp_release_range));
    WANT(hp_close(&session) == HP_OK);
    WANT(held == 0);
    printf("%u of each kind came and went, %d faults\n", many, faults);
    return faults != 0;
}
