/* The library's memory. Its three functions for memory are here, in place of those of the archive. Blocks of a size are side by side in slabs, and one
 * that is freed is the next to be taken. A long call runs without the lock of the interpreter, so there is a lock here. A thread may own it for a
 * whole call, and releases it amid the call if another thread wants it. */
#ifndef HUCKLEPORT_MEMORY_H
#define HUCKLEPORT_MEMORY_H

#include "core.h"

#include <pthread.h>
#include <sched.h>

#ifndef __has_builtin
#define __has_builtin(name) 0
#endif

/* Memory that was taken, unless is_there is 0; at is never null. */
typedef struct {
    size_t is_there;
    void *at;
} Room;

Room rattle_alloc(size_t size, size_t alignment);
Room rattle_realloc(void *at, size_t had, size_t size, size_t alignment);
void rattle_dealloc(void *at);

/* A block consists of grains. A word ahead of the memory that is handed out holds their number: 0 for a block that malloc has made. */
enum { GRAIN = 16, WORD = 8, MOST_GRAINS = 33, MOST_SIZE = GRAIN * (MOST_GRAINS - 1) - WORD, SLAB = 1 << 18 };
/* The number of slabs that are kept for later when no block is in use: 16 MB. */
enum { MOST_SPARE = 64 };

typedef struct Block {
    struct Block *next;
} Block;

/* Freed blocks by their sizes; the slabs, and the spare ones; where the free part of the last slab begins and ends; and how many blocks are in use.
 * Each slab begins with a link to the next. Then the lock; the thread that owns it for a call, or 0; and the same, or 0 once another thread waits. */
static struct {
    Block *free[MOST_GRAINS];
    Block *slabs, *spare;
    char *at, *end;
    size_t used;
    bool is_locked;
    uintptr_t owner, undisturbed;
} memory;

static void memory_lock(void)
{
    for (int tries = 0; __atomic_test_and_set(&memory.is_locked, __ATOMIC_ACQUIRE); tries++) {
        __atomic_store_n(&memory.undisturbed, 0, __ATOMIC_RELAXED);
        if (tries % 64 == 63)
            sched_yield();
    }
}

static void memory_unlock(void)
{
    __atomic_clear(&memory.is_locked, __ATOMIC_RELEASE);
}

/* What tells this thread from others, and is not 0. */
static inline uintptr_t this_thread(void)
{
#if __has_builtin(__builtin_thread_pointer)
    return (uintptr_t)__builtin_thread_pointer();
#else
    return (uintptr_t)pthread_self();
#endif
}

/* Whether this thread owns the lock: no other thread writes this one's identity. */
static inline bool is_memory_owned(void)
{
    return __atomic_load_n(&memory.owner, __ATOMIC_RELAXED) == this_thread();
}

/* Whether this thread owns the lock, and no other thread waits for it. */
static inline bool is_memory_mine(void)
{
    return __atomic_load_n(&memory.undisturbed, __ATOMIC_RELAXED) == this_thread();
}

static __attribute__((noinline)) void memory_taken(void)
{
    memory_lock();
    __atomic_store_n(&memory.undisturbed, this_thread(), __ATOMIC_RELAXED);
    __atomic_store_n(&memory.owner, this_thread(), __ATOMIC_RELAXED);
}

/* Takes the lock, unless this thread owns it, for calls that run no code of Python and wait for no other lock. */
static inline void memory_own(void)
{
    if (!is_memory_owned())
        memory_taken();
}

/* Releases the lock at the end of a call, or amid it. */
static void memory_release(void)
{
    if (!is_memory_owned())
        return;
    __atomic_store_n(&memory.undisturbed, 0, __ATOMIC_RELAXED);
    __atomic_store_n(&memory.owner, 0, __ATOMIC_RELAXED);
    memory_unlock();
}

/* Raises MemoryError, and returns false. The lock is released before, since code of Python may run when an exception is raised. */
static bool out_of_memory(void)
{
    memory_release();
    return PyErr_NoMemory() != NULL;
}

/* Makes each fork take the lock, which another thread may own, so that it is free in the child. Returns false if there was no memory for that. */
static bool is_ready_for_forks(void)
{
    static bool is_registered;
    return __atomic_test_and_set(&is_registered, __ATOMIC_RELAXED) || pthread_atfork(memory_lock, memory_unlock, memory_unlock) == 0;
}

/* Takes the lock for one block. If another thread waits for it, it is owned no more. */
static void memory_lock_once(void)
{
    memory_release();
    memory_lock();
}

static size_t *word_of(void *at)
{
    return (size_t *)((char *)at - WORD);
}

/* Begins a slab, where there is memory for it. */
static bool slab_made(void)
{
    Block *slab = memory.spare ? memory.spare : malloc(SLAB);
    if (!slab)
        return false;
    memory.spare = memory.spare ? slab->next : NULL;
    slab->next = memory.slabs;
    memory.slabs = slab;
    memory.at = (char *)slab + GRAIN;
    memory.end = (char *)slab + SLAB;
    return true;
}

/* Makes a block at the end of the last slab. The rest of a slab that has no room for it stays unused until no block is in use. */
static __attribute__((noinline)) void *block_made(size_t grains)
{
    if ((size_t)(memory.end - memory.at) < (grains + 1) * GRAIN && !slab_made())
        return NULL;
    void *found = memory.at + GRAIN;
    memory.at += grains * GRAIN;
    memory.used++;
    *word_of(found) = grains;
    return found;
}

/* Takes a freed block under the lock. The next of its size is fetched into the cache, since its link is read then. */
static inline void *block_reused(Block *it, size_t grains)
{
    memory.free[grains] = it->next;
    __builtin_prefetch(it->next, 1);
    memory.used++;
    return it;
}

/* Takes a block under the lock. */
static inline void *block_taken(size_t grains)
{
    Block *found = memory.free[grains];
    return found ? block_reused(found, grains) : block_made(grains);
}

static void *block_taken_once(size_t grains)
{
    memory_lock_once();
    void *found = block_taken(grains);
    memory_unlock();
    return found;
}

/* Once no block is in use some slabs are kept as spare ones. Returns the others, which can go. */
static Block *slabs_left(void)
{
    Block *slabs = memory.slabs;
    size_t spare = 0;
    memset(memory.free, 0, sizeof(memory.free));
    memory.at = memory.end = NULL;
    memory.slabs = NULL;
    for (Block *it = memory.spare; it; it = it->next)
        spare++;
    for (; slabs && spare < MOST_SPARE; spare++) {
        Block *next = slabs->next;
        slabs->next = memory.spare;
        memory.spare = slabs;
        slabs = next;
    }
    return slabs;
}

static void slabs_freed(Block *slabs)
{
    while (slabs) {
        Block *next = slabs->next;
        free(slabs);
        slabs = next;
    }
}

/* Puts a block among the free ones, under the lock. Returns whether no block is in use then. */
static inline bool is_last_left(Block *it, size_t grains)
{
    it->next = memory.free[grains];
    memory.free[grains] = it;
    return --memory.used == 0;
}

static __attribute__((noinline)) void block_left_once(Block *it, size_t grains)
{
    memory_lock_once();
    Block *slabs = is_last_left(it, grains) ? slabs_left() : NULL;
    memory_unlock();
    slabs_freed(slabs);
}

/* A block of malloc's own. */
static void *large_made(char *found)
{
    if (!found)
        return NULL;
    *word_of(found + GRAIN) = 0;
    return found + GRAIN;
}

static void *large_taken(size_t size)
{
    return size > SIZE_MAX - GRAIN ? NULL : large_made(malloc(size + GRAIN));
}

/* The grains of a block for a size, which may be 0. */
static inline size_t grains_for(size_t size)
{
    return (size + WORD + GRAIN - 1) / GRAIN;
}

static void *taken(size_t size)
{
    if (size > MOST_SIZE)
        return large_taken(size);
    return is_memory_mine() ? block_taken(grains_for(size)) : block_taken_once(grains_for(size));
}

static __attribute__((noinline)) void slabs_left_and_freed(void)
{
    slabs_freed(slabs_left());
}

void rattle_dealloc(void *at)
{
    size_t grains = at ? *word_of(at) : 0;
    if (!at)
        return;
    if (!grains)
        free((char *)at - GRAIN);
    else if (!is_memory_mine())
        block_left_once(at, grains);
    else if (is_last_left(at, grains))
        slabs_left_and_freed();
}

/* (A block that malloc has made has more than MOST_SIZE bytes, so that a smaller size is copied from within it.) */
static void *retaken(void *at, size_t size)
{
    size_t grains = at ? *word_of(at) : 0, room = grains * GRAIN - (grains ? WORD : 0);
    if (at && !grains && size > MOST_SIZE)
        return size > SIZE_MAX - GRAIN ? NULL : large_made(realloc((char *)at - GRAIN, size + GRAIN));
    if (grains && size <= room)
        return at;
    void *found = taken(size);
    if (found && at)
        memcpy(found, at, grains && room < size ? room : size);
    if (found)
        rattle_dealloc(at);
    return found;
}

static inline Room room_of(void *at)
{
    static char nothing;
    return (Room){ at != NULL, at ? at : &nothing };
}

/* (Seldom used code is a function of its own, so that the usual way saves no registers.) */
static __attribute__((noinline)) Room room_taken(size_t size)
{
    return room_of(taken(size));
}

/* Takes memory for a size. Each block is aligned to a grain, which is enough for all types. */
Room rattle_alloc(size_t size, size_t alignment)
{
    (void)alignment;
    Block *found = size <= MOST_SIZE && is_memory_mine() ? memory.free[grains_for(size)] : NULL;
    return found ? (Room){ 1, block_reused(found, grains_for(size)) } : room_taken(size);
}

Room rattle_realloc(void *at, size_t had, size_t size, size_t alignment)
{
    (void)had;
    (void)alignment;
    return room_of(retaken(at, size));
}

#endif
