/* The heap of the module: Doug Lea's malloc over memory.grow, the core's three calls for memory, and a count of the allocated bytes. */
#include "heap.h"

#include <stdint.h>

#define PAGE ((size_t)65536)

extern unsigned char __heap_base[];
/* Told each time the memory has grown, since views of it in JavaScript are then empty. */
__attribute__((import_module("env"), import_name("grown"))) void grown(void);

static size_t bound, held;

static size_t has(void)
{
    return __builtin_wasm_memory_size(0) * PAGE;
}

/* Grows the memory to `want` bytes, or by an eighth if that is more and possible. Returns whether its size is then at least `want`. */
static int grow_to(size_t want)
{
    size_t before = has(), ahead = before + before / 8;
    if (bound && want > bound)
        return 0;
    if (ahead > want && (!bound || ahead <= bound))
        __builtin_wasm_memory_grow(0, (ahead - before + PAGE - 1) / PAGE);
    if (has() < want)
        __builtin_wasm_memory_grow(0, (want - has() + PAGE - 1) / PAGE);
    if (has() != before)
        grown();
    return has() >= want;
}

/* Moves the break of the heap up by `bytes`, and returns where it was; (void *)-1 if out of memory. */
static void *more(ptrdiff_t bytes)
{
    static unsigned char *at;
    if (!at)
        at = (unsigned char *)(((size_t)__heap_base + 15) & ~(size_t)15);
    unsigned char *was = at;
    if (bytes > 0 && (size_t)was + (size_t)bytes > has() && !grow_to((size_t)was + (size_t)bytes))
        return (void *)-1;
    at = was + bytes;
    return was;
}

#define memcpy __builtin_memcpy
#define memset __builtin_memset
#define MORECORE more
#define MORECORE_CANNOT_TRIM 1
#define HAVE_MMAP 0
#define HAVE_MREMAP 0
#define USE_LOCKS 0
#define NO_MALLINFO 1
#define NO_MALLOC_STATS 1
#define LACKS_ERRNO_H 1
#define LACKS_FCNTL_H 1
#define LACKS_STDLIB_H 1
#define LACKS_STRING_H 1
#define LACKS_STRINGS_H 1
#define LACKS_SYS_MMAN_H 1
#define LACKS_SYS_PARAM_H 1
#define LACKS_SYS_TYPES_H 1
#define LACKS_TIME_H 1
#define LACKS_UNISTD_H 1
#define ABORT __builtin_trap()
#define MALLOC_FAILURE_ACTION
#define EINVAL 22
#define ENOMEM 12
#define malloc_getpagesize PAGE
#define DEFAULT_GRANULARITY PAGE
#define USE_DL_PREFIX 1
#define DLMALLOC_EXPORT static
#include "dlmalloc.c"

static void *counted(void *at)
{
    held += at ? dlmalloc_usable_size(at) : 0;
    return at;
}

void *heap_take(size_t size)
{
    return counted(dlmalloc(size));
}

void *heap_resize(void *at, size_t size)
{
    size_t before = at ? dlmalloc_usable_size(at) : 0;
    void *to = dlrealloc(at, size);
    if (to)
        held += dlmalloc_usable_size(to) - before;
    return to;
}

void heap_give(void *at)
{
    held -= at ? dlmalloc_usable_size(at) : 0;
    dlfree(at);
}

size_t heap_held(void)
{
    return held;
}

void heap_bound(size_t bytes)
{
    bound = bytes;
}

/* ---- The calls of the core: whether there was room, and where it is. */

typedef struct room {
    uint64_t is_there;
    unsigned char *at;
} room;

static unsigned char nothing;

static room answered(unsigned char *at)
{
    return (room){ at != NULL, at ? at : &nothing };
}

room rattle_alloc(size_t size, size_t align)
{
    return answered(heap_take(size ? size : align));
}

room rattle_realloc(unsigned char *at, size_t kept, size_t size, size_t align)
{
    (void)kept;
    return answered(heap_resize(at, size ? size : align));
}

void rattle_dealloc(unsigned char *at)
{
    heap_give(at);
}
