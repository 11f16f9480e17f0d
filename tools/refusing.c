/* A preloaded malloc that counts growths and blocks, and refuses growths.
 *
 * - REFUSE_AT=N: the Nth growth is refused
 * - REFUSE_FROM=N: the Nth growth and each later one is refused
 * - REFUSE_AFTER=S: once room of exactly S bytes was allocated, every growth is refused
 * - REFUSE_IN=NAME: these hold in a program of that name only
 *
 * At the end it writes "growths G, refused R, left B, most M" to standard error: B blocks are in use, and at most M bytes were at once. */
#define _GNU_SOURCE
#include <dlfcn.h>
#include <errno.h>
#include <malloc.h>
#include <stddef.h>
#include <stdio.h>
#include <stdlib.h>
#include <string.h>
#include <unistd.h>

static unsigned long growths, refused, at, from, after;
static long left, bytes, most;
static int marked, is_read;

static unsigned long number_of(const char *name)
{
    const char *text = getenv(name);
    return text ? strtoul(text, NULL, 10) : 0;
}

/* Returns whether this is the program whose growths are refused. */
static int is_meant(void)
{
    const char *name = getenv("REFUSE_IN");
    return !name || strcmp(name, program_invocation_short_name) == 0;
}

/* Returns whether this growth is refused. */
static int is_refused(size_t size)
{
    if (!is_read && is_meant()) {
        at = number_of("REFUSE_AT");
        from = number_of("REFUSE_FROM");
        after = number_of("REFUSE_AFTER");
        is_read = 1;
    }
    growths++;
    if (marked || growths == at || (from != 0 && growths >= from)) {
        refused++;
        errno = ENOMEM;
        return 1;
    }
    marked = after != 0 && size == after;
    return 0;
}

/* Counts a block as in use, unless it is NULL. */
static void *counted(void *block)
{
    left += block != NULL;
    bytes += (long)malloc_usable_size(block);
    most = bytes > most ? bytes : most;
    return block;
}

/* Counts a block as not in use, unless it is NULL. */
static void uncounted(void *block)
{
    left -= block != NULL;
    bytes -= (long)malloc_usable_size(block);
}

void *malloc(size_t size)
{
    static void *(*next)(size_t);
    if (!next)
        next = dlsym(RTLD_NEXT, "malloc");
    return is_refused(size) ? NULL : counted(next(size));
}

void *calloc(size_t count, size_t size)
{
    static void *(*next)(size_t, size_t);
    if (!next)
        next = dlsym(RTLD_NEXT, "calloc");
    return is_refused(count * size) ? NULL : counted(next(count, size));
}

void *realloc(void *old, size_t size)
{
    static void *(*next)(void *, size_t);
    if (!next)
        next = dlsym(RTLD_NEXT, "realloc");
    if (is_refused(size))
        return NULL;
    uncounted(old);
    void *block = next(old, size);
    counted(block || size == 0 ? block : old);
    return block;
}

void free(void *block)
{
    static void (*next)(void *);
    if (!next)
        next = dlsym(RTLD_NEXT, "free");
    uncounted(block);
    next(block);
}

__attribute__((destructor)) static void tell(void)
{
    char line[120];
    int length = snprintf(line, sizeof line, "growths %lu, refused %lu, left %ld, most %ld\n", growths, refused, left, most);
    if (length > 0 && write(2, line, (size_t)length) < 0)
        _exit(1);
}
