/* A malloc that refuses one allocation, by the linker's --wrap for malloc, realloc and free. */
#ifndef REFUSING_H
#define REFUSING_H

#include <stdbool.h>
#include <stddef.h>

void *__real_malloc(size_t size);
void *__real_realloc(void *old, size_t size);
void __real_free(void *block);

static unsigned long asked, refused_at;
static long in_use;
static bool counts;

static bool is_refused(void)
{
    return counts && ++asked == refused_at;
}

void *__wrap_malloc(size_t size)
{
    void *block = is_refused() ? NULL : __real_malloc(size);
    in_use += counts && block;
    return block;
}

void *__wrap_realloc(void *old, size_t size)
{
    void *block = is_refused() ? NULL : __real_realloc(old, size);
    in_use += counts && block && !old;
    return block;
}

void __wrap_free(void *block)
{
    in_use -= counts && block;
    __real_free(block);
}

/* From now on allocations count, and that one is refused. */
static void refuse(unsigned long at)
{
    asked = 0;
    in_use = 0;
    refused_at = at;
    counts = true;
}

#endif
