/* The three functions by which the proved code takes memory and gives it back. */
#include <stddef.h>
#include <stdlib.h>

struct answer {
    size_t is_there;
    void *at;
};

static char nothing;

static struct answer answered(void *at)
{
    return (struct answer){ at != NULL, at ? at : &nothing };
}

struct answer rattle_alloc(size_t bytes, size_t align)
{
    return answered(malloc(bytes ? bytes : align));
}

struct answer rattle_realloc(void *old, size_t had, size_t bytes, size_t align)
{
    (void)had;
    return answered(realloc(old, bytes ? bytes : align));
}

void rattle_dealloc(void *old)
{
    free(old);
}
