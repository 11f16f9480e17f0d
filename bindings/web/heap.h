/* The heap of the module, for the glue. */
#ifndef HUCKLEPORT_HEAP_H
#define HUCKLEPORT_HEAP_H
#include <stddef.h>

void *heap_take(size_t size);
void *heap_resize(void *at, size_t size);
void heap_give(void *at);
/* The bytes that are taken now, and the bytes of memory that may be had at most; 0 is no bound but the module's own. */
size_t heap_held(void);
void heap_bound(size_t bytes);
#endif
