/* heap.h: malloc, realloc and free, but that a large block has pages of its own. heap.c says why. */
#ifndef HEAP_H
#define HEAP_H

#include <stddef.h>

void *heap_alloc(size_t size);
void *heap_realloc(void *at, size_t size);
void heap_free(void *at);

#endif
