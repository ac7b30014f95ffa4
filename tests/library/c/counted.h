/* Counts the blocks that a call takes from the heap, in a program that is linked with malloc and realloc wrapped. */
#ifndef COUNTED_H
#define COUNTED_H

#include <stddef.h>

/* How often malloc and realloc were called so far; 0 if they aren't wrapped. */
static unsigned long blocks;

#ifdef WRAP
void *__real_malloc(size_t size);
void *__real_realloc(void *block, size_t size);
void *__wrap_malloc(size_t size) { return blocks++, __real_malloc(size); }
void *__wrap_realloc(void *block, size_t size) { return blocks++, __real_realloc(block, size); }
#endif

#endif
