/* What the tests in C share: blocks of the heap of their very size, and counts of comparisons. */
#ifndef BLOCKS_H
#define BLOCKS_H

#include <stdint.h>
#include <stdio.h>
#include <stdlib.h>
#include <string.h>

/* What a block holds before it is written. */
enum { FILL = 0xa5 };

/* How many comparisons held and how many didn't. */
static unsigned long passed, failed;

/* What is tested, for the lines of those that didn't hold. */
static const char *place = "";

struct bytes {
    uint8_t *at;
    size_t size;
};

/* Counts a comparison, with a line where it doesn't hold. */
static inline void expect(int holds, const char *what) {
    if (holds) {
        passed++;
    } else {
        failed++;
        printf("%s: %s\n", place, what);
    }
}

/* A block of its very size; null where that is 0. */
static inline struct bytes block(size_t size) {
    struct bytes made = {size ? malloc(size) : NULL, size};
    if (size && !made.at) abort();
    if (size) memset(made.at, FILL, size);
    return made;
}

/* A block with a copy of some bytes. */
static inline struct bytes copy_of(const uint8_t *from, size_t size) {
    struct bytes made = block(size);
    if (size) memcpy(made.at, from, size);
    return made;
}

/* A block of the bytes that hex digits say, two for each; none for `-`. */
static inline struct bytes from_hex(const char *digits) {
    struct bytes made = block(strcmp(digits, "-") ? strlen(digits) / 2 : 0);
    for (size_t i = 0; i < made.size; i++) {
        unsigned byte = 0;
        sscanf(digits + 2 * i, "%2x", &byte);
        made.at[i] = (uint8_t)byte;
    }
    return made;
}

/* Whether nothing was written over what a block held before. */
static inline int is_filled(struct bytes of) {
    for (size_t i = 0; i < of.size; i++) {
        if (of.at[i] != FILL) return 0;
    }
    return 1;
}

#endif
