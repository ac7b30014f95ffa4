/* Random messages for the tests of the libraries: objects of all kinds, with landing pads, often in several segments, and often
 * with a few words that are replaced. */
#ifndef MADE_H
#define MADE_H

#include "random.h"

enum { MOST = 3, ROOM = 60 };

/* A message that is made: its words, and how many of them each segment has. */
static uint64_t made[MOST][ROOM];
static uint32_t used[MOST], segments;

static void put_pointer(uint32_t segment, uint32_t at, uint32_t depth);

/* Takes words at the end of a segment; returns false if there aren't so many. */
static bool take(uint32_t segment, uint32_t words, uint32_t *start) {
    *start = used[segment];
    if (words > ROOM - used[segment]) return false;
    used[segment] += words;
    return true;
}

/* Makes an object at the end of the segment: returns its word without an offset, or 0, and where it starts. */
static uint64_t put_object(uint32_t segment, uint32_t depth, uint32_t *start) {
    static const uint32_t bits[] = {0, 1, 8, 16, 32, 64};
    uint32_t size = below(16), count = below(5), data = below(3), pointers = below(3), i, k;
    if (size > 7) {
        if (!take(segment, data + pointers, start)) return 0;
        for (i = 0; i < data; i++) made[segment][*start + i] = any();
        for (i = 0; i < pointers; i++) put_pointer(segment, *start + data + i, depth);
        return (uint64_t)data << 32 | (uint64_t)pointers << 48;
    }
    if (size == 7) {
        if (!take(segment, 1 + count * (data + pointers), start)) return 0;
        made[segment][*start] = (uint64_t)count << 2 | (uint64_t)data << 32 | (uint64_t)pointers << 48;
        for (i = 0; i < count; i++) {
            uint32_t at = *start + 1 + i * (data + pointers);
            for (k = 0; k < data; k++) made[segment][at + k] = any();
            for (k = 0; k < pointers; k++) put_pointer(segment, at + data + k, depth);
        }
        return 1 | UINT64_C(7) << 32 | (uint64_t)(count * (data + pointers)) << 35;
    }
    if (size < 6) count = below(20);
    if (!take(segment, size == 6 ? count : (count * bits[size] + 63) / 64, start)) return 0;
    for (i = *start; i < used[segment]; i++) made[segment][i] = size == 6 || below(2) ? 0 : any();
    for (i = 0; size == 6 && i < count; i++) put_pointer(segment, *start + i, depth);
    return 1 | (uint64_t)size << 32 | (uint64_t)count << 35;
}

/* Makes an object and the pointer to it, sometimes by a landing pad of one or two words. */
static void put_pointer(uint32_t segment, uint32_t at, uint32_t depth) {
    uint32_t to = below(segments), pad = 0, start = 0;
    uint64_t word;
    made[segment][at] = 0;
    if (depth == 0 || below(6) == 0) return;
    if (below(16) == 0) {
        made[segment][at] = 3 | (uint64_t)below(9) << 32;
    } else if (to == segment) {
        if ((word = put_object(segment, depth - 1, &start)) != 0) made[segment][at] = word | (uint64_t)(start - at - 1) << 2;
    } else if (below(2) && take(to, 1, &pad)) {
        made[to][pad] = 0;
        if ((word = put_object(to, depth - 1, &start)) != 0) {
            made[to][pad] = word | (uint64_t)(start - pad - 1) << 2;
            made[segment][at] = 2 | (uint64_t)pad << 3 | (uint64_t)to << 32;
        }
    } else if (take(to, 2, &pad)) {
        made[to][pad] = made[to][pad + 1] = 0;
        if ((word = put_object(segment, depth - 1, &start)) != 0) {
            made[to][pad] = 2 | (uint64_t)start << 3 | (uint64_t)segment << 32;
            made[to][pad + 1] = word;
            made[segment][at] = 6 | (uint64_t)pad << 3 | (uint64_t)to << 32;
        }
    }
}

static void make(void) {
    uint32_t i, root;
    segments = below(12) ? 1 + below(MOST) : 0;
    for (i = 0; i < segments; i++) used[i] = 0;
    if (segments == 0) return;
    take(0, 1, &root);
    put_pointer(0, root, 1 + below(8));
    for (i = below(3) ? 0 : 1 + below(3); i > 0; i--) {
        uint32_t segment = below(segments);
        if (used[segment] != 0) made[segment][below(used[segment])] = some_word(used[segment], segments);
    }
}

#endif
