/* Random numbers and pointer words for the tests of the library, which count what passed. */
#ifndef RANDOM_H
#define RANDOM_H

#include <stdbool.h>
#include <stdint.h>
#include <stdio.h>

static unsigned long passed, failed;
static uint64_t state = UINT64_C(88172645463325252);

static uint64_t any(void) {
    state ^= state << 13;
    state ^= state >> 7;
    state ^= state << 17;
    return state;
}

static uint32_t below(uint32_t n) { return (uint32_t)(any() % n); }

static void expect(bool is_so, const char *what) {
    if (is_so) {
        passed++;
    } else if (failed++ < 20) {
        printf("FAILED: %s\n", what);
    }
}

/* A word that is often a pointer: to a struct, a list, a landing pad, a capability. */
static uint64_t some_word(uint32_t words, uint32_t segments) {
    uint64_t offset = (uint32_t)((int32_t)below(2 * words + 2) - (int32_t)words) & 0x3fffffff;
    switch (below(8)) {
    case 0: return 0;
    case 1: return any();
    case 2: return offset << 2 | (uint64_t)below(3) << 32 | (uint64_t)below(3) << 48;
    case 3: return offset << 2 | 1 | (uint64_t)below(8) << 32 | (uint64_t)below(6) << 35;
    case 4: return offset << 2 | 1 | UINT64_C(7) << 32 | (uint64_t)below(6) << 35;
    case 5: return (uint64_t)below(words + 1) << 3 | 2 | (uint64_t)below(2) << 2 | (uint64_t)below(segments + 1) << 32;
    case 6: return 3 | (uint64_t)below(9) << 32;
    default: return (uint64_t)below(6) << 2 | (uint64_t)below(2) << 32 | (uint64_t)below(2) << 48;
    }
}

#endif
