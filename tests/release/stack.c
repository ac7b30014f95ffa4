/* Measures the stack that each call takes per level, and apart from levels. Runs each call on a stack of its own that is filled
 * with a mark. */
#include "capnp_canonical.h"
#include <pthread.h>
#include <stdio.h>
#include <stdlib.h>
#include <string.h>

enum { ROOM = 1 << 26, FEW = 100, MANY = 1100, MARK = 0xa7 };
static uint8_t *stack, frame[8 + 16 * MANY + 16], written[sizeof frame];
static size_t frame_size;
static int which;

/* For each kind of chain, the words of one level, which lead to the words right after them. A word after the last level makes
 * the message not canonical, so that it isn't copied as it is. */
static const struct {
    const char *name;
    int words;
    uint64_t word[2];
} chains[] = {
    {"structs", 1, {UINT64_C(1) << 48}},
    {"lists of pointers", 1, {1 | UINT64_C(6) << 32 | UINT64_C(1) << 35}},
    {"lists of structs", 2, {1 | UINT64_C(7) << 32 | UINT64_C(1) << 35, UINT64_C(1) << 2 | UINT64_C(1) << 48}},
};
static const char *const calls[] = {"copy", "check", "size"};

static void make(int chain, int levels) {
    uint32_t words = (uint32_t)(levels * chains[chain].words + 2);
    memset(frame, 0, sizeof frame);
    memcpy(frame + 4, &words, 4);
    for (int i = 0; i < levels; i++) memcpy(frame + 8 + 8 * i * chains[chain].words, chains[chain].word, 8 * (size_t)chains[chain].words);
    frame_size = 8 + 8 * (size_t)words;
}

static void *call(void *unused) {
    (void)unused;
    size_t size;
    uint64_t words;
    uint32_t caps, answer;
    bool is_canonical;
    struct capnp_canonical_fault fault;
    if (which == 0) answer = capnp_canonical_copy_flat(frame, frame_size, 1 << 20, 1 << 20, written, sizeof written, &size);
    else if (which == 1) answer = capnp_canonical_check(frame, frame_size, 1 << 20, 1 << 20, &is_canonical, &fault);
    else answer = capnp_canonical_size(frame, frame_size, 1 << 20, 1 << 20, &words, &caps);
    if (answer) abort();
    return NULL;
}

/* The number of bytes of the stack that were written. */
static size_t taken(void) {
    pthread_t thread;
    pthread_attr_t attributes;
    memset(stack, MARK, ROOM);
    if (pthread_attr_init(&attributes) || pthread_attr_setstack(&attributes, stack, ROOM) || pthread_create(&thread, &attributes, call, NULL)) abort();
    pthread_join(thread, NULL);
    size_t free_bytes = 0;
    while (free_bytes < ROOM && stack[free_bytes] == MARK) free_bytes++;
    return ROOM - free_bytes;
}

int main(void) {
    stack = aligned_alloc(4096, ROOM);
    if (!stack) return 1;
    for (which = 0; which < 3; which++) {
        for (int chain = 0; chain < 3; chain++) {
            make(chain, FEW);
            size_t few = taken();
            make(chain, MANY);
            size_t level = (taken() - few) / (MANY - FEW);
            printf("%s, %s: %zu bytes per level, %zu in addition\n", calls[which], chains[chain].name, level, few - FEW * level);
        }
    }
    return 0;
}
