/* What the tests that pass messages share: the names of answers, and the segments of a frame. */
#ifndef MESSAGES_H
#define MESSAGES_H

#include "capnp_canonical.h"
#include <string.h>

enum { MOST_SEGMENTS = 512 };

/* Whether an answer has this name; `Done` is that of no refusal. */
static inline int is_named(uint32_t answer, const char *name) {
    char text[CAPNP_CANONICAL_TEXT_ROOM];
    capnp_canonical_name(answer, text, sizeof text);
    return answer == CAPNP_CANONICAL_DONE ? strcmp(name, "Done") == 0 : strcmp(text, name) == 0;
}

static inline uint32_t number_at(const uint8_t *at) {
    return at[0] | (uint32_t)at[1] << 8 | (uint32_t)at[2] << 16 | (uint32_t)at[3] << 24;
}

/* The segments of a whole frame, in its own bytes. Returns their number; 0 if there are more than MOST_SEGMENTS. */
static inline size_t segments_of(const uint8_t *frame, struct capnp_canonical_segment segments[MOST_SEGMENTS]) {
    size_t count = (size_t)number_at(frame) + 1, at = (4 * count + 4 + 7) / 8 * 8;
    if (count > MOST_SEGMENTS) return 0;
    for (size_t id = 0; id < count; id++) {
        segments[id].bytes = frame + at;
        segments[id].size = (size_t)number_at(frame + 4 + 4 * id) * 8;
        at += segments[id].size;
    }
    return count;
}

#endif
