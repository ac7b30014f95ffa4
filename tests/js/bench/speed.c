/* speed STREAM: the times that speed.mjs prints, of the native library that this is linked with. */
#include "capnp_canonical.h"
#include <stdio.h>
#include <stdlib.h>
#include <time.h>

enum { MOST = 1 << 28, ROUNDS = 15 };

static double now(void) {
    struct timespec at;
    clock_gettime(CLOCK_MONOTONIC, &at);
    return (double)at.tv_sec + 1e-9 * (double)at.tv_nsec;
}

int main(int given, char **words) {
    static const char *const calls[] = {"canonicalizeFlat", "check", "size", "frames"};
    static size_t places[1 << 20][2];
    FILE *file = given == 2 ? fopen(words[1], "rb") : NULL;
    uint8_t *stream = malloc(MOST), *to = malloc(MOST);
    if (!file || !stream || !to) return 2;
    size_t size = fread(stream, 1, MOST, file), count = 0, taken, written;
    for (size_t at = 0; at < size; at += taken, count++) {
        if (count == 1 << 20 || capnp_canonical_frame_size(stream + at, size - at, CAPNP_CANONICAL_WORDS, &taken)) return 2;
        places[count][0] = at;
        places[count][1] = taken;
    }
    for (int which = 0; which < 4; which++) {
        double least = 1e9;
        for (int round = 0; round < ROUNDS; round++) {
            double begun = now();
            for (size_t i = 0; i < count; i++) {
                const uint8_t *frame = stream + places[i][0];
                size_t bytes = places[i][1];
                bool is_canonical;
                struct capnp_canonical_fault fault;
                uint64_t found;
                uint32_t caps;
                if (which == 0) capnp_canonical_copy_flat(frame, bytes, 64, CAPNP_CANONICAL_WORDS, to, MOST, &written);
                if (which == 1) capnp_canonical_check(frame, bytes, 64, CAPNP_CANONICAL_WORDS, &is_canonical, &fault);
                if (which == 2) capnp_canonical_size(frame, bytes, 64, CAPNP_CANONICAL_WORDS, &found, &caps);
                if (which == 3) capnp_canonical_frame_size(frame, bytes, CAPNP_CANONICAL_WORDS, &written);
            }
            double time = now() - begun;
            if (time < least) least = time;
        }
        printf("%s: native %.3f\n", calls[which], least * 1e6 / (double)count);
    }
    return 0;
}
