/* Compares the processor times of two builds of the library, which take turns in one process.
 *
 *     speed ONE.so OTHER.so STREAM        prints the times of the second one divided by those of the first, the best of 31 rounds each
 */
#include "capnp_canonical.h"
#include <dlfcn.h>
#include <stdio.h>
#include <stdlib.h>
#include <time.h>

enum { ROUNDS = 31, MOST = 1 << 28 };
static uint8_t *stream, *to;
static size_t size;

struct library {
    uint32_t (*copy)(const uint8_t *, size_t, int32_t, uint64_t, uint8_t *, size_t, size_t *);
    uint32_t (*check)(const uint8_t *, size_t, int32_t, uint64_t, bool *, struct capnp_canonical_fault *);
    uint32_t (*measure)(const uint8_t *, size_t, int32_t, uint64_t, uint64_t *, uint32_t *);
    uint32_t (*frame_size)(const uint8_t *, size_t, uint64_t, size_t *);
};

static void *found(void *file, const char *name) {
    void *it = dlsym(file, name);
    if (!it) abort();
    return it;
}

static struct library opened(const char *path) {
    void *file = dlopen(path, RTLD_NOW | RTLD_LOCAL);
    if (!file) fprintf(stderr, "%s\n", dlerror()), exit(2);
    struct library it;
    *(void **)&it.copy = found(file, "capnp_canonical_copy_flat");
    *(void **)&it.check = found(file, "capnp_canonical_check");
    *(void **)&it.measure = found(file, "capnp_canonical_size");
    *(void **)&it.frame_size = found(file, "capnp_canonical_frame_size");
    return it;
}

static double now(void) {
    struct timespec at;
    clock_gettime(CLOCK_THREAD_CPUTIME_ID, &at);
    return (double)at.tv_sec + 1e-9 * (double)at.tv_nsec;
}

/* The time of one call over all messages, in seconds. */
static double timed(const struct library *by, int which) {
    bool is_canonical;
    struct capnp_canonical_fault fault;
    uint64_t words;
    uint32_t caps;
    size_t frame, written;
    double begun = now();
    for (size_t at = 0; at < size; at += frame) {
        if (by->frame_size(stream + at, size - at, CAPNP_CANONICAL_WORDS, &frame)) abort();
        if (which == 0) by->copy(stream + at, frame, 64, CAPNP_CANONICAL_WORDS, to, MOST, &written);
        else if (which == 1) by->check(stream + at, frame, 64, CAPNP_CANONICAL_WORDS, &is_canonical, &fault);
        else if (which == 2) by->measure(stream + at, frame, 64, CAPNP_CANONICAL_WORDS, &words, &caps);
    }
    return now() - begun;
}

int main(int count, char **words) {
    static const char *const calls[] = {"copy_flat", "check", "size", "frame_size alone"};
    if (count != 4) return 2;
    struct library both[2] = {opened(words[1]), opened(words[2])};
    FILE *file = fopen(words[3], "rb");
    stream = malloc(MOST), to = malloc(MOST);
    if (!file || !stream || !to) return 2;
    size = fread(stream, 1, MOST, file);
    for (int which = 0; which < 4; which++) {
        double least[2] = {1e9, 1e9};
        for (int round = 0; round < 2 * ROUNDS; round++) {
            double time = timed(&both[round % 2], which);
            if (time < least[round % 2]) least[round % 2] = time;
        }
        printf("%s: %.3f of the time (%.4f s, %.4f s)\n", calls[which], least[1] / least[0], least[1], least[0]);
    }
    return 0;
}
