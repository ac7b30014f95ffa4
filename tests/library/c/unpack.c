/* Calls capnp_canonical_unpack with the packed bytes of a file (see its top), in buffers of each length, cut short everywhere and
 * with each bit turned, and with random bytes; where malloc is wrapped also that it is never called. Calls it too with buffers
 * that overlap, and tests that it writes nothing outside of the one that it writes to.
 *
 *     unpack FILE
 *
 * Each buffer is a block of the heap of its very size, so that valgrind and the address sanitizer see any byte too many. The
 * last line is `N passed, M failed`: a count is one comparison. */
#define _DEFAULT_SOURCE
#include "capnp_canonical.h"
#include "blocks.h"
#include "counted.h"
#include <setjmp.h>
#include <signal.h>
#include <sys/mman.h>
#include <unistd.h>

enum { MOST = 1 << 15, RANDOM = 20000, RUNS = 1000, OVERLAPS = 100000 };

/* What packed bytes stand for, by the words of the specification; the size SIZE_MAX where they are cut. */
static struct bytes wanted_of(struct bytes packed) {
    struct bytes to = {calloc(2048, packed.size + 1), 0}, cut = {NULL, SIZE_MAX};
    size_t at = 0;
    if (!to.at) abort();
    while (at < packed.size) {
        uint8_t tag = packed.at[at++];
        for (int i = 0; i < 8; i++, to.size++) {
            if (!(tag >> i & 1)) continue;
            if (at == packed.size) return free(to.at), cut;
            to.at[to.size] = packed.at[at++];
        }
        if (tag != 0 && tag != 255) continue;
        if (at == packed.size) return free(to.at), cut;
        size_t more = 8 * (size_t)packed.at[at++];
        if (tag == 255) {
            if (packed.size - at < more) return free(to.at), cut;
            memcpy(to.at + to.size, packed.at + at, more);
            at += more;
        }
        to.size += more;
    }
    return to;
}

/* One call, which takes no memory. */
static uint32_t unpacked(struct bytes packed, struct bytes to, size_t *written) {
    unsigned long before = blocks;
    *written = 7;
    uint32_t answer = capnp_canonical_unpack(packed.at, packed.size, to.at, to.size, written);
    expect(blocks == before, "it takes memory");
    return answer;
}

/* The call with so much room: what it answers and what it writes. */
static void test_room(struct bytes packed, struct bytes wanted, size_t room) {
    struct bytes to = block(room);
    size_t written;
    uint32_t answer = unpacked(packed, to, &written);
    if (wanted.size == SIZE_MAX) {
        expect(answer == CAPNP_CANONICAL_TRUNCATED && written == 0, "packed bytes that are cut");
    } else if (room < wanted.size) {
        expect(answer == CAPNP_CANONICAL_NO_ROOM && written == wanted.size, "the room that is wanted");
    } else {
        expect(answer == CAPNP_CANONICAL_DONE && written == wanted.size, "the size");
        expect(written == 0 || memcmp(to.at, wanted.at, written) == 0, "the bytes");
        expect(room == written || is_filled((struct bytes){to.at + written, room - written}), "what stands behind them is written");
    }
    if (answer != CAPNP_CANONICAL_DONE) expect(is_filled(to), "a refused call has written");
    free(to.at);
}

/* Just the room that is wanted, one byte less and some bytes more. */
static void test_any(struct bytes packed) {
    struct bytes wanted = wanted_of(packed);
    size_t room = wanted.size == SIZE_MAX ? 64 : wanted.size;
    test_room(packed, wanted, room);
    if (room) test_room(packed, wanted, room - 1);
    test_room(packed, wanted, room + 5);
    free(wanted.at);
}

static void test_row(struct bytes packed, struct bytes wanted) {
    size_t most = wanted.size == SIZE_MAX ? 64 : wanted.size + 9;
    struct bytes ours = wanted_of(packed);
    expect(ours.size == wanted.size && (wanted.size == SIZE_MAX || wanted.size == 0 || memcmp(ours.at, wanted.at, wanted.size) == 0), "the test's own answer");
    free(ours.at);
    for (size_t room = 0; room <= most; room++) test_room(packed, wanted, room);
    for (size_t size = 0; size < packed.size; size++) {
        struct bytes cut = copy_of(packed.at, size);
        test_any(cut);
        free(cut.at);
    }
    for (size_t bit = 0; bit < 8 * packed.size; bit++) {
        packed.at[bit / 8] ^= 1 << bit % 8;
        test_any(packed);
        packed.at[bit / 8] ^= 1 << bit % 8;
    }
}

/* A generator of numbers. */
static uint64_t next_number(uint64_t *state) {
    return *state = *state * UINT64_C(6364136223846793005) + UINT64_C(1442695040888963407);
}

/* Fills a block with random bytes; more than half of them are such as begin runs and end them. */
static void fill_at_random(struct bytes packed, uint64_t *state) {
    static const uint8_t often[] = {0, 0, 255, 255, 1, 2, 0x81, 0x10};
    for (size_t i = 0; i < packed.size; i++) {
        uint64_t number = next_number(state);
        packed.at[i] = number >> 63 ? often[number >> 33 & 7] : (uint8_t)(number >> 40);
    }
}

static void test_random(void) {
    uint64_t state = 1;
    place = "random bytes";
    for (int round = 0; round < RANDOM; round++) {
        struct bytes packed = block(round % 61);
        fill_at_random(packed, &state);
        test_any(packed);
        free(packed.at);
    }
}

static sigjmp_buf before_call;

static void jump_back(int number) {
    siglongjmp(before_call, number);
}

/* Whether a call comes back without a signal. */
static int comes_back(struct bytes packed, struct bytes to, uint32_t *answer, size_t *written) {
    if (sigsetjmp(before_call, 1)) return 0;
    *answer = unpacked(packed, to, written);
    return 1;
}

/* A number from `least` to `most`. */
static size_t between(size_t least, size_t most, uint64_t *state) {
    return least + (size_t)(next_number(state) >> 32) % (most - least + 1);
}

/* Packed bytes and the buffer to write to overlap, at any places between pages that can't be touched. The caller has to keep
 * them apart, so the answer and the bytes in the buffer may be any. But nothing is read outside of the two, nothing is written outside
 * of the buffer, and the size isn't above the room. */
static void test_overlaps(void) {
    enum { GUARD = 1 << 20, SIZE = 1 << 12 };
    uint8_t *whole = mmap(NULL, 2 * GUARD + SIZE, PROT_NONE, MAP_PRIVATE | MAP_ANONYMOUS, -1, 0), *inner = whole + GUARD;
    struct bytes before = block(SIZE), none = {NULL, 0};
    struct sigaction jumping, segv, bus;
    unsigned long done = 0, signals = 0, outside = 0, sizes = 0;
    char said[200];
    uint64_t state = 2;
    place = "overlapping buffers";
    if (whole == MAP_FAILED || mprotect(inner, SIZE, PROT_READ | PROT_WRITE)) abort();
    memset(&jumping, 0, sizeof jumping);
    jumping.sa_handler = jump_back;
    sigaction(SIGSEGV, &jumping, &segv);
    sigaction(SIGBUS, &jumping, &bus);
    for (int round = 0; round < OVERLAPS; round++) {
        struct bytes packed = {inner, 0}, to;
        size_t size, written;
        uint32_t answer;
        memset(inner, FILL, SIZE);
        /* not those that are cut, or that want more than there is */
        do {
            packed.size = between(1, 96, &state);
            fill_at_random(packed, &state);
        } while (unpacked(packed, none, &size) != CAPNP_CANONICAL_NO_ROOM || size > SIZE);
        /* just the room that is wanted or more; at the front, at the end or elsewhere */
        to.size = round % 4 ? size : between(size, SIZE, &state);
        to.at = inner + (round % 3 == 0 ? 0 : round % 3 == 1 ? SIZE - to.size : between(0, SIZE - to.size, &state));
        {
            size_t at = (size_t)(to.at - inner), last = at + to.size - 1;
            size_t lowest = at < packed.size ? 0 : at - packed.size + 1, highest = last < SIZE - packed.size ? last : SIZE - packed.size;
            uint8_t *moved = inner + between(lowest, highest, &state);
            memmove(moved, packed.at, packed.size);
            packed.at = moved;
        }
        memcpy(before.at, inner, SIZE);
        if (!comes_back(packed, to, &answer, &written)) {
            signals++;
            continue;
        }
        done += answer == CAPNP_CANONICAL_DONE;
        sizes += answer == CAPNP_CANONICAL_DONE && written > to.size;
        memcpy(before.at + (to.at - inner), to.at, to.size);
        outside += memcmp(before.at, inner, SIZE) != 0;
    }
    sigaction(SIGSEGV, &segv, NULL);
    sigaction(SIGBUS, &bus, NULL);
    snprintf(said, sizeof said, "of %d calls %lu end in a signal, %lu write outside of the buffer, and %lu give a size above the room", OVERLAPS,
             signals, outside, sizes);
    expect(signals == 0 && outside == 0 && sizes == 0, said);
    expect(done + signals > OVERLAPS / 2, "most calls write");
    free(before.at);
    munmap(whole, 2 * GUARD + SIZE);
}

/* Many runs of zeros: the size is known without room for it. */
static void test_runs(void) {
    struct bytes packed = block(2 * RUNS), none = {NULL, 0};
    size_t written;
    place = "runs of zeros";
    for (size_t i = 0; i < packed.size; i++) packed.at[i] = i % 2 ? 255 : 0;
    expect(unpacked(packed, none, &written) == CAPNP_CANONICAL_NO_ROOM && written == (size_t)2048 * RUNS, "the room that is wanted");
    test_any(packed);
    free(packed.at);
    place = "no packed bytes";
    expect(unpacked(none, none, &written) == CAPNP_CANONICAL_DONE && written == 0, "null");
}

int main(int count, char **words) {
    static char line[1 << 16], name[64], digits[MOST], unpacked_digits[MOST];
    FILE *file = count == 2 ? fopen(words[1], "r") : NULL;
    if (!file) return 2;
    while (fgets(line, sizeof line, file)) {
        if (*line == '#') continue;
        if (sscanf(line, "%63s %32767s %32767s", name, digits, unpacked_digits) != 3) return 2;
        struct bytes packed = from_hex(digits), cut = {NULL, SIZE_MAX};
        struct bytes wanted = strcmp(unpacked_digits, "Truncated") ? from_hex(unpacked_digits) : cut;
        place = name;
        test_row(packed, wanted);
        free(packed.at);
        free(wanted.at);
    }
    fclose(file);
    test_random();
    test_runs();
    test_overlaps();
    printf("%lu passed, %lu failed\n", passed, failed);
    return failed ? 1 : 0;
}
