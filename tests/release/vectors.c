/* Answers vectors with the library: lines of lines.py on standard input. Each buffer is a block of the heap of exactly its size,
 * so that valgrind and the address sanitizer see any access beyond it.
 *
 *     vectors          compares each answer with the expected one; the last line is `N passed, M failed`
 *     vectors N        alters each message N times (cut short, bits flipped, other limits), makes every call answer it, and prints
 *                      one digest of all answers, which doesn't depend on how the library is built
 */
#include "capnp_canonical.h"
#include <inttypes.h>
#include <stdio.h>
#include <stdlib.h>
#include <string.h>

enum { MOST_SEGMENTS = 1024, FILL = 0xa5 };

struct vector {
    char *command, *parts, *wanted;
    int32_t nesting;
    uint64_t words;
};

/* A message's segments, each a block of the heap. */
struct parts {
    struct capnp_canonical_segment at[MOST_SEGMENTS];
    size_t count;
};

struct block {
    uint8_t *at;
    size_t size;
};

static struct block block(size_t size) {
    struct block made = {malloc(size ? size : 1), size};
    if (!made.at) abort();
    memset(made.at, FILL, size);
    return made;
}

static int digit(int c) { return c <= '9' ? c - '0' : (c | 32) - 'a' + 10; }

/* The bytes that these hex digits stand for. */
static struct block bytes_of(const char *text, size_t digits) {
    struct block made = block(digits / 2);
    for (size_t i = 0; i < made.size; i++) made.at[i] = (uint8_t)(digit(text[2 * i]) << 4 | digit(text[2 * i + 1]));
    return made;
}

static void take(const char *text, struct parts *parts) {
    parts->count = 0;
    if (strcmp(text, "-") == 0) return;
    for (; parts->count < MOST_SEGMENTS; text++) {
        size_t digits = strcspn(text, ",");
        struct block made = bytes_of(text, *text == '.' ? 0 : digits);
        parts->at[parts->count].bytes = made.at;
        parts->at[parts->count++].size = made.size;
        text += digits;
        if (*text != ',') return;
    }
    abort();
}

static void let_go(struct parts *parts) {
    for (size_t i = 0; i < parts->count; i++) free((void *)(uintptr_t)parts->at[i].bytes);
}

static int is_refusal(uint32_t answer, const char *wanted) {
    char name[CAPNP_CANONICAL_TEXT_ROOM];
    capnp_canonical_name(answer, name, sizeof name);
    return answer != CAPNP_CANONICAL_DONE && wanted[0] == '!' && strcmp(name, wanted + 1) == 0;
}

/* Calls it twice: without a buffer, for the size, and then with a buffer of that size. */
static uint32_t copied(const struct parts *parts, const struct vector *of, int is_flat, struct block *to) {
    size_t written;
    uint32_t (*copy)(const struct capnp_canonical_segment *, size_t, int32_t, uint64_t, uint8_t *, size_t, size_t *) =
        is_flat ? capnp_canonical_segments_copy_flat : capnp_canonical_segments_copy;
    uint32_t answer = copy(parts->at, parts->count, of->nesting, of->words, NULL, 0, &written);
    *to = block(written);
    if (answer == CAPNP_CANONICAL_NO_ROOM) answer = copy(parts->at, parts->count, of->nesting, of->words, to->at, to->size, &written);
    if (written != to->size) abort();
    return answer;
}

static int is_copied(const struct vector *of, const struct parts *parts, int is_flat) {
    struct block to;
    uint32_t answer = copied(parts, of, is_flat, &to);
    int holds = is_refusal(answer, of->wanted);
    if (answer == CAPNP_CANONICAL_DONE && of->wanted[0] != '!') {
        struct block wanted = bytes_of(of->wanted, strcmp(of->wanted, "-") ? strlen(of->wanted) : 0);
        holds = wanted.size == to.size && memcmp(wanted.at, to.at, to.size) == 0;
        free(wanted.at);
    }
    free(to.at);
    return holds;
}

static int is_checked(const struct vector *of, const struct parts *parts, int is_frame) {
    bool is_canonical;
    struct capnp_canonical_fault fault;
    uint32_t answer = is_frame ? capnp_canonical_check(parts->at[0].bytes, parts->at[0].size, of->nesting, of->words, &is_canonical, &fault)
                               : capnp_canonical_segments_check(parts->at, parts->count, of->nesting, of->words, &is_canonical, &fault);
    if (answer != CAPNP_CANONICAL_DONE) return is_refusal(answer, of->wanted);
    if (strcmp(of->wanted, "front") == 0) return is_canonical || fault.reason == CAPNP_CANONICAL_REASON_WORDS_BEHIND;
    return strcmp(of->wanted, is_canonical ? "yes" : "no") == 0;
}

static int is_measured(const struct vector *of, const struct parts *parts) {
    char text[64];
    uint64_t words;
    uint32_t caps, answer = capnp_canonical_segments_size(parts->at, parts->count, of->nesting, of->words, &words, &caps);
    snprintf(text, sizeof text, "%" PRIu64 ",%" PRIu32, words, caps);
    return answer == CAPNP_CANONICAL_DONE ? strcmp(text, of->wanted) == 0 : is_refusal(answer, of->wanted);
}

static int is_told(const struct vector *of, const struct parts *parts) {
    char text[32];
    size_t size;
    uint32_t answer = capnp_canonical_frame_size(parts->at[0].bytes, parts->at[0].size, of->words, &size);
    snprintf(text, sizeof text, "%zu", size);
    return answer == CAPNP_CANONICAL_DONE ? strcmp(text, of->wanted) == 0 : is_refusal(answer, of->wanted);
}

static int holds(const struct vector *of) {
    static struct parts parts;
    take(of->parts, &parts);
    int it = strcmp(of->command, "canon") == 0          ? is_copied(of, &parts, 1)
             : strcmp(of->command, "framed-canon") == 0 ? is_copied(of, &parts, 0)
             : strcmp(of->command, "size") == 0         ? is_measured(of, &parts)
             : strcmp(of->command, "unframe") == 0      ? is_told(of, &parts)
                                                        : is_checked(of, &parts, strcmp(of->command, "framed-check") == 0);
    let_go(&parts);
    return it;
}

/* The digest: FNV-1a of all that a call returns. */
static uint64_t digest = 14695981039346656037u, calls;

static void seen(const void *bytes, size_t size) {
    for (size_t i = 0; i < size; i++) digest = (digest ^ ((const uint8_t *)bytes)[i]) * 1099511628211u;
}

static void number(uint64_t it) { seen(&it, sizeof it); }

/* Pseudo-random numbers, the same ones in each run. */
static uint64_t drawn(uint64_t below) {
    static uint64_t state = 0x9e3779b97f4a7c15u;
    state ^= state << 13;
    state ^= state >> 7;
    state ^= state << 17;
    return below ? (state >> 11) % below : 0;
}

/* Flips some bits of a segment, or cuts it short. */
static void alter(struct capnp_canonical_segment *segment, int is_frame) {
    uint8_t *bytes = (uint8_t *)(uintptr_t)segment->bytes;
    for (uint64_t turns = drawn(3); turns && segment->size; turns--) bytes[drawn(segment->size)] ^= (uint8_t)(1u << drawn(8));
    if (drawn(8)) return;
    size_t size = is_frame ? drawn(segment->size + 1) : 8 * drawn(segment->size / 8 + 1);
    struct block cut = block(size);
    memcpy(cut.at, bytes, size);
    free(bytes);
    segment->bytes = cut.at;
    segment->size = size;
}

static void answered_to_segments(const struct vector *of, const struct parts *parts) {
    bool is_canonical;
    struct capnp_canonical_fault fault;
    uint64_t words;
    uint32_t caps;
    for (int is_flat = 0; is_flat < 2; is_flat++) {
        struct block to;
        number(copied(parts, of, is_flat, &to));
        seen(to.at, to.size);
        free(to.at);
    }
    number(capnp_canonical_segments_check(parts->at, parts->count, of->nesting, of->words, &is_canonical, &fault));
    number(is_canonical), number(fault.reason), number(fault.word), number(fault.segment);
    number(capnp_canonical_segments_size(parts->at, parts->count, of->nesting, of->words, &words, &caps));
    number(words), number(caps);
    calls += 6;
}

static void answered_to_frame(const struct vector *of, const struct capnp_canonical_segment *frame) {
    bool is_canonical;
    struct capnp_canonical_fault fault;
    size_t size, written;
    struct block to = block(drawn(2) ? 2 * frame->size : drawn(64));
    number(capnp_canonical_copy(frame->bytes, frame->size, of->nesting, of->words, to.at, to.size, &written));
    number(written), seen(to.at, to.size);
    number(capnp_canonical_copy_flat(frame->bytes, frame->size, of->nesting, of->words, to.at, to.size, &written));
    number(written), seen(to.at, to.size);
    number(capnp_canonical_check(frame->bytes, frame->size, of->nesting, of->words, &is_canonical, &fault));
    number(is_canonical), number(fault.reason), number(fault.word), number(fault.segment);
    number(capnp_canonical_frame_size(frame->bytes, frame->size, of->words, &size));
    number(size);
    free(to.at);
    calls += 4;
}

static void altered(const struct vector *from, unsigned long times) {
    static struct parts parts;
    int is_frame = strcmp(from->command, "framed-check") == 0 || strcmp(from->command, "unframe") == 0;
    for (; times; times--) {
        struct vector of = *from;
        take(of.parts, &parts);
        if (parts.count) alter(&parts.at[drawn(parts.count)], is_frame);
        if (!drawn(4)) of.nesting = (int32_t)drawn(6);
        if (!drawn(4) || of.words > 100000) of.words = drawn(60);
        if (is_frame) answered_to_frame(&of, &parts.at[0]);
        else answered_to_segments(&of, &parts);
        let_go(&parts);
    }
}

/* The next line, without its end, in a buffer that grows; null after the last one. */
static char *line(void) {
    static char *text;
    static size_t room;
    size_t size = 0;
    for (;;) {
        if (room < size + 4096) text = realloc(text, room = 2 * room + 4096);
        if (!text) abort();
        if (!fgets(text + size, (int)(room - size), stdin)) return size ? text : (free(text), NULL);
        size += strlen(text + size);
        if (text[size - 1] == '\n') {
            text[size - 1] = 0;
            return text;
        }
    }
}

int main(int count, char **words) {
    unsigned long times = count > 1 ? strtoul(words[1], NULL, 10) : 0, passed = 0, failed = 0;
    for (char *text; (text = line());) {
        char *word[5];
        for (int i = 0; i < 5; i++) word[i] = strtok(i ? NULL : text, " ");
        struct vector it = {word[0], word[3], word[4], (int32_t)strtol(word[1], NULL, 10), strtoull(word[2], NULL, 10)};
        if (times) {
            altered(&it, times);
        } else if (holds(&it)) {
            passed++;
        } else if (failed++ < 10) {
            printf("%s %" PRId32 " %" PRIu64 " %.100s: wanted %.100s\n", it.command, it.nesting, it.words, it.parts, it.wanted);
        }
    }
    if (times) printf("%016" PRIx64 " of %" PRIu64 " calls\n", digest, calls);
    else printf("%lu passed, %lu failed\n", passed, failed);
    return failed != 0;
}
