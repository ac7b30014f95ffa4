/* Tests capnp_canonical_limits.h, and what capnp_canonical.h has beside its calls: the classes of refusals.
 *
 *     limits FILE
 *
 * Each call of the header with limits in a struct is compared with the call of capnp_canonical.h over the messages of a file
 * (see its top). The last line is `N passed, M failed`: a count is one comparison. */
#include "capnp_canonical_limits.h"
#include <stdio.h>
#include <stdlib.h>

enum { ROOM = 1 << 14, OBJECTS = 64 };
static const int32_t NESTING = CAPNP_CANONICAL_NESTING;
static const uint64_t WORDS = CAPNP_CANONICAL_WORDS;
static unsigned long passed, failed;

static void expect(int holds, const char *place, const char *what) {
    if (holds) {
        passed++;
    } else {
        failed++;
        printf("%s: %s\n", place, what);
    }
}

static size_t from_hex(const char *digits, uint8_t *to) {
    size_t size = 0;
    unsigned byte;
    while (sscanf(digits + 2 * size, "%2x", &byte) == 1) to[size++] = (uint8_t)byte;
    return size;
}

/* What a call has answered and written. */
struct said {
    uint32_t answer, capabilities;
    uint64_t words;
    size_t size;
    bool is_canonical;
    struct capnp_canonical_fault fault;
    struct capnp_canonical_extent extent;
    struct capnp_canonical_pointer pointer;
    struct capnp_canonical_object objects[OBJECTS];
    uint8_t bytes[ROOM];
};

/* Two calls have said the same. */
static void same(const struct said *one, const struct said *other, const char *place, const char *what) {
    expect(memcmp(one, other, sizeof *one) == 0, place, what);
}

/* Makes both clean, calls one each, and compares. `a` and `b` are what they write to. */
#define BOTH(what, with_numbers, with_struct) \
    do { \
        struct said *it = &a; \
        memset(&a, 0, sizeof a); \
        memset(&b, 0, sizeof b); \
        it->answer = with_numbers; \
        it = &b; \
        it->answer = with_struct; \
        same(&a, &b, place, what); \
    } while (0)

/* Each call for one form of a message, with its limits, and without outputs. Segments and raw words have other arguments. */
#define FORM(prefix, flat_at, bytes_, count_) \
    do { \
        BOTH(#prefix "digest", capnp_canonical_##prefix##digest(bytes_, count_, nesting, words, it->bytes), capnp_canonical_##prefix##digest_within(bytes_, count_, limits, it->bytes)); \
        BOTH(#prefix "check", capnp_canonical_##prefix##check(bytes_, count_, nesting, words, &it->is_canonical, &it->fault), capnp_canonical_##prefix##check_within(bytes_, count_, limits, &it->is_canonical, &it->fault)); \
        BOTH(#prefix "size", capnp_canonical_##prefix##size(bytes_, count_, nesting, words, &it->words, &it->capabilities), capnp_canonical_##prefix##size_within(bytes_, count_, limits, &it->words, &it->capabilities)); \
        BOTH(#prefix "validate", capnp_canonical_##prefix##validate(bytes_, count_, nesting, words, &it->extent), capnp_canonical_##prefix##validate_within(bytes_, count_, limits, &it->extent)); \
        BOTH(#prefix "locate", capnp_canonical_##prefix##locate(bytes_, count_, nesting, words, 1, &it->pointer), capnp_canonical_##prefix##locate_within(bytes_, count_, limits, 1, &it->pointer)); \
        BOTH(#prefix "walk", capnp_canonical_##prefix##walk(bytes_, count_, nesting, words, it->objects, OBJECTS, &it->size), capnp_canonical_##prefix##walk_within(bytes_, count_, limits, it->objects, OBJECTS, &it->size)); \
        BOTH(#prefix "copy", capnp_canonical_##prefix##copy(bytes_, count_, nesting, words, it->bytes, ROOM, &it->size), capnp_canonical_##prefix##copy_within(bytes_, count_, limits, it->bytes, ROOM, &it->size)); \
        BOTH(#prefix "part", capnp_canonical_##prefix##flat_at(bytes_, count_, path, 1, nesting, words, it->bytes, ROOM, &it->size), capnp_canonical_##prefix##flat_at##_within(bytes_, count_, path, 1, limits, it->bytes, ROOM, &it->size)); \
        BOTH(#prefix "digest_at", capnp_canonical_##prefix##digest_at(bytes_, count_, path, 1, nesting, words, it->bytes), capnp_canonical_##prefix##digest_at_within(bytes_, count_, path, 1, limits, it->bytes)); \
        BOTH(#prefix "size_at", capnp_canonical_##prefix##size_at(bytes_, count_, path, 1, nesting, words, &it->words, &it->capabilities), capnp_canonical_##prefix##size_at_within(bytes_, count_, path, 1, limits, &it->words, &it->capabilities)); \
        uint32_t checked = capnp_canonical_##prefix##check(bytes_, count_, nesting, words, &a.is_canonical, &a.fault); \
        expect(capnp_canonical_##prefix##check_within(bytes_, count_, limits, NULL, NULL) == checked, place, #prefix "check without outputs"); \
        uint32_t measured = capnp_canonical_##prefix##size(bytes_, count_, nesting, words, &a.words, &a.capabilities); \
        expect(capnp_canonical_##prefix##size_within(bytes_, count_, limits, NULL, NULL) == measured, place, #prefix "size without outputs"); \
        uint32_t sound = capnp_canonical_##prefix##validate(bytes_, count_, nesting, words, &a.extent); \
        expect(capnp_canonical_##prefix##validate_within(bytes_, count_, limits, NULL) == sound, place, #prefix "validate without an extent"); \
        expect(capnp_canonical_##prefix##walk_within(bytes_, count_, limits, a.objects, OBJECTS, NULL) == capnp_canonical_##prefix##walk(bytes_, count_, nesting, words, b.objects, OBJECTS, &b.size), place, #prefix "walk without a count"); \
        expect(capnp_canonical_##prefix##copy_within(bytes_, count_, limits, a.bytes, ROOM, NULL) == capnp_canonical_##prefix##copy(bytes_, count_, nesting, words, b.bytes, ROOM, &b.size), place, #prefix "copy without a size"); \
        expect(capnp_canonical_##prefix##locate_within(bytes_, count_, limits, 1, NULL) == capnp_canonical_##prefix##locate(bytes_, count_, nesting, words, 1, &b.pointer), place, #prefix "locate without a place"); \
    } while (0)

static struct said a, b;
static const uint32_t path[] = {0};

static void test_frame(const char *place, const uint8_t *frame, size_t size, const struct capnp_canonical_limits *limits, int32_t nesting, uint64_t words) {
    FORM(, copy_flat_at, frame, size);
    BOTH("copy_flat", capnp_canonical_copy_flat(frame, size, nesting, words, it->bytes, ROOM, &it->size), capnp_canonical_copy_flat_within(frame, size, limits, it->bytes, ROOM, &it->size));
}

static void test_segment(const char *place, const uint8_t *bytes, size_t size, const struct capnp_canonical_limits *limits, int32_t nesting, uint64_t words) {
    const struct capnp_canonical_segment segment = {bytes, size};
    FORM(segments_, copy_flat_at, &segment, 1);
    BOTH("segments_copy_flat", capnp_canonical_segments_copy_flat(&segment, 1, nesting, words, it->bytes, ROOM, &it->size), capnp_canonical_segments_copy_flat_within(&segment, 1, limits, it->bytes, ROOM, &it->size));
}

static void test_words(const char *place, const uint8_t *bytes, size_t size, const struct capnp_canonical_limits *limits, int32_t nesting, uint64_t words) {
    FORM(words_, copy_at, bytes, size);
}

/* All forms with limits that are left out, that have one number, and that have both. */
static void test_message(const char *place, const uint8_t *frame, size_t size) {
    const struct capnp_canonical_limits none = {0, 0}, deep = {1, 0}, few = {0, 3}, both = {2, 2};
    const size_t head = size < 8 ? size : 8;
    const struct capnp_canonical_limits *tried[] = {NULL, &none, &deep, &few, &both};
    for (size_t i = 0; i < sizeof tried / sizeof *tried; i++) {
        const int32_t nesting = i < 2 || tried[i] == &few ? NESTING : tried[i]->nesting;
        const uint64_t words = i < 2 || tried[i] == &deep ? WORDS : tried[i]->words;
        test_frame(place, frame, size, tried[i], nesting, words);
        test_segment(place, frame + head, (size - head) / 8 * 8, tried[i], nesting, words);
        test_words(place, frame + head, (size - head) / 8 * 8, tried[i], nesting, words);
    }
}

/* The canonical words of a message as a frame have its value. */
static void test_equal(const char *place, const uint8_t *frame, size_t size, const uint8_t *flat, size_t flat_size) {
    static uint8_t framed[ROOM];
    bool is_equal = false;
    expect(capnp_canonical_frame_head(flat_size, framed) == CAPNP_CANONICAL_DONE, place, "the head of a frame");
    memcpy(framed + 8, flat, flat_size);
    expect(capnp_canonical_is_canonical(framed, flat_size + 8, NESTING, WORDS), place, "a frame of the words");
    expect(capnp_canonical_equal_within(frame, size, framed, flat_size + 8, NULL, &is_equal) == CAPNP_CANONICAL_DONE && is_equal, place, "equal values");
    memset(framed, 0, 24);
    framed[4] = 2, framed[12] = 1, framed[16] = 0xe7;
    expect(capnp_canonical_equal_within(frame, size, framed, 24, NULL, &is_equal) == CAPNP_CANONICAL_DONE && !is_equal, place, "another value");
    expect(capnp_canonical_equal_within(frame, size, framed, 12, NULL, &is_equal) == CAPNP_CANONICAL_TRUNCATED && !is_equal, place, "a message that is cut");
    expect(capnp_canonical_equal_within(framed, 12, frame, size, NULL, &is_equal) == CAPNP_CANONICAL_TRUNCATED && !is_equal, place, "a first message that is cut");
}

static void test_head(void) {
    uint8_t head[8] = {1, 1, 1, 1, 1, 1, 1, 1};
    static const uint8_t none[8] = {0}, most[8] = {0, 0, 0, 0, 255, 255, 255, 255};
    expect(capnp_canonical_frame_head(7, head) == CAPNP_CANONICAL_SEGMENT_IS_NOT_WHOLE_WORDS && memcmp(head, none, 8) == 0, "head", "half a word");
    expect(capnp_canonical_frame_head(UINT64_C(8) << 32, head) == CAPNP_CANONICAL_MESSAGE_TOO_LARGE && memcmp(head, none, 8) == 0, "head", "too many words");
    expect(capnp_canonical_frame_head((UINT64_C(8) << 32) - 8, head) == CAPNP_CANONICAL_DONE && memcmp(head, most, 8) == 0, "head", "the most words");
}

/* Each answer with a name has a class, and no other number has one. */
static void test_classes(void) {
    unsigned counts[8] = {0};
    for (uint32_t answer = 0; answer < 100; answer++) {
        const uint32_t class = capnp_canonical_class_of(answer);
        const bool is_known = answer == CAPNP_CANONICAL_DONE || *capnp_canonical_error_name(answer);
        expect(class <= CAPNP_CANONICAL_CLASS_OTHER && (class != CAPNP_CANONICAL_CLASS_OTHER) == is_known, capnp_canonical_error_name(answer), "a class of each answer");
        counts[class]++;
    }
    static const unsigned wanted[] = {1, 10, 7, 1, 1, 1, 1};
    expect(memcmp(counts, wanted, sizeof wanted) == 0, "classes", "how many answers each has");
    expect(capnp_canonical_class_of(UINT32_MAX) == CAPNP_CANONICAL_CLASS_OTHER, "classes", "the largest number");
    expect(capnp_canonical_class_of(CAPNP_CANONICAL_TRUNCATED) == CAPNP_CANONICAL_CLASS_MALFORMED, "classes", "malformed");
    expect(capnp_canonical_class_of(CAPNP_CANONICAL_READ_LIMIT_EXCEEDED) == CAPNP_CANONICAL_CLASS_LIMIT, "classes", "over a limit");
}

static int test_file(const char *path_of_file) {
    static char line[1 << 16], frame[1 << 15], flat[1 << 15];
    static uint8_t bytes[ROOM], words[ROOM];
    char name[64], copy[96];
    FILE *file = fopen(path_of_file, "r");
    if (!file) return 2;
    while (fgets(line, sizeof line, file)) {
        if (*line == '#') continue;
        if (sscanf(line, "%63s %32767s %95s %32767s", name, frame, copy, flat) != 4) return 2;
        const size_t size = from_hex(frame, bytes);
        test_message(name, bytes, size);
        if (strcmp(copy, "Done") == 0) test_equal(name, bytes, size, words, from_hex(flat, words));
    }
    return fclose(file);
}

int main(int count, char **arguments) {
    if (count != 2 || test_file(arguments[1])) return 2;
    test_head();
    test_classes();
    printf("%lu passed, %lu failed\n", passed, failed);
    return failed ? 1 : 0;
}
