/* Tests the functions that stand in capnp_canonical.h itself, over the messages of a file (see its top).
 *
 *     inline FILE
 *
 * The last line is `N passed, M failed`: a count is one comparison. */
#include "capnp_canonical.h"
#include <stdio.h>
#include <stdlib.h>
#include <string.h>

enum { ROOM = 1 << 14 };
static const int32_t NESTING = CAPNP_CANONICAL_NESTING;
static const uint64_t WORDS = CAPNP_CANONICAL_WORDS;
static unsigned long passed, failed;

static void expect(int holds, const char *place, const char *what) {
    if (holds) {
        passed++;
    } else {
        failed++;
        printf("%s: %s\n", place, what);
    }
}

static size_t from_hex(const char *digits, uint8_t *to) {
    size_t size = 0;
    unsigned byte;
    while (sscanf(digits + 2 * size, "%2x", &byte) == 1) to[size++] = (uint8_t)byte;
    return size;
}

/* The raw canonical words of a message of the file, and the frame of them, by each of the calls for words. */
static void test_canonical_words(const char *name, const uint8_t *flat, size_t size) {
    uint8_t to[ROOM];
    size_t written = 0;
    bool is_canonical = false;
    struct capnp_canonical_fault fault;
    expect(capnp_canonical_words_copy(flat, size, NESTING, WORDS, to, sizeof to, &written) == 0 && written == size && memcmp(to, flat, size) == 0, name, "words_copy");
    expect(capnp_canonical_words_check(flat, size, NESTING, WORDS, &is_canonical, &fault) == 0 && is_canonical, name, "words_check");
    expect(capnp_canonical_words_is_canonical(flat, size, NESTING, WORDS), name, "words_is_canonical");
    memcpy(to, flat, size);
    memset(to + size, 0, 8);
    expect(!capnp_canonical_words_is_canonical(to, size + 8, NESTING, WORDS), name, "a word behind");
}

/* What is said of the frame of a message of the file. */
static void test_frame(const char *name, const char *check, const char *size, const uint8_t *frame, size_t frame_size) {
    bool yes = strcmp(check, "yes") == 0;
    unsigned long long words;
    unsigned caps;
    expect(capnp_canonical_is_canonical(frame, frame_size, NESTING, WORDS) == yes, name, "is_canonical");
    if (frame_size < 16 || capnp_canonical_private_number_at(frame) || sscanf(size, "%llu,%u", &words, &caps) != 2) return;
    uint64_t word_count = 0;
    uint32_t cap_count = 0;
    struct capnp_canonical_segment segment = {frame + 8, frame_size - 8};
    expect(capnp_canonical_words_size(frame + 8, frame_size - 8, NESTING, WORDS, &word_count, &cap_count) == 0 && word_count == words && cap_count == caps, name, "words_size");
    expect(capnp_canonical_words_is_canonical(frame + 8, frame_size - 8, NESTING, WORDS) == yes, name, "words_is_canonical of its segment");
    expect(capnp_canonical_segments_is_canonical(&segment, 1, NESTING, WORDS) == yes, name, "segments_is_canonical");
}

static int test_file(const char *path) {
    static char line[1 << 16], frame[1 << 15], flat[1 << 15];
    static uint8_t bytes[ROOM];
    char name[64], copy[96], check[96], size[96];
    FILE *file = fopen(path, "r");
    if (!file) return 2;
    while (fgets(line, sizeof line, file)) {
        if (*line == '#') continue;
        if (sscanf(line, "%63s %32767s %95s %32767s %95s %95s", name, frame, copy, flat, check, size) != 6) return 2;
        test_frame(name, check, size, bytes, from_hex(frame, bytes));
        if (strcmp(copy, "Done") == 0) test_canonical_words(name, bytes, from_hex(flat, bytes));
    }
    return fclose(file);
}

/* Canonical words of a struct of two numbers, 2^32 and 42. Given where a frame is expected they are read as a frame of two
 * words, which hold a struct of the number 42: nothing is refused, and the value is another. */
static void test_hazard(void) {
    static const uint8_t words[] = {0, 0, 0, 0, 2, 0, 0, 0, 0, 0, 0, 0, 1, 0, 0, 0, 42, 0, 0, 0, 0, 0, 0, 0};
    static const uint8_t other[] = {0, 0, 0, 0, 1, 0, 0, 0, 42, 0, 0, 0, 0, 0, 0, 0};
    uint8_t to[sizeof words];
    size_t written = 0;
    const char *place = "raw words beside a frame";
    expect(capnp_canonical_words_copy(words, sizeof words, NESTING, WORDS, to, sizeof to, &written) == 0 && written == sizeof words && memcmp(to, words, written) == 0, place, "the words by their name");
    expect(capnp_canonical_words_is_canonical(words, sizeof words, NESTING, WORDS), place, "the words are canonical by their name");
    expect(capnp_canonical_copy_flat(words, sizeof words, NESTING, WORDS, to, sizeof to, &written) == 0, place, "the words are taken as a frame");
    expect(written == sizeof other && memcmp(to, other, written) == 0, place, "and are another value");
    expect(capnp_canonical_is_canonical(words, sizeof words, NESTING, WORDS), place, "which is canonical too");
}

/* Two pointers to one text of 16 bytes: what is read is seven words, and so is the copy. */
static void test_bound(void) {
    static const uint8_t shared[] = {0, 0, 0, 0, 5, 0, 0, 0, 0, 0, 0, 0, 0, 0, 2, 0, 5, 0, 0, 0, 0x82, 0, 0, 0, 1, 0, 0, 0, 0x82, 0, 0, 0,
                                     'a', 'b', 'c', 'd', 'e', 'f', 'g', 'h', 'a', 'b', 'c', 'd', 'e', 'f', 'g', 0};
    uint8_t to[64];
    size_t written = 0, room = capnp_canonical_bound(7);
    expect(room == sizeof to, "bound", "8 bytes and 8 for each word");
    expect(capnp_canonical_copy(shared, sizeof shared, NESTING, 6, to, room, &written) == CAPNP_CANONICAL_READ_LIMIT_EXCEEDED, "bound", "a limit below what is read");
    expect(capnp_canonical_copy(shared, sizeof shared, NESTING, 7, to, room, &written) == 0 && written == room, "bound", "the limit that is met, and all of the room");
    expect(capnp_canonical_bound(0) == 8 && capnp_canonical_bound(UINT64_MAX) == UINT64_C(4294967296), "bound", "the least and the most");
}

/* The constants are what the library writes. */
static void test_texts(void) {
    for (uint32_t number = 0; number < 100; number++) {
        char text[CAPNP_CANONICAL_TEXT_ROOM];
        const char *name = capnp_canonical_error_name(number), *said = capnp_canonical_error_text(number);
        capnp_canonical_name(number, text, sizeof text);
        expect(!*name || strcmp(name, text) == 0, "error_name", text);
        expect(*said && (*name || !number || strcmp(said, capnp_canonical_error_text(15)) == 0), "error_text", text);
        capnp_canonical_reason_text(number, text, sizeof text);
        expect(strcmp(capnp_canonical_fault_text(number), text) == 0, "fault_text", text);
    }
    expect(strcmp(capnp_canonical_error_name(CAPNP_CANONICAL_TRUNCATED), "Truncated") == 0, "error_name", "Truncated");
    expect(strcmp(capnp_canonical_error_text(CAPNP_CANONICAL_TRUNCATED), "the bytes end inside a frame or a packed word") == 0, "error_text", "Truncated");
}

static void expect_looks(const char *digits, const char *wanted) {
    uint8_t bytes[ROOM];
    size_t size = from_hex(digits, bytes);
    const char *looks = capnp_canonical_looks_like(bytes, size);
    expect(wanted ? looks && strcmp(looks, wanted) == 0 : !looks, wanted ? wanted : "looks like nothing else", looks ? looks : "nothing");
}

/* The first bytes of `gzip`, `zstd`, `bzip2`, `xz` and `zip`, of a text, and what `capnp convert binary:packed` makes of the
 * struct of the numbers 2^32 and 42. The words of that struct are a frame too. */
static void test_looks(void) {
    expect_looks("1f8b080000000000", "gzip");
    expect_looks("28b52ffd24009900", "zstd");
    expect_looks("425a683931415926", "bzip2");
    expect_looks("fd377a585a000004", "xz");
    expect_looks("504b030414000000", "a zip archive");
    expect_looks("2869642031290a", "text");
    expect_looks("10021001012a", "packed messages");
    expect_looks("000000000200000000000000010000002a00000000000000", NULL);
    expect_looks("fcffffff00000000", "raw canonical words");
    expect_looks("0000000003000000000000000100000005", NULL);
    expect_looks("0100000003000000000000000100000005", NULL);
    expect_looks("", NULL);
    expect_looks("1f8b", NULL);
}

/* The helpers, with bytes of each size: a block of the heap is as long as that, so that valgrind and the address sanitizer
 * see any byte too many. The first bytes are those of packed messages. */
static void test_sizes(void) {
    static const uint8_t packed[] = {0x10, 2, 0x10, 1, 1, 0x2a}, numbers[] = {1, 2, 3, 4}, table[] = {0xff, 1, 2, 3, 4, 5, 6, 7, 8};
    const char *place = "bytes of each size";
    expect(!capnp_canonical_private_looks_packed(NULL, 0) && !capnp_canonical_private_looks_text(NULL, 0) && !capnp_canonical_looks_like(NULL, 0), place, "null and 0");
    for (size_t size = 0; size <= sizeof packed; size++) {
        uint8_t *block = malloc(size ? size : 1), *bytes = block + !size;
        if (!block) abort();
        memcpy(bytes, packed, size);
        expect(capnp_canonical_private_looks_packed(bytes, size) == (size >= 2), place, "packed");
        free(block);
    }
    for (size_t size = 0; size <= sizeof table; size++) {
        uint8_t *block = malloc(size ? size : 1), *bytes = block + !size;
        if (!block) abort();
        memcpy(bytes, table, size);
        expect(!capnp_canonical_private_looks_packed(bytes, size), place, "a table that is cut, or of too many segments");
        free(block);
    }
    uint8_t *four = malloc(sizeof numbers);
    if (!four) abort();
    memcpy(four, numbers, sizeof numbers);
    expect(capnp_canonical_private_number_at(four) == UINT32_C(0x04030201), place, "a number takes four bytes");
    free(four);
}

int main(int count, char **words) {
    if (count != 2 || test_file(words[1])) return 2;
    test_hazard();
    test_bound();
    test_texts();
    test_looks();
    test_sizes();
    printf("%lu passed, %lu failed\n", passed, failed);
    return failed ? 1 : 0;
}
