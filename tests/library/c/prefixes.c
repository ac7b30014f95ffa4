/* Calls what hashes after a prefix, compares and packs, with the rows of a file (see its top), and with random words; if malloc is
 * wrapped also that packing never calls it.
 *
 *     prefixes FILE
 *
 * Each buffer is a block of the heap of its very size, so that valgrind and the address sanitizer see any byte too many. The
 * last line is `N passed, M failed`: a count is one comparison. */
#include "capnp_canonical.h"
#include "blocks.h"
#include "counted.h"
#include <inttypes.h>

enum { MOST = 1 << 15, RANDOM = 3000, NESTING = CAPNP_CANONICAL_NESTING };
#define WORDS CAPNP_CANONICAL_WORDS

static int are_same(struct bytes one, struct bytes other) {
    return one.size == other.size && (one.size == 0 || memcmp(one.at, other.at, one.size) == 0);
}

static int is_zero(struct bytes of) {
    for (size_t i = 0; i < of.size; i++) {
        if (of.at[i]) return 0;
    }
    return 1;
}

/* One call, which takes no memory. */
static uint32_t packed(struct bytes words, struct bytes to, size_t *written) {
    unsigned long before = blocks;
    *written = 7;
    uint32_t answer = capnp_canonical_pack(words.at, words.size, to.at, to.size, written);
    expect(blocks == before, "packing takes memory");
    return answer;
}

/* Words with so much room for what they are packed to. */
static void test_room(struct bytes words, struct bytes wanted, size_t room) {
    struct bytes to = block(room);
    size_t written;
    uint32_t answer = packed(words, to, &written);
    if (room < wanted.size) {
        expect(answer == CAPNP_CANONICAL_NO_ROOM && written == wanted.size, "the room that is wanted");
        expect(is_filled(to), "a refused call has written");
    } else {
        expect(answer == CAPNP_CANONICAL_DONE, "packing is refused");
        expect(are_same((struct bytes){to.at, written}, wanted), "the packed bytes");
        expect(room == written || is_filled((struct bytes){to.at + written, room - written}), "what stands behind them is written");
    }
    free(to.at);
}

/* Words and what C++ packs them to, or, if that isn't known, what they are packed to with room enough. They are unpacked again. */
static void test_packed(struct bytes words, struct bytes known) {
    size_t bound = capnp_canonical_pack_bound(words.size), size = 0, unpacked = 0;
    struct bytes to = block(bound), again = block(words.size);
    expect(packed(words, to, &size) == CAPNP_CANONICAL_DONE && size <= bound, "the bound is too small");
    struct bytes wanted = known.at ? known : (struct bytes){to.at, size};
    test_room(words, wanted, wanted.size);
    if (wanted.size) test_room(words, wanted, wanted.size - 1);
    test_room(words, wanted, wanted.size / 2);
    test_room(words, wanted, wanted.size + 9);
    expect(capnp_canonical_unpack(to.at, size, again.at, again.size, &unpacked) == CAPNP_CANONICAL_DONE, "packed bytes can't be unpacked");
    expect(unpacked == words.size && are_same(again, words), "packed bytes stand for other words");
    free(to.at), free(again.at);
}

/* Bytes that aren't whole words. */
static void test_cut(struct bytes words) {
    for (size_t size = words.size < 9 ? 0 : words.size - 9; size < words.size; size++) {
        struct bytes cut = copy_of(words.at, size), to = block(capnp_canonical_pack_bound(words.size));
        size_t written;
        uint32_t answer = packed(cut, to, &written);
        if (size % 8) {
            expect(answer == CAPNP_CANONICAL_SEGMENT_IS_NOT_WHOLE_WORDS && written == 0 && is_filled(to), "a part of a word is packed");
        } else {
            expect(answer == CAPNP_CANONICAL_DONE, "whole words aren't packed");
        }
        free(cut.at), free(to.at);
    }
}

/* The segments of a whole frame. */
static size_t segments_of(struct bytes frame, struct capnp_canonical_segment *to) {
    size_t count = capnp_canonical_private_number_at(frame.at) + 1, at = (4 + 4 * count + 7) / 8 * 8;
    for (size_t i = 0; i < count; i++) {
        to[i].size = 8 * (size_t)capnp_canonical_private_number_at(frame.at + 4 + 4 * i);
        to[i].bytes = frame.at + at;
        at += to[i].size;
    }
    return count;
}

/* The digest of a prefix and the part at the end of a path, in each form; without a path, of the whole message too. */
static void test_digest(struct bytes frame, const uint32_t *path, size_t steps, struct bytes prefix, struct bytes wanted) {
    struct capnp_canonical_segment segments[512];
    size_t count = segments_of(frame, segments);
    struct bytes to = block(32), words = block(frame.size + 64);
    expect(capnp_canonical_digest_with_at(prefix.at, prefix.size, frame.at, frame.size, path, steps, NESTING, WORDS, to.at) == CAPNP_CANONICAL_DONE && are_same(to, wanted), "the digest of a part");
    expect(capnp_canonical_segments_digest_with_at(prefix.at, prefix.size, segments, count, path, steps, NESTING, WORDS, to.at) == CAPNP_CANONICAL_DONE && are_same(to, wanted), "the digest of a part of segments");
    if (steps == 0) {
        expect(capnp_canonical_digest_with(prefix.at, prefix.size, frame.at, frame.size, NESTING, WORDS, to.at) == CAPNP_CANONICAL_DONE && are_same(to, wanted), "the digest");
        expect(capnp_canonical_segments_digest_with(prefix.at, prefix.size, segments, count, NESTING, WORDS, to.at) == CAPNP_CANONICAL_DONE && are_same(to, wanted), "the digest of segments");
    }
    /* the words of the part are a message whose digest is the same */
    expect(capnp_canonical_copy_flat_at(frame.at, frame.size, path, steps, NESTING, WORDS, words.at, words.size, &words.size) == CAPNP_CANONICAL_DONE, "the part has no words");
    expect(capnp_canonical_words_digest_with(prefix.at, prefix.size, words.at, words.size, NESTING, WORDS, to.at) == CAPNP_CANONICAL_DONE && are_same(to, wanted), "the digest of words");
    expect(capnp_canonical_words_digest_with_at(prefix.at, prefix.size, words.at, words.size, NULL, 0, NESTING, WORDS, to.at) == CAPNP_CANONICAL_DONE && are_same(to, wanted), "the digest of a part of words");
    expect(capnp_canonical_digest_with(prefix.at, prefix.size, frame.at, frame.size, NESTING, 0, to.at) != CAPNP_CANONICAL_DONE && is_zero(to), "a digest over the limit");
    free(to.at), free(words.at);
}

/* A message is the same as its canonical copy, in each form, and not as another one. */
static void test_equal(struct bytes frame) {
    static const uint8_t empty[] = {0, 0, 0, 0, 1, 0, 0, 0, 0xfc, 0xff, 0xff, 0xff, 0, 0, 0, 0};
    struct capnp_canonical_segment segments[512], copied[1];
    struct bytes copy = block(frame.size + 64);
    size_t size = 0, count = segments_of(frame, segments);
    bool same = false, is_empty;
    expect(capnp_canonical_copy(frame.at, frame.size, NESTING, WORDS, copy.at, copy.size, &size) == CAPNP_CANONICAL_DONE, "there is no copy");
    copied[0] = (struct capnp_canonical_segment){copy.at + 8, size - 8};
    is_empty = size == sizeof empty && memcmp(copy.at, empty, size) == 0;
    expect(capnp_canonical_equal(frame.at, frame.size, copy.at, size, NESTING, WORDS, &same) == CAPNP_CANONICAL_DONE && same, "a copy isn't equal");
    same = false;
    expect(capnp_canonical_equal(copy.at, size, frame.at, frame.size, NESTING, WORDS, &same) == CAPNP_CANONICAL_DONE && same, "a message isn't equal to its copy");
    same = false;
    expect(capnp_canonical_segments_equal(segments, count, copied, 1, NESTING, WORDS, &same) == CAPNP_CANONICAL_DONE && same, "segments aren't equal");
    same = false;
    expect(capnp_canonical_words_equal(copy.at + 8, size - 8, copy.at + 8, size - 8, NESTING, WORDS, &same) == CAPNP_CANONICAL_DONE && same, "words aren't equal");
    same = !is_empty;
    expect(capnp_canonical_equal(frame.at, frame.size, empty, sizeof empty, NESTING, WORDS, &same) == CAPNP_CANONICAL_DONE && same == is_empty, "another message is equal");
    same = true;
    expect(capnp_canonical_equal(frame.at, frame.size, empty, sizeof empty - 1, NESTING, WORDS, &same) == CAPNP_CANONICAL_TRUNCATED && !same, "bytes that are no frame are compared");
    same = true;
    expect(capnp_canonical_equal(empty, sizeof empty - 1, frame.at, frame.size, NESTING, WORDS, &same) == CAPNP_CANONICAL_TRUNCATED && !same, "bytes that are no frame are compared");
    same = true;
    expect(capnp_canonical_words_equal(copy.at + 8, size - 8, copy.at, 7, NESTING, WORDS, &same) == CAPNP_CANONICAL_SEGMENT_IS_NOT_WHOLE_WORDS && !same, "a part of a word is compared");
    free(copy.at);
}

/* Random words: zero, full, almost full, and others. */
static void test_random(void) {
    uint64_t state = 1;
    struct bytes unknown = {NULL, 0};
    place = "random words";
    for (int round = 0; round < RANDOM; round++) {
        struct bytes words = block(8 * (size_t)(round % 700));
        unsigned like = 0;
        for (size_t i = 0; i < words.size; i++) {
            state = state * UINT64_C(6364136223846793005) + UINT64_C(1442695040888963407);
            if (i % 8 == 0 && (round % 3 || state >> 58 == 0)) like = (unsigned)(state >> 60);
            words.at[i] = like < 5 ? 0 : like < 10 ? (uint8_t)(state >> 40 | 1) : state >> 61 ? (uint8_t)(state >> 40) : 0;
        }
        test_packed(words, unknown);
        free(words.at);
    }
}

/* Runs that are longer than a count can say, by hand. */
static void test_runs(void) {
    static const uint8_t zeros[] = {0, 255, 0, 44};
    struct bytes words = block(8 * 301), wanted = {(uint8_t *)zeros, sizeof zeros};
    place = "long runs";
    memset(words.at, 0, words.size);
    test_packed(words, wanted);
    memset(words.at, 7, words.size);
    struct bytes full = block(10 + 8 * 255 + 10 + 8 * 44);
    memset(full.at, 7, full.size);
    full.at[0] = 255, full.at[9] = 255, full.at[10 + 8 * 255] = 255, full.at[10 + 8 * 255 + 9] = 44;
    test_packed(words, full);
    expect(capnp_canonical_pack_bound(SIZE_MAX - 7) == SIZE_MAX, "a bound that doesn't fit");
    free(words.at), free(full.at);
}

/* The texts of answers: for each number a text, and for each that the header has, the header's. */
static void test_texts(void) {
    place = "texts";
    for (uint32_t number = 0; number < 300; number++) {
        const char *text = capnp_canonical_strerror(number);
        struct capnp_canonical_text told = {"", 1};
        capnp_canonical_answer_text(number, &told);
        expect(text == told.bytes && strlen(text) + 1 == told.size, "the size of a text");
        if (number == 0 || *capnp_canonical_error_name(number)) expect(strcmp(text, capnp_canonical_error_text(number)) == 0, "a text isn't the header's");
        else expect(strcmp(text, "a refusal that this library doesn't know") == 0, "the text of an unknown number");
    }
}

int main(int count, char **words) {
    static char line[8 * MOST], name[256], frame[MOST], path[256], prefix[1024], digest[128], packed_as[MOST];
    FILE *file = count == 2 ? fopen(words[1], "r") : NULL;
    if (!file) return 2;
    while (fgets(line, sizeof line, file)) {
        if (line[0] == '#') continue;
        if (sscanf(line, "%255s %32767s %255s %1023s %127s %32767s", name, frame, path, prefix, digest, packed_as) != 6) return 2;
        place = name;
        uint32_t indexes[64];
        size_t steps = 0;
        for (char *at = path; *at && *at != '-'; at = strchr(at, '.') + 1) indexes[steps++] = (uint32_t)strtoul(at, NULL, 10);
        struct bytes of = from_hex(frame), before = from_hex(prefix), wanted = from_hex(digest), as = from_hex(packed_as);
        test_digest(of, indexes, steps, before, wanted);
        test_packed(of, as);
        test_cut(of);
        test_equal(of);
        free(of.at), free(before.at), free(wanted.at), free(as.at);
    }
    fclose(file);
    test_random();
    test_runs();
    test_texts();
    printf("%lu passed, %lu failed\n", passed, failed);
    return failed != 0;
}
