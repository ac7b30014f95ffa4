/* Calls the functions that tell whether a message is sound, for the messages of a file (see its top): for the frame, for its segments,
 * and for the raw words of a single segment. Then with limits that are just enough, and just too small.
 *
 *     extents FILE
 *
 * The last line is `N passed, M failed`: a count is one comparison. */
#include "capnp_canonical.h"
#include "blocks.h"
#include "messages.h"

enum { LINE = 1 << 20 };

static int is_same(const struct capnp_canonical_extent *a, const struct capnp_canonical_extent *b) {
    return a->words == b->words && a->capabilities == b->capabilities && a->cost == b->cost && a->depth == b->depth;
}

/* An extent that no call has written. */
static struct capnp_canonical_extent unwritten(void) {
    struct capnp_canonical_extent extent;
    memset(&extent, FILL, sizeof extent);
    return extent;
}

/* The message as segments, and as raw words if there is only one. */
static void test_segments(struct bytes frame, const char *answer, const struct capnp_canonical_extent *wanted) {
    struct capnp_canonical_segment segments[MOST_SEGMENTS];
    size_t count = segments_of(frame.at, segments);
    if (count == 0) return;
    struct capnp_canonical_extent found = unwritten();
    expect(is_named(capnp_canonical_segments_validate(segments, count, CAPNP_CANONICAL_NESTING, CAPNP_CANONICAL_WORDS, &found), answer), "the answer for segments");
    expect(is_same(&found, wanted), "the extent of segments");
    if (count != 1) return;
    found = unwritten();
    expect(is_named(capnp_canonical_words_validate(segments[0].bytes, segments[0].size, CAPNP_CANONICAL_NESTING, CAPNP_CANONICAL_WORDS, &found), answer), "the answer for raw words");
    expect(is_same(&found, wanted), "the extent of raw words");
}

/* Limits that are just enough for a sound message, and just too small. The words limit the frame, too. */
static void test_limits(struct bytes frame, const struct capnp_canonical_extent *wanted) {
    struct capnp_canonical_extent found = unwritten(), zero = {0, 0, 0, 0};
    uint64_t least = wanted->cost > frame.size / 8 ? wanted->cost : frame.size / 8;
    int32_t depth = (int32_t)wanted->depth;
    expect(capnp_canonical_validate(frame.at, frame.size, depth, least, &found) == CAPNP_CANONICAL_DONE && is_same(&found, wanted), "limits that are just enough");
    if (depth) {
        found = unwritten();
        uint32_t answer = capnp_canonical_validate(frame.at, frame.size, depth - 1, least, &found);
        expect(answer == CAPNP_CANONICAL_MESSAGE_IS_TOO_DEEPLY_NESTED_OR_CONTAINS_CYCLES && is_same(&found, &zero), "a level too few");
    }
    if (wanted->cost > frame.size / 8) {
        found = unwritten();
        uint32_t answer = capnp_canonical_validate(frame.at, frame.size, depth, least - 1, &found);
        expect(answer == CAPNP_CANONICAL_READ_LIMIT_EXCEEDED && is_same(&found, &zero), "a word too few");
    }
}

static void test_message(struct bytes frame, const char *answer, const struct capnp_canonical_extent *wanted) {
    struct capnp_canonical_extent found, zero = {0, 0, 0, 0};
    struct bytes to = block(sizeof found + 8), behind = {to.at + sizeof found, 8};
    expect(is_named(capnp_canonical_validate(frame.at, frame.size, CAPNP_CANONICAL_NESTING, CAPNP_CANONICAL_WORDS, (struct capnp_canonical_extent *)(void *)to.at), answer), "the answer");
    memcpy(&found, to.at, sizeof found);
    expect(is_same(&found, wanted), "the extent");
    expect(is_filled(behind), "the bytes behind the extent");
    free(to.at);
    test_segments(frame, answer, wanted);
    if (strcmp(answer, "Done") == 0) test_limits(frame, wanted);
    size_t whole = 0;
    expect(capnp_canonical_frame_size(frame.at, frame.size, CAPNP_CANONICAL_WORDS, &whole) == CAPNP_CANONICAL_DONE, "the size of the frame");
    for (size_t size = 0; size < whole; size++) {
        struct bytes cut = copy_of(frame.at, size);
        found = unwritten();
        uint32_t refused = capnp_canonical_validate(cut.at, size, CAPNP_CANONICAL_NESTING, CAPNP_CANONICAL_WORDS, &found);
        expect(refused == (size ? CAPNP_CANONICAL_TRUNCATED : CAPNP_CANONICAL_NO_MESSAGE) && is_same(&found, &zero), "a frame cut short");
        free(cut.at);
    }
}

int main(int count, char **words) {
    static char line[LINE];
    FILE *file = count == 2 ? fopen(words[1], "r") : NULL;
    if (!file) return 2;
    while (fgets(line, sizeof line, file)) {
        if (*line == '#') continue;
        const char *name = strtok(line, " "), *digits = strtok(NULL, " "), *answer = strtok(NULL, " ");
        struct capnp_canonical_extent wanted = {0, 0, 0, 0};
        wanted.depth = (uint32_t)strtoul(strtok(NULL, " "), NULL, 10);
        wanted.words = strtoull(strtok(NULL, " "), NULL, 10);
        wanted.capabilities = strtoull(strtok(NULL, " "), NULL, 10);
        wanted.cost = strtoull(strtok(NULL, " \n"), NULL, 10);
        struct bytes frame = from_hex(digits);
        place = name;
        test_message(frame, answer, &wanted);
        free(frame.at);
    }
    fclose(file);
    printf("%lu passed, %lu failed\n", passed, failed);
    return failed || !passed;
}
