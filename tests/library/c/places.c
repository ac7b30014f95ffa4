/* Calls the functions that find the pointer at which a message is broken, for the messages of a file (see its top): for the
 * frame, for its segments, and for the raw words of a single segment.
 *
 *     places FILE
 *
 * The last line is `N passed, M failed`: a count is one comparison. */
#include "capnp_canonical.h"
#include "blocks.h"
#include "messages.h"

enum { LINE = 1 << 20 };

static int is_as_wanted(uint32_t answer, const struct capnp_canonical_pointer *found, const char *name, const struct capnp_canonical_pointer *wanted) {
    char text[CAPNP_CANONICAL_TEXT_ROOM] = "Done";
    if (found->refusal != CAPNP_CANONICAL_DONE) capnp_canonical_name(found->refusal, text, sizeof text);
    return answer == CAPNP_CANONICAL_DONE && strcmp(text, name) == 0 && found->segment == wanted->segment && found->word == wanted->word;
}

/* A pointer that no call has written. */
static struct capnp_canonical_pointer unwritten(void) {
    struct capnp_canonical_pointer pointer;
    memset(&pointer, FILL, sizeof pointer);
    return pointer;
}

static void test_message(struct bytes frame, int32_t nesting, uint64_t words, uint32_t reading, const char *name, const struct capnp_canonical_pointer *wanted) {
    struct capnp_canonical_segment segments[MOST_SEGMENTS];
    struct capnp_canonical_pointer found = unwritten();
    size_t count = segments_of(frame.at, segments);
    /* the limit on words holds for the frame too */
    if (words >= frame.size / 8) {
        uint32_t answer = capnp_canonical_locate(frame.at, frame.size, nesting, words, reading, &found);
        expect(is_as_wanted(answer, &found, name, wanted), "the pointer of a frame");
    }
    if (count == 0) return;
    found = unwritten();
    uint32_t answer = capnp_canonical_segments_locate(segments, count, nesting, words, reading, &found);
    expect(is_as_wanted(answer, &found, name, wanted), "the pointer of segments");
    if (count != 1) return;
    found = unwritten();
    answer = capnp_canonical_words_locate(segments[0].bytes, segments[0].size, nesting, words, reading, &found);
    expect(is_as_wanted(answer, &found, name, wanted), "the pointer of raw words");
}

static int is_empty(const struct capnp_canonical_pointer *pointer) {
    return pointer->refusal == 0 && pointer->segment == 0 && pointer->word == 0;
}

/* Bytes that are no message, and a number of no reading. */
static void test_others(void) {
    static const uint8_t cut[16] = {0, 0, 0, 0, 2}, beyond[16] = {0, 0, 0, 0, 1, 0, 0, 0, 0, 0, 0, 0, 1};
    const struct capnp_canonical_segment half = {cut, 12};
    struct capnp_canonical_pointer found = unwritten();
    expect(capnp_canonical_locate(cut, sizeof cut, 64, 1000, 0, &found) == CAPNP_CANONICAL_TRUNCATED && is_empty(&found), "a frame that is cut short");
    found = unwritten();
    expect(capnp_canonical_locate(cut, 0, 64, 1000, 0, &found) == CAPNP_CANONICAL_NO_MESSAGE && is_empty(&found), "no frame");
    found = unwritten();
    expect(capnp_canonical_segments_locate(&half, 1, 64, 1000, 0, &found) == CAPNP_CANONICAL_SEGMENT_IS_NOT_WHOLE_WORDS && is_empty(&found), "a segment that isn't whole words");
    found = unwritten();
    expect(capnp_canonical_words_locate(cut, 12, 64, 1000, 0, &found) == CAPNP_CANONICAL_SEGMENT_IS_NOT_WHOLE_WORDS && is_empty(&found), "words that aren't whole");
    found = unwritten();
    expect(capnp_canonical_segments_locate(NULL, 0, 64, 1000, 0, &found) == CAPNP_CANONICAL_DONE && found.refusal == CAPNP_CANONICAL_INVALID_SEGMENT_ID && found.segment == 0 && found.word == 0, "no segments");
    found = unwritten();
    expect(capnp_canonical_locate(beyond, sizeof beyond, 64, 1000, 99, &found) == CAPNP_CANONICAL_DONE && found.refusal == CAPNP_CANONICAL_MESSAGE_CONTAINS_OUT_OF_BOUNDS_POINTER, "a number of no reading");
}

int main(int count, char **names) {
    static char line[LINE], name[LINE], hex[LINE], answer[256];
    FILE *file = count > 1 ? fopen(names[1], "r") : NULL;
    if (!file) return 2;
    test_others();
    while (fgets(line, sizeof line, file)) {
        int nesting;
        unsigned long long words;
        unsigned reading;
        struct capnp_canonical_pointer wanted = {0, 0, 0};
        unsigned long long segment;
        if (line[0] == '#') continue;
        if (sscanf(line, "%s %s %u %d %llu %255s %llu %u", name, hex, &reading, &nesting, &words, answer, &segment, &wanted.word) != 8) return 2;
        wanted.segment = segment;
        struct bytes frame = from_hex(hex);
        place = name;
        test_message(frame, (int32_t)nesting, (uint64_t)words, (uint32_t)reading, answer, &wanted);
        free(frame.at);
    }
    fclose(file);
    printf("%lu passed, %lu failed\n", passed, failed);
    return failed || !passed;
}
