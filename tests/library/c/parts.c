/* Calls the functions for a part of a message with the paths of a file (see its top): for the frame, for its segments, and for the
 * raw words of a single segment; with buffers that are just large enough and just too small; with limits that are just enough and
 * just too small for the part; and with frames that are cut short everywhere.
 *
 *     parts FILE
 *
 * The last line is `N passed, M failed`: a count is one comparison. */
#include "capnp_canonical.h"
#include "blocks.h"
#include "messages.h"

enum { MOST_STEPS = 16 };
static const int32_t NESTING = CAPNP_CANONICAL_NESTING;
static const uint64_t WORDS = CAPNP_CANONICAL_WORDS;

/* A message: a frame, segments, or the raw words of the only segment. */
struct message {
    enum { FRAME, SEGMENTS, WORDS_ONLY } given;
    struct bytes bytes;
    struct capnp_canonical_segment segments[MOST_SEGMENTS];
    size_t count;
};

/* A path, in a block of its very size. */
struct path {
    uint32_t *at;
    size_t steps;
};

/* The path that its indexes say, each with a dot behind it; `-` is the empty one, which is null. */
static struct path path_of(const char *text) {
    struct path path = {NULL, 0};
    uint32_t steps[MOST_STEPS];
    while (*text && *text != '-' && path.steps < MOST_STEPS) {
        char *end;
        steps[path.steps++] = (uint32_t)strtoul(text, &end, 10);
        text = end + 1;
    }
    if (path.steps) {
        path.at = malloc(path.steps * sizeof *path.at);
        if (!path.at) abort();
        memcpy(path.at, steps, path.steps * sizeof *path.at);
    }
    return path;
}

static uint32_t copy_at(const struct message *of, struct path path, uint64_t limit, struct bytes to, size_t *written) {
    switch (of->given) {
    case FRAME: return capnp_canonical_copy_flat_at(of->bytes.at, of->bytes.size, path.at, path.steps, NESTING, limit, to.at, to.size, written);
    case SEGMENTS: return capnp_canonical_segments_copy_flat_at(of->segments, of->count, path.at, path.steps, NESTING, limit, to.at, to.size, written);
    default: return capnp_canonical_words_copy_at(of->bytes.at, of->bytes.size, path.at, path.steps, NESTING, limit, to.at, to.size, written);
    }
}

static uint32_t digest_at(const struct message *of, struct path path, uint8_t digest[32]) {
    switch (of->given) {
    case FRAME: return capnp_canonical_digest_at(of->bytes.at, of->bytes.size, path.at, path.steps, NESTING, WORDS, digest);
    case SEGMENTS: return capnp_canonical_segments_digest_at(of->segments, of->count, path.at, path.steps, NESTING, WORDS, digest);
    default: return capnp_canonical_words_digest_at(of->bytes.at, of->bytes.size, path.at, path.steps, NESTING, WORDS, digest);
    }
}

static uint32_t size_at(const struct message *of, struct path path, uint64_t *words, uint32_t *caps) {
    switch (of->given) {
    case FRAME: return capnp_canonical_size_at(of->bytes.at, of->bytes.size, path.at, path.steps, NESTING, WORDS, words, caps);
    case SEGMENTS: return capnp_canonical_segments_size_at(of->segments, of->count, path.at, path.steps, NESTING, WORDS, words, caps);
    default: return capnp_canonical_words_size_at(of->bytes.at, of->bytes.size, path.at, path.steps, NESTING, WORDS, words, caps);
    }
}

/* The copy: if there is one, in a buffer of its size, in a larger one, and in one of a byte less. */
static void copies(const struct message *of, struct path path, const char *name, struct bytes flat) {
    size_t written = 77;
    struct bytes to = block(flat.size);
    uint32_t answer = copy_at(of, path, WORDS, to, &written);
    expect(is_named(answer, name), "the answer of the copy");
    expect(written == flat.size, "the size of the copy");
    expect(flat.size == 0 || memcmp(to.at, flat.at, flat.size) == 0, "the words of the copy");
    free(to.at);
    if (flat.size == 0) return;
    to = block(flat.size + 5);
    answer = copy_at(of, path, WORDS, to, &written);
    struct bytes after = {to.at + flat.size, 5};
    expect(answer == CAPNP_CANONICAL_DONE && written == flat.size && is_filled(after), "the bytes after the copy");
    free(to.at);
    to = block(flat.size - 1);
    answer = copy_at(of, path, WORDS, to, &written);
    expect(answer == CAPNP_CANONICAL_NO_ROOM && written == flat.size && is_filled(to), "a buffer that is too small");
    free(to.at);
}

static void digests(const struct message *of, struct path path, const char *name, struct bytes digest) {
    uint8_t made[32];
    const uint8_t none[32] = {0};
    memset(made, FILL, sizeof made);
    uint32_t answer = digest_at(of, path, made);
    expect(is_named(answer, name), "the answer of the digest");
    expect(memcmp(made, digest.size ? digest.at : none, sizeof made) == 0, "the digest");
}

/* The size, which is at least that of the canonical words without the root pointer. */
static void sizes(const struct message *of, struct path path, const char *name, struct bytes flat) {
    uint64_t words = 77;
    uint32_t caps = 77;
    uint32_t answer = size_at(of, path, &words, &caps);
    expect(is_named(answer, name), "the answer of the size");
    expect(caps == 0, "the capabilities");
    expect(flat.size ? 8 + 8 * words >= flat.size : words == 0, "the words");
    if (path.steps || of->given != FRAME) return;
    uint64_t all = 0;
    const uint32_t measured = capnp_canonical_size(of->bytes.at, of->bytes.size, NESTING, WORDS, &all, &caps);
    expect(words == all && (measured == CAPNP_CANONICAL_DONE || all == 0), "the size of the whole");
}

/* The least limit within which there is a copy: with one word less it is refused, with one more it isn't. */
static void limits(const struct message *of, struct path path, struct bytes flat) {
    size_t written;
    uint64_t enough = 0;
    struct bytes to = block(flat.size);
    while (copy_at(of, path, enough, to, &written) == CAPNP_CANONICAL_READ_LIMIT_EXCEEDED && is_filled(to)) enough++;
    expect(written == flat.size && memcmp(to.at, flat.at, flat.size) == 0, "the least limit");
    expect(enough > 0 && copy_at(of, path, enough + 1, to, &written) == CAPNP_CANONICAL_DONE, "a larger limit");
    free(to.at);
}

/* A message in one of the three forms, with one path. */
static void test_part(const struct message *of, struct path path, const char *name, struct bytes flat, struct bytes digest) {
    copies(of, path, name, flat);
    digests(of, path, name, digest);
    sizes(of, path, name, flat);
    /* the limit on words holds for a frame too */
    if (flat.size && of->given != FRAME) limits(of, path, flat);
}

/* A message in each form that it has. */
static void test_message(struct bytes frame, struct path path, const char *name, struct bytes flat, struct bytes digest) {
    static struct message message;
    message.given = FRAME;
    message.bytes = frame;
    test_part(&message, path, name, flat, digest);
    message.given = SEGMENTS;
    message.count = segments_of(frame.at, message.segments);
    test_part(&message, path, name, flat, digest);
    if (message.count != 1) return;
    message.given = WORDS_ONLY;
    message.bytes = copy_of(message.segments[0].bytes, message.segments[0].size);
    test_part(&message, path, name, flat, digest);
    free(message.bytes.at);
}

/* Segments and raw words that are no message: half a word, and no root. */
static void test_others(void) {
    static const uint8_t half[12] = {0};
    struct message words = {WORDS_ONLY, {(uint8_t *)half, sizeof half}, {{half, sizeof half}}, 1};
    struct message none = {WORDS_ONLY, {NULL, 0}, {{NULL, 0}}, 0};
    struct path root = {NULL, 0};
    struct bytes no_room = {NULL, 0};
    size_t written = 77;
    place = "no message";
    for (int given = SEGMENTS; given <= WORDS_ONLY; given++) {
        words.given = none.given = given == SEGMENTS ? SEGMENTS : WORDS_ONLY;
        expect(copy_at(&words, root, WORDS, no_room, &written) == CAPNP_CANONICAL_SEGMENT_IS_NOT_WHOLE_WORDS && written == 0, "half a word");
        uint32_t wanted = given == SEGMENTS ? CAPNP_CANONICAL_INVALID_SEGMENT_ID : CAPNP_CANONICAL_MESSAGE_CONTAINS_OUT_OF_BOUNDS_POINTER;
        expect(copy_at(&none, root, WORDS, no_room, &written) == wanted && written == 0, "no root");
    }
}

/* A frame that is cut short is refused with every path. */
static void cut_short(struct bytes frame, struct path path) {
    for (size_t size = 1; size < frame.size; size++) {
        size_t written = 77;
        struct bytes cut = copy_of(frame.at, size);
        uint32_t answer = capnp_canonical_copy_flat_at(cut.at, cut.size, path.at, path.steps, NESTING, WORDS, NULL, 0, &written);
        expect(answer == CAPNP_CANONICAL_TRUNCATED && written == 0, "a frame that is cut short");
        free(cut.at);
    }
}

int main(int count, char **words) {
    static char line[1 << 16], name[64], frame[1 << 15], path[256], answer[96], flat[1 << 14], digest[96], where[512];
    FILE *file = count == 2 ? fopen(words[1], "r") : NULL;
    if (!file) {
        fprintf(stderr, "usage: parts FILE\n");
        return 2;
    }
    while (fgets(line, sizeof line, file)) {
        if (*line == '#') continue;
        if (sscanf(line, "%63s %32767s %255s %95s %16383s %95s", name, frame, path, answer, flat, digest) != 6) {
            expect(0, "a line of six words");
            continue;
        }
        snprintf(where, sizeof where, "%s %s", name, path);
        place = where;
        struct bytes of_frame = from_hex(frame), of_flat = from_hex(flat), of_digest = from_hex(digest);
        struct path of_path = path_of(path);
        test_message(of_frame, of_path, answer, of_flat, of_digest);
        cut_short(of_frame, of_path);
        free(of_frame.at);
        free(of_flat.at);
        free(of_digest.at);
        free(of_path.at);
    }
    fclose(file);
    test_others();
    printf("%lu passed, %lu failed\n", passed, failed);
    return failed || !passed;
}
