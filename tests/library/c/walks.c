/* Calls the functions that list the objects of a message, for the messages of a file (see its top): for the frame, for its
 * segments, and for the raw words of a single segment; with room for all objects, for half of them, and for none.
 *
 *     walks FILE
 *
 * The last line is `N passed, M failed`: a count is one comparison. */
#include "capnp_canonical.h"
#include "blocks.h"

enum { MOST_SEGMENTS = 512, MOST_OBJECTS = 4096, LINE = 1 << 20 };

typedef struct capnp_canonical_object object;

/* What a call has to answer: the objects, and the name of the answer if there is room for them. */
struct wanted {
    const char *name;
    object objects[MOST_OBJECTS];
    size_t count;
};

static int is_same(const object *a, const object *b) {
    return a->parent == b->parent && a->pointer_segment == b->pointer_segment && a->segment == b->segment && a->pointer_word == b->pointer_word && a->word == b->word
        && a->kind == b->kind && a->count == b->count && a->capability == b->capability && a->data_words == b->data_words && a->pointers == b->pointers;
}

/* Whether the objects that fit are those wanted, and the entries after them are as before the call. */
static int is_as_wanted(uint32_t answer, const object *objects, size_t room, size_t count, const struct wanted *wanted) {
    char text[CAPNP_CANONICAL_TEXT_ROOM] = "Done";
    object unwritten;
    size_t written = count < room ? count : room;
    memset(&unwritten, FILL, sizeof unwritten);
    if (answer != CAPNP_CANONICAL_DONE) capnp_canonical_name(answer, text, sizeof text);
    if (strcmp(text, strcmp(wanted->name, "Done") == 0 && room < wanted->count ? "NoRoom" : wanted->name) != 0) return 0;
    for (size_t i = 0; i < written; i++) {
        if (!is_same(&objects[i], &wanted->objects[i])) return 0;
    }
    for (size_t i = written; i < room; i++) {
        if (memcmp(&objects[i], &unwritten, sizeof unwritten) != 0) return 0;
    }
    return count == wanted->count;
}

static uint32_t number_at(const uint8_t *at) {
    return at[0] | (uint32_t)at[1] << 8 | (uint32_t)at[2] << 16 | (uint32_t)at[3] << 24;
}

static void test_in(object *objects, size_t room, struct bytes frame, int32_t nesting, uint64_t words, const struct wanted *wanted) {
    struct capnp_canonical_segment segments[MOST_SEGMENTS];
    size_t count = (size_t)number_at(frame.at) + 1, at = (4 * count + 4 + 7) / 8 * 8, found = 99;
    uint32_t answer;
    /* the limit on words holds for the frame too */
    if (words >= frame.size / 8) {
        answer = capnp_canonical_walk(frame.at, frame.size, nesting, words, objects, room, &found);
        expect(is_as_wanted(answer, objects, room, found, wanted), "the objects of a frame");
    }
    if (count > MOST_SEGMENTS) return;
    for (size_t id = 0; id < count; id++) {
        segments[id].bytes = frame.at + at;
        segments[id].size = (size_t)number_at(frame.at + 4 + 4 * id) * 8;
        at += segments[id].size;
    }
    if (room) memset(objects, FILL, room * sizeof *objects);
    answer = capnp_canonical_segments_walk(segments, count, nesting, words, objects, room, &found);
    expect(is_as_wanted(answer, objects, room, found, wanted), "the objects of segments");
    if (count != 1) return;
    if (room) memset(objects, FILL, room * sizeof *objects);
    answer = capnp_canonical_words_walk(segments[0].bytes, segments[0].size, nesting, words, objects, room, &found);
    expect(is_as_wanted(answer, objects, room, found, wanted), "the objects of raw words");
}

static void test_with(size_t room, struct bytes frame, int32_t nesting, uint64_t words, const struct wanted *wanted) {
    struct bytes array = block(room * sizeof(object));
    test_in((object *)(void *)array.at, room, frame, nesting, words, wanted);
    free(array.at);
}

/* Bytes that aren't a message. */
static void test_others(void) {
    static const uint8_t cut[16] = {0, 0, 0, 0, 2};
    const struct capnp_canonical_segment half = {cut, 12};
    size_t found = 99;
    expect(capnp_canonical_walk(cut, sizeof cut, 64, 1000, NULL, 0, &found) == CAPNP_CANONICAL_TRUNCATED && found == 0, "a frame that is cut short");
    found = 99;
    expect(capnp_canonical_walk(cut, 0, 64, 1000, NULL, 0, &found) == CAPNP_CANONICAL_NO_MESSAGE && found == 0, "no frame");
    found = 99;
    expect(capnp_canonical_segments_walk(&half, 1, 64, 1000, NULL, 0, &found) == CAPNP_CANONICAL_SEGMENT_IS_NOT_WHOLE_WORDS && found == 0, "a segment that isn't whole words");
    found = 99;
    expect(capnp_canonical_words_walk(cut, 12, 64, 1000, NULL, 0, &found) == CAPNP_CANONICAL_SEGMENT_IS_NOT_WHOLE_WORDS && found == 0, "words that aren't whole");
    found = 99;
    expect(capnp_canonical_segments_walk(NULL, 0, 64, 1000, NULL, 0, &found) == CAPNP_CANONICAL_INVALID_SEGMENT_ID && found == 0, "no segments");
}

/* Reads the objects of a line into `wanted`. */
static int read_objects(const char *text, struct wanted *wanted) {
    wanted->count = 0;
    while (*text && *text != '-') {
        object *one = &wanted->objects[wanted->count];
        unsigned long long parent, pointer_segment, segment;
        int taken = 0;
        if (wanted->count == MOST_OBJECTS) return 0;
        if (sscanf(text, "%llu:%llu:%llu:%u:%u:%u:%u:%u:%hu:%hu%n", &parent, &pointer_segment, &segment, &one->pointer_word, &one->word, &one->kind, &one->count, &one->capability, &one->data_words, &one->pointers, &taken) != 10) return 0;
        one->parent = parent;
        one->pointer_segment = pointer_segment;
        one->segment = segment;
        wanted->count++;
        text += taken;
        if (*text == ',') text++;
    }
    return 1;
}

int main(int count, char **names) {
    static char line[LINE], name[LINE], hex[LINE], answer[256], list[LINE];
    static struct wanted wanted;
    FILE *file = count > 1 ? fopen(names[1], "r") : NULL;
    if (!file) return 2;
    test_others();
    while (fgets(line, sizeof line, file)) {
        int nesting;
        unsigned long long words;
        if (line[0] == '#') continue;
        if (sscanf(line, "%s %s %d %llu %255s %s", name, hex, &nesting, &words, answer, list) != 6 || !read_objects(list, &wanted)) return 2;
        wanted.name = answer;
        struct bytes frame = from_hex(hex);
        place = name;
        test_with(wanted.count + 2, frame, nesting, words, &wanted);
        test_with(wanted.count, frame, nesting, words, &wanted);
        test_with(wanted.count / 2, frame, nesting, words, &wanted);
        test_with(0, frame, nesting, words, &wanted);
        free(frame.at);
    }
    fclose(file);
    printf("%lu passed, %lu failed\n", passed, failed);
    return failed || !passed;
}
