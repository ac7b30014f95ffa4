/* Calls every function of the library with random messages, some of them altered: frames, words and segments; with random
 * limits, paths, rooms and packed bytes. To be run with sanitizers, over a library that is compiled with them, too: each buffer is
 * a block of the heap of its very size, at any address, or null if it is empty; and what a call has to write must be written.
 * Answers of different functions about the same message have to agree.
 *
 *     altered ROUNDS [SEED]
 *
 * The last line is `N passed, M failed`. */
#include <stdlib.h>
#include <string.h>

#include "capnp_canonical.h"
#include "made.h"

#ifdef __has_feature
#if __has_feature(memory_sanitizer)
#include <sanitizer/msan_interface.h>
#define LOOK_AT(bytes, size) __msan_check_mem_is_initialized(bytes, size)
#endif
#endif
#ifndef LOOK_AT
#define LOOK_AT(bytes, size) (void)(bytes), (void)(size)
#endif

enum form { FRAME, WORDS, SEGMENTS };
enum { STEPS = 4, OBJECTS = 40 };

/* A message, and how it is given to the library. */
struct given {
    enum form form;
    const uint8_t *bytes;
    size_t size;
    struct capnp_canonical_segment list[MOST];
    size_t count;
    uint32_t path[STEPS];
    size_t steps;
    int32_t nesting;
    uint64_t words;
};

/* Calls the function of this name for the form of a message. Those that copy have other names for words. */
#define CALL_NAMED(it, name, of_words, ...)                                                        \
    ((it)->form == FRAME   ? capnp_canonical_##name((it)->bytes, (it)->size, __VA_ARGS__)          \
     : (it)->form == WORDS ? capnp_canonical_words_##of_words((it)->bytes, (it)->size, __VA_ARGS__) \
                           : capnp_canonical_segments_##name((it)->count ? (it)->list : NULL, (it)->count, __VA_ARGS__))
#define CALL(it, name, ...) CALL_NAMED(it, name, name, (it)->nesting, (it)->words, __VA_ARGS__)
#define CALL_AT(it, name, ...) \
    CALL_NAMED(it, name, name, (it)->steps ? (it)->path : NULL, (it)->steps, (it)->nesting, (it)->words, __VA_ARGS__)

/* A block of exactly this size, which starts up to 7 bytes after a multiple of 8. Writes to `*whole` what the caller frees. */
static uint8_t *block(size_t size, void **whole) {
    size_t by = below(3) ? 0 : below(8);
    uint8_t *made_here = (uint8_t *)malloc(by + size);
    *whole = made_here;
    if (by + size == 0 || (size == 0 && below(2))) return NULL;
    if (!made_here) abort();
    return made_here + by;
}

static void *copied;

static uint8_t *copy_of(const void *bytes, size_t size) {
    uint8_t *to = block(size, &copied);
    if (size) memcpy(to, bytes, size);
    return to;
}

/* The calls that write the size that they need, and the canonical words or frame. */
enum copying { COPY_FLAT, COPY_FRAMED, COPY_PART };

static uint32_t copy(const struct given *it, enum copying how, uint8_t *to, size_t room, size_t *written) {
    if (how == COPY_FLAT) return CALL_NAMED(it, copy_flat, copy, it->nesting, it->words, to, room, written);
    if (how == COPY_PART) {
        return CALL_NAMED(it, copy_flat_at, copy_at, it->steps ? it->path : NULL, it->steps, it->nesting, it->words, to, room, written);
    }
    if (it->form == FRAME) return capnp_canonical_copy(it->bytes, it->size, it->nesting, it->words, to, room, written);
    return capnp_canonical_segments_copy(it->list, it->count, it->nesting, it->words, to, room, written);
}

/* Copies without a buffer, with one of the size that is needed, and with any other; returns the answer and the size. */
static uint32_t copies(const struct given *it, enum copying how, size_t *size) {
    void *whole;
    uint8_t *to;
    size_t written = 77, room;
    uint32_t answer = copy(it, how, NULL, 0, size), again;
    expect(answer != CAPNP_CANONICAL_DONE, "no room for a copy");
    expect((answer == CAPNP_CANONICAL_NO_ROOM) == (*size != 0), "the size that is needed");
    room = answer == CAPNP_CANONICAL_NO_ROOM && below(3) ? *size : below(200);
    to = block(room, &whole);
    again = copy(it, how, to, room, &written);
    if (answer == CAPNP_CANONICAL_NO_ROOM && room >= *size) {
        expect(again == CAPNP_CANONICAL_DONE && written == *size, "a copy");
        LOOK_AT(to, written);
        answer = CAPNP_CANONICAL_DONE;
    } else {
        expect(again == answer && written == *size, "the same refusal of a copy");
        if (answer == CAPNP_CANONICAL_NO_ROOM) answer = CAPNP_CANONICAL_DONE;
    }
    free(whole);
    return answer;
}

static void copy_and_hash(const struct given *it) {
    uint8_t digest[32], of_part[32];
    size_t flat, framed, part;
    uint64_t words;
    uint32_t caps, answer = copies(it, COPY_FLAT, &flat), at_end;
    LOOK_AT(&flat, sizeof flat);
    expect(CALL(it, digest, digest) == answer, "the answer of a digest");
    LOOK_AT(digest, sizeof digest);
    if (it->form != WORDS) {
        expect(copies(it, COPY_FRAMED, &framed) == answer && (answer != CAPNP_CANONICAL_DONE || framed == flat + 8), "a framed copy");
    }
    at_end = copies(it, COPY_PART, &part);
    expect(CALL_AT(it, digest_at, of_part) == at_end, "the answer of a digest of a part");
    LOOK_AT(of_part, sizeof of_part);
    if (it->steps == 0) {
        expect(at_end == answer && part == flat && memcmp(digest, of_part, sizeof digest) == 0, "the part at the root");
    }
    words = 77, caps = 77;
    answer = CALL_AT(it, size_at, &words, &caps);
    expect(answer == CAPNP_CANONICAL_DONE || (words == 0 && caps == 0), "no size of a part");
    LOOK_AT(&words, sizeof words);
    LOOK_AT(&caps, sizeof caps);
}

static void walk(const struct given *it, uint32_t sound) {
    size_t count = 77, again = 77, room = below(OBJECTS), i;
    void *whole = malloc((room + 1) * sizeof(struct capnp_canonical_object));
    struct capnp_canonical_object *objects = (struct capnp_canonical_object *)whole;
    uint32_t answer = CALL(it, walk, NULL, 0, &count), with_room;
    if (!objects) abort();
    expect(answer == (sound == CAPNP_CANONICAL_DONE && count ? CAPNP_CANONICAL_NO_ROOM : sound), "a walk without room");
    with_room = CALL(it, walk, room ? objects : NULL, room, &again);
    expect(again == count && (sound != CAPNP_CANONICAL_DONE || (with_room == CAPNP_CANONICAL_DONE) == (count <= room)), "a walk");
    for (i = 0; i < room && i < count; i++) {
        expect(objects[i].parent == CAPNP_CANONICAL_NO_PARENT ? i == 0 : objects[i].parent < i, "an object's parent");
        LOOK_AT(&objects[i], offsetof(struct capnp_canonical_object, pointers) + sizeof objects[i].pointers);
    }
    free(whole);
}

static void test_and_find(const struct given *it) {
    struct capnp_canonical_fault fault;
    struct capnp_canonical_extent extent;
    struct capnp_canonical_pointer pointer;
    uint64_t words;
    uint32_t caps, reading, answer, sound;
    bool is_canonical;
    answer = CALL(it, check, &is_canonical, &fault);
    LOOK_AT(&fault, sizeof fault);
    expect(answer != CAPNP_CANONICAL_DONE || is_canonical == (fault.reason == CAPNP_CANONICAL_REASON_NONE), "a fault");
    answer = CALL(it, size, &words, &caps);
    LOOK_AT(&words, sizeof words);
    LOOK_AT(&caps, sizeof caps);
    sound = CALL(it, validate, &extent);
    LOOK_AT(&extent, offsetof(struct capnp_canonical_extent, depth) + sizeof extent.depth);
    expect(sound != CAPNP_CANONICAL_DONE || (extent.cost <= it->words && (extent.depth == 0 || (int64_t)extent.depth <= it->nesting)), "an extent");
    for (reading = 0; reading < 4; reading++) {
        uint32_t read = CALL(it, locate, reading, &pointer);
        LOOK_AT(&pointer, sizeof pointer);
        if (read != CAPNP_CANONICAL_DONE) {
            expect(read == sound && pointer.refusal == 0 && pointer.segment == 0 && pointer.word == 0, "no message to look in");
        } else if (reading % 3 == CAPNP_CANONICAL_READING_VALUE) {
            expect(pointer.refusal == sound, "the refusal at a place");
        } else if (reading == CAPNP_CANONICAL_READING_SIZE) {
            expect(pointer.refusal == answer || answer == CAPNP_CANONICAL_MESSAGE_TOO_LARGE, "the refusal of a size at a place");
        }
    }
    walk(it, sound);
}

static void all_calls(struct given *it) {
    uint32_t i;
    it->nesting = below(3) ? 64 : (int32_t)below(12) - 2;
    it->words = below(3) ? 5000 : below(4) ? below(60) : any();
    it->steps = below(STEPS + 1);
    for (i = 0; i < it->steps; i++) it->path[i] = below(9) ? below(4) : (uint32_t)any();
    copy_and_hash(it);
    test_and_find(it);
}

/* Replaces some bits, and cuts the bytes short. */
static size_t alter(uint8_t *bytes, size_t size) {
    uint32_t i;
    if (size == 0 || below(2)) return size;
    for (i = below(4); i > 0; i--) bytes[below((uint32_t)size)] ^= (uint8_t)(1u << below(8));
    return below(4) ? size : below((uint32_t)size + 1);
}

static void frame(struct given *it) {
    static uint8_t bytes[8 + 8 * MOST + 8 * MOST * ROOM];
    void *whole;
    uint32_t i, number = segments - 1;
    size_t size = 4, told = 77, wanted = 77;
    memcpy(bytes, &number, 4);
    for (i = 0; i < segments; i++, size += 4) memcpy(bytes + size, &used[i], 4);
    if (size % 8) memset(bytes + size, 0, 4), size += 4;
    for (i = 0; i < segments; size += 8 * used[i++]) memcpy(bytes + size, made[i], 8 * used[i]);
    if (segments == 0) size = below(2) ? 8 : 0;
    size = alter(bytes, size);
    it->form = FRAME;
    it->bytes = copy_of(bytes, size);
    it->size = size;
    whole = copied;
    all_calls(it);
    if (capnp_canonical_frame_size(it->bytes, size, it->words, &told) == CAPNP_CANONICAL_DONE) {
        expect(told <= size && capnp_canonical_frame_size_from_prefix(it->bytes, size, it->words, &wanted) == CAPNP_CANONICAL_DONE && wanted == told, "the size of a frame");
    } else {
        expect(told == 0, "no size of a frame");
    }
    (void)!capnp_canonical_frame_size_from_prefix(it->bytes, below((uint32_t)size + 1), it->words, &wanted);
    free(whole);
}

static void segments_and_words(struct given *it) {
    void *blocks[MOST] = {NULL, NULL, NULL};
    uint32_t i;
    for (i = 0; i < segments; i++) {
        size_t size = 8 * used[i];
        it->list[i].bytes = copy_of(made[i], size);
        it->list[i].size = size;
        blocks[i] = copied;
    }
    it->form = SEGMENTS;
    it->count = segments;
    all_calls(it);
    it->form = WORDS;
    it->bytes = segments ? it->list[0].bytes : NULL;
    it->size = segments ? it->list[0].size - (it->list[0].size && below(9) == 0) : 0;
    all_calls(it);
    for (i = 0; i < segments; i++) free(blocks[i]);
}

/* Unpacks random bytes, many of them tags, at once and in pieces. */
static void unpacked(void) {
    static uint8_t bytes[64];
    struct capnp_canonical_unpacking state_of = {0, 0, 0, 0};
    void *whole, *to_free;
    size_t size = below(sizeof bytes + 1), written = 77, taken = 0, made_here = 0, i, room;
    uint8_t *packed, *to;
    uint32_t answer;
    for (i = 0; i < size; i++) bytes[i] = (uint8_t)(below(3) ? any() : below(2) ? 0 : below(2) ? 0xff : below(5));
    packed = copy_of(bytes, size);
    whole = copied;
    answer = capnp_canonical_unpack(packed, size, NULL, 0, &written);
    expect(written == 0 || answer == CAPNP_CANONICAL_NO_ROOM, "nothing is unpacked without room");
    room = answer == CAPNP_CANONICAL_NO_ROOM ? written : below(64);
    to = block(room, &to_free);
    expect(capnp_canonical_unpack(packed, size, to, room, &written) == (answer == CAPNP_CANONICAL_NO_ROOM ? (uint32_t)CAPNP_CANONICAL_DONE : answer), "unpacked");
    LOOK_AT(to, written);
    free(to_free);
    for (i = 0; taken < size && i < 1000; i++) {
        size_t more = 77, piece = below((uint32_t)(size - taken) + 1), place = below(100);
        void *part, *part_to;
        uint8_t *from = copy_of(bytes + taken, piece), *at;
        part = copied;
        at = block(place, &part_to);
        made_here = capnp_canonical_unpack_piece(&state_of, from, piece, at, place, &more);
        expect(made_here <= place && more <= piece, "a piece");
        LOOK_AT(at, made_here);
        taken += more;
        free(part);
        free(part_to);
    }
    free(whole);
}

static void texts(void) {
    void *whole;
    size_t room = below(120), length;
    char *to = (char *)block(room, &whole);
    uint32_t number = below(9) ? below(90) : (uint32_t)any();
    length = below(2) ? capnp_canonical_name(number, to, room) : below(2) ? capnp_canonical_reason_text(number, to, room) : capnp_canonical_version_text(to, room);
    if (room) expect(strlen(to) == (length < room ? length : room - 1), "a text");
    expect(length < CAPNP_CANONICAL_TEXT_ROOM && capnp_canonical_version() == CAPNP_CANONICAL_VERSION, "a version");
    free(whole);
}

int main(int count, char **words) {
    long rounds = count > 1 ? atol(words[1]) : 1000, round;
    if (count > 2) state ^= strtoull(words[2], NULL, 10) * UINT64_C(0x9e3779b97f4a7c15);
    for (round = 0; round < rounds; round++) {
        struct given it;
        make();
        segments_and_words(&it);
        frame(&it);
        unpacked();
        texts();
    }
    printf("%lu passed, %lu failed\n", passed, failed);
    return failed != 0;
}
