/* Calls the functions of the library with random segments, places and numbers, to be run with sanitizers: each segment is a
 * block of its own size, some of them cut at an odd size. Tests what holds of each answer: that what was found is inside of
 * a segment, that the limit doesn't grow, and that a refused call finds nothing.
 *
 *     calls ROUNDS [SEED]
 *
 * The last line is `N passed, M failed`. */
#include <inttypes.h>
#include <stdio.h>
#include <stdlib.h>

#include "capnp_layout.h"
#include "random.h"

enum { MOST = 3, CALLS = 24 };

static unsigned long refused;

static bool is_inside(const struct capnp_segment *list, uint32_t count, const uint8_t *bytes, uint64_t size) {
    uint32_t i;
    if (size == 0) return true;
    for (i = 0; i < count; i++) {
        uintptr_t start = (uintptr_t)list[i].bytes, at = (uintptr_t)bytes;
        if (at >= start && at - start <= list[i].size && size <= list[i].size - (at - start)) return true;
    }
    return false;
}

static bool are_pointers(const struct capnp_segment *list, uint32_t count, uint64_t segment, uint64_t at, uint64_t n) {
    return n == 0 || (segment < count && at + n <= list[segment].size / 8);
}

static void call(const struct capnp_segments *segments, const struct capnp_segment *list, uint32_t count) {
    struct capnp_found_struct of;
    struct capnp_found_list items;
    struct capnp_found_bytes bytes;
    uint64_t left = below(4) ? below(100) : any(), before = left;
    uint64_t segment = below(8) ? below(count + 1) : any();
    uint32_t word = below(8) ? below(40) : (uint32_t)any(), found = 77, refusal;
    int32_t nesting = below(8) ? (int32_t)below(4) : (int32_t)any();
    memset(&of, 0xab, sizeof of);
    memset(&items, 0xab, sizeof items);
    memset(&bytes, 0xab, sizeof bytes);
    switch (below(7)) {
    case 0:
    case 1:
        refusal = below(2) ? capnp_layout_root(segments, &left, nesting, &of)
                           : capnp_layout_struct(segments, &left, segment, word, nesting, &of);
        expect(is_inside(list, count, of.data, of.size), "data section");
        expect(are_pointers(list, count, of.segment, of.pointers_at, of.pointers), "pointer section");
        if (refusal) expect(of.size == 0 && of.pointers == 0, "no struct");
        break;
    case 2:
    case 3:
        refusal = capnp_layout_list(segments, &left, segment, word, nesting, below(8) ? below(8) : (uint32_t)any(), &items);
        expect(is_inside(list, count, items.data, items.size), "elements");
        expect((uint64_t)items.count * (items.data_bits + 64u * items.pointers) <= 8 * items.size, "size of elements");
        expect(are_pointers(list, count, items.segment, items.at, items.pointers ? items.size / 8 : 0), "pointers of elements");
        if (refusal) expect(items.size == 0 && items.count == 0, "no list");
        break;
    case 4:
        refusal = capnp_layout_text(segments, &left, segment, word, nesting, &bytes);
        expect(is_inside(list, count, bytes.bytes, bytes.size), "text");
        if (bytes.size) expect(is_inside(list, count, bytes.bytes, bytes.size + 1) && bytes.bytes[bytes.size] == 0, "zero byte");
        if (refusal) expect(bytes.size == 0, "no text");
        break;
    case 5:
        refusal = capnp_layout_data(segments, &left, segment, word, nesting, &bytes);
        expect(is_inside(list, count, bytes.bytes, bytes.size), "data");
        if (refusal) expect(bytes.size == 0, "no data");
        break;
    default:
        if (below(2)) {
            refusal = capnp_layout_type(segments, &left, segment, word, &found);
            expect(found <= CAPNP_TYPE_CAPABILITY && (refusal == 0 || found == 0), "type");
        } else {
            refusal = capnp_layout_capability(segments, segment, word, &found);
            expect(refusal == 0 || found == 0, "capability");
        }
    }
    expect(left <= before, "what is left");
    refused += refusal != 0;
}

static void message(void) {
    struct capnp_segment list[MOST];
    struct capnp_segments segments;
    uint32_t count = below(MOST + 1), i, k;
    for (i = 0; i < count; i++) {
        uint32_t size = below(8) ? 8 * below(40) : below(320);
        uint8_t *bytes = (uint8_t *)malloc(size ? size : 1);
        if (!bytes) abort();
        for (k = 0; k + 8 <= size; k += 8) {
            uint64_t word = some_word(size / 8, count);
            memcpy(bytes + k, &word, 8);
        }
        for (; k < size; k++) bytes[k] = (uint8_t)any();
        list[i].bytes = bytes;
        list[i].size = size;
    }
    memset(&segments, 0, sizeof segments);
    expect(capnp_layout_open(list, count, &segments) && segments.list == list && segments.count == count, "open");
    for (k = 0; k < CALLS; k++) call(&segments, list, count);
    for (i = 0; i < count; i++) free((void *)(uintptr_t)list[i].bytes);
}

/* A frame of random segments, whole or cut, into room for all of them or for fewer. */
static void frame(void) {
    struct capnp_segment room[6], kept[6];
    uint32_t told = below(16) ? 1 + below(5) : below(2000), words = 0, sizes[6], count = 77, refusal, i;
    uint32_t rooms = below(7), table = 4 * (told + 1 + (told + 1) % 2), size;
    uint64_t used = 77, limit = below(4) ? 1000 : below(30), at;
    uint8_t *bytes;
    for (i = 0; i < told && i < 6; i++) words += sizes[i] = below(8) ? below(6) : below(400);
    if (told > 6) {
        words = 0;
        for (i = 0; i < 6; i++) sizes[i] = 0;
    }
    size = table + 8 * words + below(9);
    if (below(3) == 0) size = below(size + 1);
    bytes = (uint8_t *)malloc(size ? size : 1);
    if (!bytes) abort();
    memset(bytes, 0, size);
    for (i = 0; i < 1 + (told < 6 ? told : 6); i++) {
        uint32_t number = i == 0 ? told - 1 : sizes[i - 1];
        if (4 * i + 4 <= size) memcpy(bytes + 4 * i, &number, 4);
    }
    memset(room, 0xab, sizeof room);
    memcpy(kept, room, sizeof room);
    refusal = capnp_layout_open_frame(bytes, size, limit, room, rooms, &count, &used);
    if (size == 0) {
        expect(refusal == CAPNP_NO_MESSAGE, "no message");
    } else if (size < 4) {
        expect(refusal == CAPNP_TRUNCATED, "no count");
    } else if (told == 0 || told > 512) {
        expect(refusal == CAPNP_TOO_MANY_SEGMENTS, "too many segments");
    } else if (size < table) {
        expect(refusal == CAPNP_TRUNCATED, "no table");
    } else if (words > limit) {
        expect(refusal == CAPNP_MESSAGE_TOO_LONG, "too long");
    } else if (size < table + 8 * words) {
        expect(refusal == CAPNP_TRUNCATED, "no words");
    } else {
        expect(refusal == (told > rooms ? CAPNP_NO_ROOM : CAPNP_DONE), "room");
        expect(count == told && used == table + 8 * words, "what was found");
    }
    if (refusal != 0 && refusal != CAPNP_NO_ROOM) expect(count == 0 && used == 0, "nothing was found");
    at = table;
    for (i = 0; i < 6; i++) {
        if (refusal == 0 && i < told) {
            expect(room[i].bytes == bytes + at && room[i].size == 8 * sizes[i], "segment");
            at += 8 * sizes[i];
        } else {
            expect(memcmp(&room[i], &kept[i], sizeof room[i]) == 0, "room that is left");
        }
    }
    free(bytes);
}

int main(int given, char **words) {
    long rounds = given > 1 ? atol(words[1]) : 1000, round;
    if (given > 2) state ^= strtoull(words[2], NULL, 10) * UINT64_C(0x9e3779b97f4a7c15);
    for (round = 0; round < rounds; round++) {
        message();
        frame();
    }
    printf("%lu calls refused\n%lu passed, %lu failed\n", refused, passed, failed);
    return failed != 0;
}
