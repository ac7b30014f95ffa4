/* Calls the functions of the library that build, with random buffers, places and numbers, to be run with sanitizers: each
 * buffer is a block of its own size, filled with anything, and a call may get a message that no call has built. Tests what
 * holds of each answer, by a model of places: which calls are refused as badly placed, that a refused one changes nothing,
 * that a number is written and no other byte, and that nothing is written after the message.
 *
 *     build_calls ROUNDS [SEED]
 *
 * The last line is `N passed, M failed`. */
#include <inttypes.h>
#include <stdio.h>
#include <stdlib.h>

#include "capnp_layout.h"

enum { CALLS = 12, ROOM = 400 };

static unsigned long passed, failed, answers[100];
static uint64_t state = UINT64_C(88172645463325252);

static uint64_t any(void) {
    state ^= state << 13;
    state ^= state >> 7;
    state ^= state << 17;
    return state;
}

static uint32_t below(uint32_t n) { return (uint32_t)(any() % n); }

static void expect(bool is_so, const char *what) {
    if (is_so) {
        passed++;
    } else if (failed++ < 20) {
        printf("FAILED: %s\n", what);
    }
}

/* A number that is often small, and sometimes at a limit. */
static uint32_t some(void) {
    switch (below(8)) {
    case 0: return (uint32_t)any();
    case 1: return UINT32_MAX - below(4);
    case 2: return 0x20000000 - below(4);
    default: return below(24);
    }
}

static uint16_t few(void) { return (uint16_t)(below(8) ? below(4) : some()); }

struct buffer {
    uint8_t *bytes;
    size_t room;
    uint32_t used;
    /* the buffer before the call */
    uint8_t old[ROOM];
    uint32_t was;
};

static bool is_message(const struct buffer *b) {
    size_t words = b->room / 8;
    return b->was <= words && b->was <= 0x1fffffff;
}

static bool has_struct(const struct buffer *b, struct capnp_struct_at p) {
    return is_message(b) && (uint64_t)p.at + p.data_words + p.pointers <= b->was;
}

static bool has_elements(const struct buffer *b, uint32_t at, uint32_t count, uint32_t bits) {
    return is_message(b) && at + ((uint64_t)count * bits + 63) / 64 <= b->was;
}

static bool is_same(const struct buffer *b) { return b->used == b->was && memcmp(b->bytes, b->old, b->room) == 0; }

/* After a refusal that cleared a pointer: the pointer is null, what it held may be zeroed, and nothing else is changed. */
static bool is_cleared(const struct buffer *b, size_t pointer) {
    bool is_so = b->used == b->was;
    size_t i;
    for (i = 0; i < b->room; i++) is_so = is_so && (b->bytes[i] == b->old[i] || b->bytes[i] == 0);
    for (i = 0; i < 8; i++) is_so = is_so && b->bytes[8 * pointer + i] == 0;
    return is_so;
}

/* The answer of a call whose place is right or wrong. */
static void answered(const struct buffer *b, uint32_t answer, bool is_placed) {
    answers[answer < 100 ? answer : 99]++;
    expect((answer == CAPNP_NO_SUCH_PLACE) == !is_placed, "a place is told from another");
    if (answer == CAPNP_NO_SUCH_PLACE) expect(is_same(b), "a bad place changes nothing");
    if (is_message(b)) {
        expect(b->used <= b->room / 8 && b->used >= b->was, "the message is in the buffer, and no shorter");
        expect(memcmp(b->bytes + 8 * (size_t)b->used, b->old + 8 * (size_t)b->used, b->room - 8 * (size_t)b->used) == 0, "nothing behind it is written");
    }
}

/* Number `value` of `width` bytes is at `byte`, and all other bytes are as before. */
static void written(const struct buffer *b, size_t byte, uint32_t width, uint64_t value) {
    uint8_t wanted[ROOM];
    uint32_t i;
    memcpy(wanted, b->old, b->room);
    for (i = 0; i < width; i++) wanted[byte + i] = (uint8_t)(value >> (8 * i));
    expect(memcmp(wanted, b->bytes, b->room) == 0, "one number is written");
}

static void written_bit(const struct buffer *b, size_t bit, bool value) {
    uint8_t wanted[ROOM];
    memcpy(wanted, b->old, b->room);
    wanted[bit / 8] = (uint8_t)((wanted[bit / 8] & ~(1u << (bit % 8))) | (uint32_t)value << (bit % 8));
    expect(memcmp(wanted, b->bytes, b->room) == 0, "one bit is written");
}

static void set_field(struct buffer *b, struct capnp_struct_at p) {
    uint64_t place = capnp_place(p), value = any();
    uint32_t kind = below(5), width = kind < 4 ? 1u << kind : 0, offset = below(4) ? below(24) : some(), answer = 0;
    bool is_placed = has_struct(b, p) && (width ? (uint64_t)offset * width + width <= 8u * p.data_words : offset < 64u * p.data_words);
    switch (kind) {
    case 0: answer = capnp_layout_set_u8(b->bytes, b->room, b->used, place, offset, (uint8_t)value); break;
    case 1: answer = capnp_layout_set_u16(b->bytes, b->room, b->used, place, offset, (uint16_t)value); break;
    case 2: answer = capnp_layout_set_u32(b->bytes, b->room, b->used, place, offset, (uint32_t)value); break;
    case 3: answer = capnp_layout_set_u64(b->bytes, b->room, b->used, place, offset, value); break;
    default: answer = capnp_layout_set_bool(b->bytes, b->room, b->used, place, offset, value & 1); break;
    }
    answered(b, answer, is_placed);
    if (answer == 0 && width) written(b, 8 * (size_t)p.at + (size_t)offset * width, width, value);
    if (answer == 0 && !width) written_bit(b, 64 * (size_t)p.at + offset, value & 1);
}

static void set_element(struct buffer *b) {
    uint64_t value = any();
    uint32_t kind = below(5), width = kind < 4 ? 1u << kind : 0, at = some(), count = some(), index = some(), answer = 0;
    uint64_t list = capnp_list_place(at, count);
    bool is_placed = has_elements(b, at, count, width ? 8 * width : 1) && index < count;
    switch (kind) {
    case 0: answer = capnp_layout_set_element_u8(b->bytes, b->room, b->used, list, index, (uint8_t)value); break;
    case 1: answer = capnp_layout_set_element_u16(b->bytes, b->room, b->used, list, index, (uint16_t)value); break;
    case 2: answer = capnp_layout_set_element_u32(b->bytes, b->room, b->used, list, index, (uint32_t)value); break;
    case 3: answer = capnp_layout_set_element_u64(b->bytes, b->room, b->used, list, index, value); break;
    default: answer = capnp_layout_set_element_bool(b->bytes, b->room, b->used, list, index, value & 1); break;
    }
    answered(b, answer, is_placed);
    if (answer == 0 && width) written(b, 8 * (size_t)at + (size_t)index * width, width, value);
    if (answer == 0 && !width) written_bit(b, 64 * (size_t)at + index, value & 1);
}

static void make(struct buffer *b, struct capnp_struct_at p) {
    uint64_t place = capnp_place(p);
    uint16_t index = few(), data_words = few(), pointers = few();
    uint32_t at = 77, count = below(4) ? below(6) : some(), size = below(8) ? below(7) : some(), answer;
    bool is_placed = has_struct(b, p) && index < p.pointers;
    /* Counts that are too large: nothing is changed. And the largest others, for which the call clears the pointer first. */
    bool is_too_large = false, is_largest = false;
    uint64_t words = (uint64_t)count * ((uint64_t)data_words + pointers);
    struct capnp_struct_at inner = {77, 77, 77};
    struct capnp_elements_at list = {{77, 77, 77}, 77, 77};
    switch (below(7)) {
    case 0: answer = capnp_layout_init_struct(b->bytes, b->room, &b->used, place, index, data_words, pointers, &at); break;
    case 1:
        answer = capnp_layout_init_struct_list(b->bytes, b->room, &b->used, place, index, count, data_words, pointers, &at);
        is_too_large = count >= 0x20000000 || words >= 0x20000000;
        is_largest = words == 0x1ffffffe || words == 0x1fffffff;
        break;
    case 2:
        answer = capnp_layout_init_list(b->bytes, b->room, &b->used, place, index, size, count, &at);
        is_placed = is_placed && size <= 6;
        is_too_large = count >= 0x20000000;
        is_largest = count == 0x1fffffff && size >= CAPNP_EIGHT_BYTES;
        break;
    case 3:
        answer = capnp_layout_init_root(b->bytes, b->room, &b->used, data_words, pointers, &at);
        is_placed = is_message(b) && b->was >= 1;
        break;
    case 4:
        answer = capnp_layout_get_struct_list(b->bytes, b->room, &b->used, place, index, data_words, pointers, &list);
        /* a message that no call has built may have a list of too many elements without width */
        is_too_large = answer == CAPNP_MESSAGE_TOO_LARGE;
        at = answer == 0 ? 1 : list.first.at | list.first.data_words | list.first.pointers | list.count | list.size;
        if (answer == 0 && list.size != 0) expect(list.size == CAPNP_STRUCT && list.first.data_words >= data_words && list.first.pointers >= pointers, "structs that are opened are wide enough");
        break;
    case 5:
        answer = capnp_layout_get_list(b->bytes, b->room, b->used, place, index, size, &list);
        at = answer == 0 ? 1 : list.first.at | list.first.data_words | list.first.pointers | list.count | list.size;
        is_placed = is_placed && size <= 6;
        expect(is_same(b), "a list that is found changes nothing");
        break;
    default:
        answer = capnp_layout_get_struct(b->bytes, b->room, &b->used, place, index, data_words, pointers, &inner);
        at = answer == 0 ? 1 : inner.at | inner.data_words | inner.pointers;
        if (answer == 0) expect(inner.data_words >= data_words && inner.pointers >= pointers, "what is opened is wide enough");
        break;
    }
    answered(b, answer, is_placed);
    expect(answer == 0 || at == 0, "a refused call stores 0");
    if (is_placed) expect((answer == CAPNP_MESSAGE_TOO_LARGE) == (is_too_large || is_largest), "what is too large");
    if (answer == CAPNP_MESSAGE_TOO_LARGE && is_too_large) expect(is_same(b), "what is too large changes nothing");
    if (answer == CAPNP_MESSAGE_TOO_LARGE && is_largest && !is_too_large) {
        expect(is_cleared(b, (size_t)p.at + p.data_words + index), "the largest lists leave the pointer null, and change nothing else");
    }
}

/* The list of `count` bytes, those of the content and zeros, is behind the message, and the pointer leads there. All other
 * bytes are as before. The pointer was null. */
static void listed(const struct buffer *b, size_t pointer, const uint8_t *content, size_t size, size_t count) {
    uint8_t wanted[ROOM];
    size_t words = (count + 7) / 8, i;
    uint64_t word = 1 | (uint64_t)(uint32_t)((b->was - (uint32_t)pointer - 1) << 2) | (uint64_t)2 << 32 | (uint64_t)count << 35;
    memcpy(wanted, b->old, b->room);
    for (i = 0; i < 8; i++) wanted[8 * pointer + i] = (uint8_t)(word >> (8 * i));
    for (i = 0; i < 8 * words; i++) wanted[8 * (size_t)b->was + i] = i < size ? content[i] : 0;
    expect(b->used == b->was + words && memcmp(wanted, b->bytes, b->room) == 0, "bytes and their pointer are written");
}

static bool is_null(const struct buffer *b, size_t pointer) {
    static const uint8_t zeros[8];
    return memcmp(b->old + 8 * pointer, zeros, 8) == 0;
}

static void set_bytes(struct buffer *b) {
    uint8_t content[80];
    size_t size = below(sizeof content + 1), i;
    uint64_t pointer = below(8) ? below(30) : below(2) ? some() : any();
    bool is_placed = is_message(b) && pointer < b->was, is_text = below(2);
    uint32_t answer;
    for (i = 0; i < sizeof content; i++) content[i] = (uint8_t)any();
    if (is_text) answer = capnp_layout_set_text(b->bytes, b->room, &b->used, pointer, content, size);
    else answer = capnp_layout_set_data(b->bytes, b->room, &b->used, pointer, content, size);
    answered(b, answer, is_placed);
    expect(answer != CAPNP_MESSAGE_TOO_LARGE, "nothing short is too large");
    if (answer == 0 && is_null(b, (size_t)pointer)) listed(b, (size_t)pointer, content, size, size + is_text);
    if (is_placed && answer != 0) expect((size + is_text + 7) / 8 > b->room / 8 - b->was, "bytes are refused only without room");
}

static void set_pointer(struct buffer *b, struct capnp_struct_at p) {
    uint64_t place = capnp_place(p);
    uint16_t index = few();
    bool is_placed = has_struct(b, p) && index < p.pointers;
    uint32_t answer;
    if (below(2)) answer = capnp_layout_clear(b->bytes, b->room, b->used, place, index);
    else answer = capnp_layout_set_capability(b->bytes, b->room, b->used, place, index, some());
    answered(b, answer, is_placed);
    expect(answer != CAPNP_MESSAGE_TOO_LARGE, "no pointer is too large");
}

static void round_of(void) {
    struct buffer b;
    int i;
    b.room = below(ROOM + 1);
    b.bytes = (uint8_t *)malloc(b.room ? b.room : 1);
    if (!b.bytes) abort();
    for (i = 0; i < (int)b.room; i++) b.bytes[i] = below(4) ? 0 : (uint8_t)any();
    b.used = below(4) ? below((uint32_t)b.room / 8 + 1) : some();
    if (below(2)) {
        b.was = b.used;
        memcpy(b.old, b.bytes, b.room);
        if (capnp_layout_start(b.bytes, b.room, &b.used) != 0) expect(b.room < 8 && is_same(&b), "a start is refused without room");
    }
    for (i = 0; i < CALLS; i++) {
        struct capnp_struct_at p = {below(8) ? below(30) : some(), few(), few()};
        if (below(4) == 0) p.at = 0, p.data_words = 0, p.pointers = 1;
        b.was = b.used;
        memcpy(b.old, b.bytes, b.room);
        switch (below(5)) {
        case 0: set_field(&b, p); break;
        case 1: set_element(&b); break;
        case 2: set_bytes(&b); break;
        case 3: set_pointer(&b, p); break;
        default: make(&b, p); break;
        }
    }
    free(b.bytes);
}

int main(int argc, char **argv) {
    long rounds = argc > 1 ? atol(argv[1]) : 20000;
    int i;
    if (argc > 2) state ^= (uint64_t)atol(argv[2]) * UINT64_C(0x9e3779b97f4a7c15);
    while (rounds-- > 0) round_of();
    for (i = 0; i < 100; i++) {
        if (answers[i]) printf("answer %d: %lu\n", i, answers[i]);
    }
    printf("%lu passed, %lu failed\n", passed, failed);
    return failed != 0;
}
