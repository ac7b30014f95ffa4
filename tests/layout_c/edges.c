/* Tests each function of capnp_layout.h that loads a field or an element, at its edges: each width, each offset around the
 * end of the data, each kind of list, each index around the last. What is expected is put together from single bytes.
 * Each section is a block of its own size, so that the address sanitizer sees a read outside of it.
 *
 *     edges
 *
 * The last line is `N passed, M failed`. */
#include <inttypes.h>
#include <stdio.h>
#include <stdlib.h>

#include "capnp_layout.h"

static unsigned long passed, failed;

static void expect(bool is_so, const char *what, uint32_t size, uint32_t at) {
    if (is_so) {
        passed++;
    } else if (failed++ < 20) {
        printf("FAILED: %s, %" PRIu32 " bytes or elements, at %" PRIu32 "\n", what, size, at);
    }
}

static uint64_t state = UINT64_C(88172645463325252);

static uint64_t any(void) {
    state ^= state << 13;
    state ^= state >> 7;
    state ^= state << 17;
    return state;
}

static uint8_t *block(uint32_t size) {
    uint8_t *bytes = (uint8_t *)malloc(size ? size : 1);
    uint32_t i;
    if (!bytes) abort();
    for (i = 0; i < size; i++) bytes[i] = (uint8_t)any();
    return bytes;
}

/* The number in `width` bytes, the lowest first. */
static uint64_t number(const uint8_t *bytes, uint32_t width) {
    uint64_t value = 0;
    while (width-- > 0) value = value << 8 | bytes[width];
    return value;
}

static uint64_t low(uint64_t value, uint32_t width) { return width == 8 ? value : value & ((UINT64_C(1) << 8 * width) - 1); }

/* The value that a field of `width` bytes at `offset` should have. */
static uint64_t field(const struct capnp_struct *of, uint32_t offset, uint32_t width, uint64_t missing) {
    bool is_there = (uint64_t)offset + width <= of->at.size;
    return low(missing ^ (is_there ? number(of->at.data + offset, width) : 0), width);
}

static uint32_t bits_of_float(float value) {
    uint32_t bits;
    memcpy(&bits, &value, sizeof bits);
    return bits;
}

static uint64_t bits_of_double(double value) {
    uint64_t bits;
    memcpy(&bits, &value, sizeof bits);
    return bits;
}

static void fields_at(const struct capnp_struct *of, uint32_t offset) {
    uint32_t size = (uint32_t)of->at.size;
    uint64_t missing = any();
    uint32_t i;
    expect(capnp_get_u8(of, offset, (uint8_t)missing) == field(of, offset, 1, missing), "u8", size, offset);
    expect(capnp_get_u16(of, offset, (uint16_t)missing) == field(of, offset, 2, missing), "u16", size, offset);
    expect(capnp_get_u32(of, offset, (uint32_t)missing) == field(of, offset, 4, missing), "u32", size, offset);
    expect(capnp_get_u64(of, offset, missing) == field(of, offset, 8, missing), "u64", size, offset);
    expect((uint8_t)capnp_get_i8(of, offset, (int8_t)missing) == field(of, offset, 1, missing), "i8", size, offset);
    expect((uint16_t)capnp_get_i16(of, offset, (int16_t)missing) == field(of, offset, 2, missing), "i16", size, offset);
    expect((uint32_t)capnp_get_i32(of, offset, (int32_t)missing) == field(of, offset, 4, missing), "i32", size, offset);
    expect((uint64_t)capnp_get_i64(of, offset, (int64_t)missing) == field(of, offset, 8, missing), "i64", size, offset);
    /* a signalling NaN may become a quiet one on the way through a register of an x87 */
    expect(((bits_of_float(capnp_get_f32(of, offset, (uint32_t)missing)) ^ field(of, offset, 4, missing)) & ~UINT32_C(0x400000)) == 0, "f32", size, offset);
    expect(((bits_of_double(capnp_get_f64(of, offset, missing)) ^ field(of, offset, 8, missing)) & ~UINT64_C(0x8000000000000)) == 0, "f64", size, offset);
    for (i = 0; i < 8; i++) {
        uint64_t byte = field(of, offset, 1, 0);
        expect(capnp_get_bool(of, offset * 8 + i, false) == ((byte >> i) & 1), "bool", size, offset * 8 + i);
        expect(capnp_get_bool(of, offset * 8 + i, true) == !((byte >> i) & 1), "bool with a default", size, offset * 8 + i);
    }
}

static void fields(void) {
    uint32_t size, offset;
    for (size = 0; size <= 40; size++) {
        struct capnp_struct of;
        uint8_t *bytes = block(size);
        memset(&of, 0, sizeof of);
        of.at.data = bytes;
        of.at.size = size;
        for (offset = 0; offset <= size + 10; offset++) fields_at(&of, offset);
        /* offsets near 2^32 don't wrap around */
        for (offset = 0; offset < 20; offset++) {
            expect(capnp_get_u64(&of, UINT32_MAX - offset, 7) == 7, "u64 far out", size, UINT32_MAX - offset);
            expect(capnp_get_u8(&of, UINT32_MAX - offset, 7) == 7, "u8 far out", size, UINT32_MAX - offset);
            expect(capnp_get_bool(&of, UINT32_MAX - offset, true), "bool far out", size, UINT32_MAX - offset);
        }
        free(bytes);
    }
}

static void element_at(const struct capnp_list *of, uint32_t index) {
    uint32_t count = of->at.count, bytes = of->at.data_bits / 8, step = bytes + 8u * of->at.pointers;
    bool is_there = index < count;
    const uint8_t *at = is_there ? of->at.data + (size_t)index * step : NULL;
    struct capnp_struct element = capnp_get_element(of, index);
    expect(element.message == of->message, "message of element", count, index);
    expect(element.at.size == (is_there ? bytes : 0), "size of element", count, index);
    expect(element.at.pointers == (is_there ? of->at.pointers : 0), "pointers of element", count, index);
    if (is_there) {
        expect(element.at.data == at, "data of element", count, index);
        expect(element.at.segment == of->at.segment && element.at.nesting == of->at.nesting, "place of element", count, index);
        if (of->at.pointers) expect(element.at.pointers_at == of->at.at + (index * step + bytes) / 8, "pointers_at", count, index);
    }
#define ELEMENT(NAME, WIDTH, BITS)                                                                                     \
    expect((BITS) == (is_there && bytes >= WIDTH ? number(at, WIDTH) : 0), "element " #NAME, count, index)
    ELEMENT(u8, 1, capnp_element_u8(of, index));
    ELEMENT(u16, 2, capnp_element_u16(of, index));
    ELEMENT(u32, 4, capnp_element_u32(of, index));
    ELEMENT(u64, 8, capnp_element_u64(of, index));
    ELEMENT(i8, 1, (uint8_t)capnp_element_i8(of, index));
    ELEMENT(i16, 2, (uint16_t)capnp_element_i16(of, index));
    ELEMENT(i32, 4, (uint32_t)capnp_element_i32(of, index));
    ELEMENT(i64, 8, (uint64_t)capnp_element_i64(of, index));
    expect(((bits_of_float(capnp_element_f32(of, index)) ^ (is_there && bytes >= 4 ? number(at, 4) : 0)) & ~UINT32_C(0x400000)) == 0, "element f32", count, index);
    expect(((bits_of_double(capnp_element_f64(of, index)) ^ (is_there && bytes >= 8 ? number(at, 8) : 0)) & ~UINT64_C(0x8000000000000)) == 0, "element f64", count, index);
    if (of->at.data_bits == 1) {
        bool bit = is_there && ((of->at.data[index / 8] >> (index % 8)) & 1);
        expect(capnp_element_bool(of, index) == bit, "element bool", count, index);
    } else {
        expect(!capnp_element_bool(of, index), "bool of another list", count, index);
    }
}

static void elements(void) {
    static const struct {
        uint32_t bits;
        uint16_t pointers;
    } kinds[] = {{0, 0}, {1, 0}, {8, 0}, {16, 0}, {32, 0}, {64, 0}, {0, 1}, {64, 1}, {64, 3}, {128, 0}, {192, 2}, {0, 4}};
    uint32_t kind, count, index;
    for (kind = 0; kind < sizeof kinds / sizeof *kinds; kind++) {
        for (count = 0; count <= 70; count += count < 20 ? 1 : 5) {
            struct capnp_list of;
            struct capnp_message message;
            uint32_t words = (uint32_t)(((uint64_t)count * (kinds[kind].bits + 64u * kinds[kind].pointers) + 63) / 64);
            uint8_t *bytes = block(8 * words);
            memset(&of, 0, sizeof of);
            of.message = &message;
            of.at.data = bytes;
            of.at.size = 8 * words;
            of.at.segment = any();
            of.at.at = (uint32_t)(any() % 1000);
            of.at.count = count;
            of.at.data_bits = kinds[kind].bits;
            of.at.pointers = kinds[kind].pointers;
            of.at.nesting = 5;
            expect(capnp_count(&of) == count, "count", count, 0);
            for (index = 0; index < count + 3; index++) element_at(&of, index);
            element_at(&of, UINT32_MAX);
            element_at(&of, UINT32_MAX / 2);
            free(bytes);
        }
    }
}

/* The pointers of a struct at the end of a segment: null ones, others, and those that the struct doesn't have. */
static void pointers(void) {
    uint32_t count, index;
    for (count = 0; count <= 9; count++) {
        uint8_t *bytes = block(8 * (count + 1));
        struct capnp_segment segment = {bytes, 8 * (count + 1)};
        struct capnp_message message;
        struct capnp_struct root;
        uint64_t word = (uint64_t)count << 48;
        for (index = 0; index < count; index++) {
            if (index % 2) memset(bytes + 8 * (index + 1), 0, 8);
        }
        memcpy(bytes, &word, 8);
        expect(capnp_open(&message, &segment, 1) == 0, "open", count, 0);
        root = capnp_root(&message);
        expect(message.refusal == 0 && root.at.pointers == count && (count == 0 || root.at.pointers_at == 1), "root", count, 0);
        for (index = 0; index < count + 3; index++) {
            expect(capnp_has(&root, (uint16_t)index) == (index < count && index % 2 == 0), "has", count, index);
        }
        expect(!capnp_has(&root, UINT16_MAX), "has", count, UINT16_MAX);
        free(bytes);
    }
}

static bool is_text(const char *one, const char *other) { return strcmp(one, other) == 0; }

/* capnp_check by tables at its edges, and the name of what it refuses. The message is a struct with two pointers: to a struct
 * without sections, and a capability. */
static void checks(void) {
    static const struct capnp_field_name names[] = {{1, 0, "Root.inner"}, {1, 1, "Root.service or Root.other"}, {0, 0, 0}};
    static const struct capnp_field_name none[] = {{0, 0, 0}};
    static const uint64_t words[] = {UINT64_C(2) << 48, UINT64_C(0xfffffffc), 3};
    static const uint32_t right[] = {0, 2, 5, 1}, texts[] = {0, 2, 2, 1}, structs[] = {0, 2, 5, 5}, cut[] = {0, 2, 5}, any_row[] = {7, 7, 7, 7, 7, 7, 7, 7};
    struct capnp_segment segment = {(const uint8_t *)words, sizeof words};
    struct capnp_message message;
    capnp_open(&message, &segment, 1);
    expect(capnp_check(&message, right, 4, 1) == 0 && message.left == CAPNP_NO_LIMIT && is_text(capnp_refused_name(&message, "Root", names), ""), "a yes", 4, 1);
    expect(capnp_check(&message, texts, 4, 1) == CAPNP_MESSAGE_CONTAINS_NON_LIST_POINTER_WHERE_TEXT_WAS_EXPECTED && message.refused_word == 1 &&
               message.refused_row == 1 && message.refused_index == 0 && is_text(capnp_refused_name(&message, "Root", names), "Root.inner"),
           "a text", 4, 1);
    expect(capnp_check(&message, right, 4, 1) == CAPNP_MESSAGE_CONTAINS_NON_LIST_POINTER_WHERE_TEXT_WAS_EXPECTED, "the refusal is kept", 4, 1);
    expect(message.left == CAPNP_NO_LIMIT, "and the limit", 4, 1);
    capnp_open(&message, &segment, 1);
    expect(capnp_check(&message, structs, 4, 1) == CAPNP_MESSAGE_CONTAINS_NON_STRUCT_POINTER_WHERE_STRUCT_POINTER_WAS_EXPECTED &&
               message.left == CAPNP_WORDS && is_text(capnp_refused_name(&message, "Root", names), "Root.service or Root.other") &&
               is_text(capnp_refused_name(&message, "Root", none), "an unknown field"),
           "a struct", 4, 1);
    capnp_open(&message, &segment, 1);
    expect(capnp_check(&message, cut, 3, 1) == 0, "a table that is cut", 3, 1);
    capnp_open(&message, &segment, 1);
    expect(capnp_check(&message, right, 4, 4) == 0 && capnp_check(&message, right, 4, UINT32_MAX) == 0, "a row after the end", 4, 4);
    expect(capnp_check(&message, NULL, 0, 0) == 0 && capnp_check(&message, NULL, 0, 1) == 0, "no table", 0, 0);
    expect(capnp_check(&message, any_row, 8, 0) == 0, "tests of tests", 8, 0);
    message.nesting = 0;
    expect(capnp_check(&message, right, 4, 1) == CAPNP_MESSAGE_IS_TOO_DEEPLY_NESTED_OR_CONTAINS_CYCLES && is_text(capnp_refused_name(&message, "Root", names), "Root"),
           "no level", 4, 1);
    capnp_open(&message, &segment, 1);
    message.left = 3;
    expect(capnp_check(&message, right, 4, 1) == 0, "as many words as it takes", 4, 1);
    capnp_open(&message, &segment, 1);
    message.left = 2;
    expect(capnp_check(&message, right, 4, 1) == CAPNP_READ_LIMIT_EXCEEDED && message.left == 2, "one word less", 4, 1);
    capnp_open(&message, NULL, 0);
    expect(capnp_check(&message, right, 4, 1) == CAPNP_INVALID_SEGMENT_ID && is_text(capnp_refused_name(&message, "Root", names), "Root"), "no segment", 4, 1);
}

int main(void) {
    fields();
    elements();
    pointers();
    checks();
    printf("%lu passed, %lu failed\n", passed, failed);
    return failed != 0;
}
