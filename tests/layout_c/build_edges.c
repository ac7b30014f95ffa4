/* Tests each function of capnp_layout.h that builds, at its edges: each width at each offset around the end of the data, each
 * kind of list, each index around the last, defaults, refusals, the room that a refused call wants, opening and widening.
 * What was built is read again by the functions of the same header that read. Each buffer is a block of its own size, so
 * that the address sanitizer sees a write outside of it.
 *
 *     build_edges
 *
 * The last line is `N passed, M failed`. */
#include <inttypes.h>
#include <stdio.h>
#include <stdlib.h>

#include "capnp_layout.h"

static unsigned long passed, failed;

static void expect(bool is_so, const char *what, uint32_t at) {
    if (is_so) {
        passed++;
    } else if (failed++ < 20) {
        printf("FAILED: %s, at %" PRIu32 "\n", what, at);
    }
}

/* A buffer that isn't zero. */
static uint8_t *block(size_t size) {
    uint8_t *bytes = (uint8_t *)malloc(size ? size : 1);
    if (!bytes) abort();
    memset(bytes, 0xaa, size);
    return bytes;
}

/* The message that was built, for reading. */
static struct capnp_struct read_root(struct capnp_message *message, struct capnp_segment *segment, const struct capnp_builder *built) {
    segment->bytes = built->bytes;
    segment->size = 8 * (uint64_t)built->used;
    capnp_open(message, segment, 1);
    return capnp_root(message);
}

#define FIELD(NAME, TYPE, VALUE, MISSING)                                                             \
    do {                                                                                              \
        bool is_there = offset % sizeof(TYPE) == 0 && offset + sizeof(TYPE) <= 8u * data_words;       \
        capnp_start(&message, buffer, size);                                                          \
        root = capnp_init_root(&message, data_words, 0);                                              \
        capnp_set_##NAME(&root, offset, VALUE, MISSING);                                              \
        expect(message.refusal == (is_there ? 0u : (uint32_t)CAPNP_NO_SUCH_PLACE), #NAME, offset);    \
        read = read_root(&from, &segment, &message);                                                  \
        if (is_there) expect(capnp_get_##NAME(&read, offset, MISSING) == VALUE, #NAME " read", offset); \
        if (is_there) expect(capnp_get_##NAME(&read, offset, 0) == (TYPE)(VALUE ^ MISSING), #NAME " without its default", offset); \
    } while (0)

static void fields(void) {
    size_t size = 8 + 8 * 5;
    uint8_t *buffer = block(size);
    struct capnp_builder message;
    struct capnp_struct_builder root;
    struct capnp_message from;
    struct capnp_segment segment;
    struct capnp_struct read;
    uint16_t data_words;
    uint32_t offset;
    for (data_words = 0; data_words < 4; data_words++) {
        for (offset = 0; offset < 8u * data_words + 18; offset++) {
            FIELD(u8, uint8_t, 0xa5, 0x0f);
            FIELD(u16, uint16_t, 0xa5c3, 0x1234);
            FIELD(u32, uint32_t, 0xa5c3f00du, 0x12345678u);
            FIELD(u64, uint64_t, UINT64_C(0xa5c3f00d12345678), UINT64_C(0x1122334455667788));
            FIELD(i8, int8_t, -5, 17);
            FIELD(i16, int16_t, -555, 1717);
            FIELD(i32, int32_t, -55555, 171717);
            FIELD(i64, int64_t, INT64_C(-5555555555), INT64_C(1717171717));
        }
        for (offset = 0; offset < 64u * data_words + 70; offset++) {
            bool is_there = offset < 64u * data_words, missing = offset & 1;
            capnp_start(&message, buffer, size);
            root = capnp_init_root(&message, data_words, 0);
            capnp_set_bool(&root, offset, offset % 3 == 0, missing);
            expect(message.refusal == (is_there ? 0u : (uint32_t)CAPNP_NO_SUCH_PLACE), "bool", offset);
            read = read_root(&from, &segment, &message);
            if (is_there) expect(capnp_get_bool(&read, offset, missing) == (offset % 3 == 0), "bool read", offset);
        }
    }
    capnp_start(&message, buffer, size);
    root = capnp_init_root(&message, 2, 0);
    capnp_set_f32(&root, 4, 1.5f, 0x3f800000);
    capnp_set_f64(&root, 8, -2.25, 0);
    read = read_root(&from, &segment, &message);
    expect(capnp_get_f32(&read, 4, 0x3f800000) == 1.5f && capnp_get_f64(&read, 8, 0) == -2.25, "floats", 0);
    for (offset = UINT32_MAX - 9; offset != 0; offset++) {
        capnp_start(&message, buffer, size);
        root = capnp_init_root(&message, 3, 0);
        capnp_set_u8(&root, offset, 1, 0);
        expect(message.refusal == CAPNP_NO_SUCH_PLACE, "far out", offset);
    }
    free(buffer);
}

#define ELEMENTS(NAME, TYPE, SIZE, VALUE)                                                                   \
    do {                                                                                                    \
        capnp_start(&message, buffer, size);                                                                \
        root = capnp_init_root(&message, 0, 1);                                                             \
        list = capnp_init_list(&root, 0, SIZE, count);                                                      \
        for (i = 0; i < count; i++) capnp_set_element_##NAME(&list, i, (TYPE)(VALUE));                      \
        expect(message.refusal == 0, "list of " #NAME, count);                                              \
        read = read_root(&from, &segment, &message);                                                        \
        items = capnp_get_list(&read, 0, SIZE);                                                             \
        expect(capnp_count(&items) == count, "count of " #NAME, count);                                     \
        for (i = 0; i < count; i++) expect(capnp_element_##NAME(&items, i) == (TYPE)(VALUE), "element of " #NAME, i); \
        capnp_set_element_##NAME(&list, count, (TYPE)1);                                                    \
        expect(message.refusal == CAPNP_NO_SUCH_PLACE, "element after the end of " #NAME, count);           \
        message.refusal = 0;                                                                                \
        list.size = CAPNP_VOID;                                                                             \
        capnp_set_element_##NAME(&list, 0, (TYPE)1);                                                        \
        expect(message.refusal == CAPNP_NO_SUCH_PLACE, "element of another width", count);                  \
    } while (0)

static void lists(void) {
    size_t size = 400;
    uint8_t *buffer = block(size);
    struct capnp_builder message;
    struct capnp_struct_builder root, element;
    struct capnp_list_builder list;
    struct capnp_message from;
    struct capnp_segment segment;
    struct capnp_struct read;
    struct capnp_list items;
    struct capnp_text text;
    struct capnp_data data;
    uint32_t count, i;
    for (count = 0; count < 20; count++) {
        ELEMENTS(u8, uint8_t, CAPNP_BYTE, i * 37 + 1);
        ELEMENTS(u16, uint16_t, CAPNP_TWO_BYTES, i * 3777 + 1);
        ELEMENTS(u32, uint32_t, CAPNP_FOUR_BYTES, i * 377777777u + 1);
        ELEMENTS(u64, uint64_t, CAPNP_EIGHT_BYTES, i * UINT64_C(3777777777777) + 1);
        ELEMENTS(i8, int8_t, CAPNP_BYTE, i - 9);
        ELEMENTS(i16, int16_t, CAPNP_TWO_BYTES, i - 9);
        ELEMENTS(i32, int32_t, CAPNP_FOUR_BYTES, i - 9);
        ELEMENTS(i64, int64_t, CAPNP_EIGHT_BYTES, i - UINT64_C(9));
        ELEMENTS(f32, float, CAPNP_FOUR_BYTES, (float)i * 0.5f);
        ELEMENTS(f64, double, CAPNP_EIGHT_BYTES, (double)i * 0.25);
        ELEMENTS(bool, bool, CAPNP_BIT, i % 3 == 0);
    }
    capnp_start(&message, buffer, size);
    root = capnp_init_root(&message, 0, 1);
    list = capnp_init_list(&root, 0, CAPNP_POINTER, 3);
    capnp_set_element_text(&list, 0, "text");
    capnp_set_element_data(&list, 1, "\1\2", 2);
    element = capnp_builder_element(&list, 0);
    capnp_set_data(&element, 0, NULL, 0);
    capnp_set_text_n(&element, 0, NULL, 0);
    capnp_set_text(&element, 0, "text");
    element = capnp_builder_element(&list, 2);
    capnp_init_list(&element, 0, CAPNP_VOID, 5);
    read = read_root(&from, &segment, &message);
    items = capnp_get_list(&read, 0, CAPNP_POINTER);
    text = capnp_element_text(&items, 0);
    data = capnp_element_data(&items, 1);
    expect(text.size == 4 && strcmp(text.text, "text") == 0, "text of a list", 0);
    expect(data.size == 2 && memcmp(data.bytes, "\1\2", 2) == 0, "data of a list", 1);
    items = capnp_element_list(&items, 2, CAPNP_VOID);
    expect(capnp_count(&items) == 5 && from.refusal == 0 && message.refusal == 0, "list of a list", 2);
    element = capnp_builder_element(&list, 3);
    capnp_set_text(&element, 0, "no");
    expect(message.refusal == CAPNP_NO_SUCH_PLACE, "pointer after the end", 3);
    for (i = 0; i < 6; i++) {
        capnp_start(&message, buffer, size);
        root = capnp_init_root(&message, 0, 1);
        list = capnp_init_struct_list(&root, 0, 3, 2, 1);
        element = capnp_builder_element(&list, i);
        capnp_set_u64(&element, 8, 77, 0);
        expect(message.refusal == (i < 3 ? 0u : (uint32_t)CAPNP_NO_SUCH_PLACE), "a field of an element", i);
        /* a place that starts in the message, and ends after it */
        message.refusal = 0;
        element.place.at = message.used - 3 + i;
        capnp_set_u64(&element, 8, 77, 0);
        expect(message.refusal == (i == 0 ? 0u : (uint32_t)CAPNP_NO_SUCH_PLACE), "a field of a struct at the end", i);
    }
    for (i = 0; i < 3; i++) {
        capnp_start(&message, buffer, size);
        root = capnp_init_root(&message, 0, 1);
        if (i == 0) capnp_init_list(&root, 0, CAPNP_BYTE, 0x20000000);
        if (i == 1) capnp_init_struct_list(&root, 0, 0x20000000, 0, 0);
        if (i == 2) capnp_init_struct_list(&root, 0, 0x10000, 0x1000, 0x1000);
        expect(message.refusal == CAPNP_MESSAGE_TOO_LARGE, "a list that is too large", i);
    }
    free(buffer);
}

/* A struct with 2 data words and 2 pointers is opened with each size up to 4 and 4. */
static void opening(void) {
    size_t size = 400;
    uint8_t *buffer = block(size);
    uint16_t d, p;
    for (d = 0; d < 5; d++) {
        for (p = 0; p < 5; p++) {
            struct capnp_builder message;
            struct capnp_struct_builder root, inner;
            struct capnp_message from;
            struct capnp_segment segment;
            struct capnp_struct read;
            capnp_start(&message, buffer, size);
            root = capnp_init_root(&message, 2, 2);
            capnp_set_u64(&root, 8, 77, 0);
            capnp_set_text(&root, 1, "kept");
            root = capnp_open_root(&message, d, p);
            expect(root.place.data_words == (d > 2 ? d : 2) && root.place.pointers == (p > 2 ? p : 2), "sizes of what is opened", d * 10u + p);
            inner = capnp_open_struct(&root, 0, d, p);
            expect(inner.place.data_words == d && inner.place.pointers == p, "sizes of a new struct", d * 10u + p);
            if (d > 0) capnp_set_u64(&inner, 8 * (d - 1u), 5, 0);
            capnp_set_capability(&root, 0, 9);
            capnp_clear(&root, (uint16_t)(root.place.pointers - 1));
            expect(message.refusal == 0, "opened", d * 10u + p);
            read = read_root(&from, &segment, &message);
            expect(capnp_get_u64(&read, 8, 0) == 77, "data of what is opened", d * 10u + p);
            expect(strcmp(capnp_get_text(&read, 1).text, p > 2 ? "kept" : "") == 0, "pointer of what is opened", d * 10u + p);
            expect(capnp_get_type(&read, 0) == CAPNP_TYPE_CAPABILITY && from.refusal == 0, "a capability", d * 10u + p);
            inner = capnp_open_struct(&root, 0, d, p);
            expect(message.refusal == CAPNP_MESSAGE_CONTAINS_NON_STRUCT_POINTER_WHERE_STRUCT_POINTER_WAS_EXPECTED, "a capability opened as a struct", d * 10u + p);
        }
    }
    free(buffer);
}

/* A list of each size is opened as one of each size. The numbers are those of elements' bits and pointers. */
static void opening_lists(void) {
    static const uint32_t bits[] = {0, 1, 8, 16, 32, 64, 0}, pointers[] = {0, 0, 0, 0, 0, 0, 1};
    size_t size = 400;
    uint8_t *buffer = block(size), *before = block(size);
    uint32_t made, asked;
    for (made = 0; made < 7; made++) {
        for (asked = 0; asked < 7; asked++) {
            struct capnp_builder message;
            struct capnp_struct_builder root;
            struct capnp_list_builder list, found;
            bool is_wide = bits[made] >= bits[asked] && pointers[made] >= pointers[asked];
            capnp_start(&message, buffer, size);
            root = capnp_init_root(&message, 1, 2);
            list = capnp_init_list(&root, 1, (enum capnp_size)made, 9);
            if (made == CAPNP_TWO_BYTES) capnp_set_element_u16(&list, 3, 7);
            memcpy(before, buffer, size);
            found = capnp_open_list(&root, 1, (enum capnp_size)asked);
            expect(message.refusal == (is_wide ? 0u : (uint32_t)CAPNP_EXISTING_LIST_VALUE_IS_INCOMPATIBLE_WITH_EXPECTED_TYPE), "a list opened", made * 10 + asked);
            expect(found.count == (is_wide ? 9u : 0u) && found.size == (enum capnp_size)(is_wide ? made : asked), "what is opened", made * 10 + asked);
            if (is_wide) expect(found.first.at == list.first.at, "where it is", made * 10 + asked);
            expect(memcmp(buffer, before, size) == 0, "opening changes nothing", made * 10 + asked);
            if (is_wide && made == CAPNP_TWO_BYTES) {
                capnp_set_element_i16(&found, 8, -2);
                expect(message.refusal == 0 && message.bytes[8 * (size_t)list.first.at + 16] == 0xfe, "an element of it", asked);
            }
            if (is_wide && made == CAPNP_POINTER) {
                capnp_set_element_text(&found, 8, "end");
                expect(message.refusal == 0 && message.used == list.first.at + 10u, "a pointer of it", asked);
            }
        }
    }
    free(before);
    free(buffer);
}

/* Lists of structs, of numbers and of pointers are opened as lists of structs with each size. */
static void widening_lists(void) {
    size_t size = 800;
    uint8_t *buffer = block(size);
    uint16_t d, p, kind;
    for (kind = 0; kind < 3; kind++) {
        for (d = 0; d < 4; d++) {
            for (p = 0; p < 4; p++) {
                struct capnp_builder message;
                struct capnp_struct_builder root, element;
                struct capnp_list_builder list;
                struct capnp_message from;
                struct capnp_segment segment;
                struct capnp_struct read;
                struct capnp_list items;
                uint16_t old_d = kind == 2 ? 0 : 1, old_p = kind == 1 ? 0 : 1;
                uint32_t at = kind * 100u + d * 10u + p, i, used;
                capnp_start(&message, buffer, size);
                root = capnp_init_root(&message, 0, 1);
                if (kind == 0) list = capnp_init_struct_list(&root, 0, 5, 1, 1);
                else list = capnp_init_list(&root, 0, kind == 1 ? CAPNP_TWO_BYTES : CAPNP_POINTER, 5);
                for (i = 0; i < 5; i++) {
                    element = capnp_builder_element(&list, i);
                    if (kind == 0) capnp_set_u16(&element, 0, (uint16_t)(i + 500), 0);
                    if (kind == 1) capnp_set_element_u16(&list, i, (uint16_t)(i + 500));
                    if (kind != 1) capnp_set_text(&element, 0, "kept");
                }
                used = message.used;
                list = capnp_open_struct_list(&root, 0, d, p);
                expect(message.refusal == 0 && list.count == 5 && list.size == CAPNP_STRUCT, "a list opened as structs", at);
                expect(list.first.data_words == (d > old_d ? d : old_d) && list.first.pointers == (p > old_p ? p : old_p), "its sizes", at);
                if (kind == 0 && d <= 1 && p <= 1) expect(message.used == used, "a list that is large enough stays", at);
                else expect(message.used == used + 1 + 5u * list.first.data_words + 5u * list.first.pointers, "the words of a list that is moved", at);
                element = capnp_builder_element(&list, 4);
                if (d > 1) capnp_set_u64(&element, 8u * (d - 1u), 99, 0);
                if (p > 1) capnp_set_text(&element, (uint16_t)(p - 1), "new");
                expect(message.refusal == 0, "a new field", at);
                read = read_root(&from, &segment, &message);
                items = capnp_get_list(&read, 0, CAPNP_STRUCT);
                expect(capnp_count(&items) == 5, "elements read", at);
                for (i = 0; i < 5; i++) {
                    read = capnp_get_element(&items, i);
                    if (kind != 2) expect(capnp_get_u16(&read, 0, 0) == i + 500, "numbers kept", at);
                    if (kind != 1) expect(strcmp(capnp_get_text(&read, 0).text, "kept") == 0, "texts kept", at);
                }
                if (d > 1) expect(capnp_get_u64(&read, 8u * (d - 1u), 0) == 99, "a new number read", at);
                if (p > 1) expect(strcmp(capnp_get_text(&read, (uint16_t)(p - 1)).text, "new") == 0, "a new text read", at);
                expect(from.refusal == 0, "no refusal", at);
            }
        }
    }
    free(buffer);
}

/* What isn't a list to open: null, a struct, bits as structs, structs as bits, and a full buffer. */
static void unopened(void) {
    size_t size = 400, room;
    uint8_t *buffer = block(size);
    struct capnp_builder message;
    struct capnp_struct_builder root, element;
    struct capnp_list_builder list;
    uint32_t used, i;
    capnp_start(&message, buffer, size);
    root = capnp_init_root(&message, 0, 4);
    used = message.used;
    list = capnp_open_list(&root, 0, CAPNP_FOUR_BYTES);
    expect(message.refusal == 0 && list.count == 0 && list.size == CAPNP_FOUR_BYTES && message.used == used, "null as a list", 0);
    list = capnp_open_struct_list(&root, 0, 2, 2);
    expect(message.refusal == 0 && list.count == 0 && list.size == CAPNP_STRUCT && message.used == used, "null as a list of structs", 0);
    capnp_set_text(&root, 0, "later");
    capnp_init_struct(&root, 1, 1, 0);
    capnp_init_list(&root, 2, CAPNP_BIT, 3);
    capnp_init_struct_list(&root, 3, 2, 1, 0);
    expect(message.refusal == 0, "objects", 0);
    for (i = 0; i < 7; i++) {
        static const uint32_t refusals[] = {
            CAPNP_EXISTING_POINTER_IS_NOT_A_LIST, CAPNP_EXISTING_POINTER_IS_NOT_A_LIST, CAPNP_FOUND_BIT_LIST_WHERE_STRUCT_LIST_WAS_EXPECTED,
            CAPNP_FOUND_STRUCT_LIST_WHERE_BIT_LIST_WAS_EXPECTED, CAPNP_EXISTING_LIST_VALUE_IS_INCOMPATIBLE_WITH_EXPECTED_TYPE,
            CAPNP_NO_SUCH_PLACE, CAPNP_NO_SUCH_PLACE,
        };
        message.refusal = 0;
        if (i == 0) capnp_open_list(&root, 1, CAPNP_BYTE);
        if (i == 1) capnp_open_struct_list(&root, 1, 0, 0);
        if (i == 2) capnp_open_struct_list(&root, 2, 0, 0);
        if (i == 3) capnp_open_list(&root, 3, CAPNP_BIT);
        if (i == 4) capnp_open_list(&root, 3, CAPNP_POINTER);
        if (i == 5) capnp_open_list(&root, 4, CAPNP_BYTE);
        if (i == 6) capnp_open_list(&root, 3, CAPNP_STRUCT);
        expect(message.refusal == refusals[i], "a list that isn't opened", i);
    }
    message.refusal = 0;
    list = capnp_open_list(&root, 3, CAPNP_TWO_BYTES);
    element = capnp_builder_element(&list, 1);
    capnp_set_u16(&element, 0, 5, 0);
    expect(message.refusal == 0 && list.size == CAPNP_STRUCT && list.count == 2, "structs opened as numbers", 0);
    free(buffer);
    /* A root, its pointer, a list of 5 numbers in 2 words; and structs of 2 and 1 words with their tag. */
    for (room = 8 * (4 + 16) - 1; room <= 8 * (4 + 16); room++) {
        buffer = block(room + 8);
        capnp_start(&message, buffer, room + 8);
        root = capnp_init_root(&message, 0, 1);
        list = capnp_init_list(&root, 0, CAPNP_TWO_BYTES, 5);
        list = capnp_open_struct_list(&root, 0, 2, 1);
        if (room == 8 * (4 + 16)) expect(message.refusal == 0 && list.count == 5, "exactly the room", 0);
        else expect(message.refusal == CAPNP_NO_ROOM && message.wanted == room + 1 && list.count == 0, "one byte less", 0);
        free(buffer);
    }
}

/* A canonical copy has the words that the rules of the format say, and no other. */
static void canonical(void) {
    static const uint8_t wanted[] = {
        0, 0, 0, 0, 1, 0, 1, 0, 5, 0, 0, 0, 0, 0, 0, 0, 1, 0, 0, 0, 0x1a, 0, 0, 0, 'h', 'i', 0, 0, 0, 0, 0, 0,
    };
    size_t size = 400, frame_size;
    uint8_t *buffer = block(size), *other = block(size);
    struct capnp_builder message, to;
    struct capnp_struct_builder root;
    struct capnp_message from;
    struct capnp_segment segment;
    struct capnp_struct read;
    capnp_start(&message, buffer, size);
    capnp_init_root(&message, 7, 7);
    root = capnp_init_root(&message, 3, 3);
    capnp_set_u8(&root, 0, 5, 0);
    capnp_set_text(&root, 0, "hi");
    read = read_root(&from, &segment, &message);
    capnp_start(&to, other, size);
    capnp_copy_root_canonical(&to, &from);
    expect(capnp_finish(&to, &frame_size) == other && frame_size == 8 + sizeof wanted && memcmp(other + 8, wanted, sizeof wanted) == 0, "a canonical copy", 0);
    capnp_start(&to, other, size);
    root = capnp_init_root(&to, 0, 2);
    capnp_copy_canonical(&root, 1, &read, 0);
    capnp_copy_canonical(&root, 0, &read, 3);
    expect(to.refusal == 0 && to.used == 4 && to.bytes[8 * 3] == 'h', "a canonical copy of a part", 0);
    root = capnp_root_pointer(&message);
    root = capnp_open_struct(&root, 0, 0, 0);
    capnp_set_capability(&root, 1, 4);
    read_root(&from, &segment, &message);
    capnp_start(&to, other, size);
    capnp_copy_root_canonical(&to, &from);
    expect(to.refusal == CAPNP_CANNOT_CREATE_A_CANONICAL_MESSAGE_WITH_A_CAPABILITY && from.refusal == to.refusal, "a capability", 0);
    free(other);
    free(buffer);
}

static void some_call(struct capnp_builder *message, int which) {
    struct capnp_struct_builder root = capnp_root_pointer(message);
    if (which == 0) capnp_init_root(message, 2, 3);
    if (which == 1) capnp_init_struct(&root, 0, 2, 3);
    if (which == 2) capnp_init_struct_list(&root, 0, 3, 1, 2);
    if (which == 3) capnp_init_list(&root, 0, CAPNP_BIT, 65);
    if (which == 4) capnp_set_text(&root, 0, "12345678");
    if (which == 5) capnp_set_data(&root, 0, "123456789", 9);
    if (which == 6) capnp_open_struct(&root, 0, 2, 3);
    if (which == 7) capnp_init_list(&root, 0, CAPNP_FOUR_BYTES, 3);
    if (which == 8) capnp_set_text(&root, 0, "");
}

/* A refused call names the room that is enough, and one byte less isn't. */
static void rooms(void) {
    int which;
    for (which = 0; which < 9; which++) {
        size_t wanted, room, frame_size;
        uint8_t *buffer = block(16);
        struct capnp_builder message;
        struct capnp_struct_builder root;
        capnp_start(&message, buffer, 16);
        some_call(&message, which);
        expect(message.refusal == CAPNP_NO_ROOM && message.wanted > 8, "no room", (uint32_t)which);
        wanted = (size_t)message.wanted;
        root = capnp_root_pointer(&message);
        capnp_clear(&root, 0);
        capnp_set_text(&root, 0, "");
        expect(message.refusal == CAPNP_NO_ROOM && message.used == 1 && !capnp_finish(&message, &frame_size) && frame_size == 0, "a refusal stays", (uint32_t)which);
        free(buffer);
        for (room = wanted - 1; room <= wanted; room++) {
            buffer = block(room + 8);
            capnp_start(&message, buffer, room + 8);
            some_call(&message, which);
            expect(message.refusal == (room < wanted ? (uint32_t)CAPNP_NO_ROOM : 0), "exactly the room that is wanted", (uint32_t)which);
            if (room == wanted) {
                const uint8_t *frame = capnp_finish(&message, &frame_size);
                expect(frame == buffer && frame_size == wanted + 8 && buffer[4] == message.used && buffer[5] == 0 && buffer[0] == 0, "a frame", (uint32_t)which);
            }
            free(buffer);
        }
    }
    for (which = 0; which < 18; which++) {
        uint8_t *buffer = block((size_t)which);
        struct capnp_builder message;
        capnp_start(&message, buffer, (size_t)which);
        expect(message.refusal == (which < 16 ? (uint32_t)CAPNP_NO_ROOM : 0), "a start", (uint32_t)which);
        free(buffer);
    }
}

static int grown;

static bool grow_once(struct capnp_builder *message, size_t wanted) {
    uint8_t *larger = block(wanted + 8);
    memcpy(larger, message->bytes - 8, 8 + 8 * (size_t)message->used);
    free(message->bytes - 8);
    message->bytes = larger + 8;
    message->room = wanted;
    return grown++ == 0;
}

/* A struct of 2 data words and 1 pointer, opened with 1 and 3, takes 5 more words, and so does one of 1 and 2, opened with 3
 * and 1: exactly that is wanted, however much room there is. */
static void rooms_to_move(void) {
    size_t room;
    for (room = 32; room <= 80; room++) {
        uint8_t *buffer = block(room + 8);
        int i;
        for (i = 0; i < 4; i++) {
            struct capnp_builder message;
            struct capnp_struct_builder root;
            bool has_data = i % 2 == 0;
            capnp_start(&message, buffer, room + 8);
            root = capnp_init_root(&message, has_data ? 2 : 1, has_data ? 1 : 2);
            grown = 0;
            if (i >= 2) message.grow = grow_once;
            root = capnp_open_root(&message, has_data ? 1 : 3, has_data ? 3 : 1);
            buffer = message.bytes - 8;
            if (room < 72 && i < 2) {
                expect(message.refusal == CAPNP_NO_ROOM && message.wanted == 72 && message.used == 4, "the room to move a struct", (uint32_t)room);
                expect(root.place.data_words == 0 && root.place.pointers == 0, "a struct that isn't opened", (uint32_t)room);
                continue;
            }
            expect(message.refusal == 0 && message.used == 9 && message.room == (room < 72 ? 72 : room), "a struct is moved", (uint32_t)room);
            expect(root.place.data_words == (has_data ? 2 : 3) && root.place.pointers == (has_data ? 3 : 2), "a struct that was moved", (uint32_t)room);
            if (i == 2) expect(grown == (room < 72), "the buffer grows once", (uint32_t)room);
        }
        free(buffer);
    }
}

int main(void) {
    fields();
    lists();
    opening();
    opening_lists();
    widening_lists();
    unopened();
    canonical();
    rooms();
    rooms_to_move();
    printf("%lu passed, %lu failed\n", passed, failed);
    return failed != 0;
}
