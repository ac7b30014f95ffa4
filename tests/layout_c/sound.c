/* Validates random messages, some of them mutated, with capnp_layout_validate, and on 64 bits with capnp_canonical_segments_validate and _locate, which
 * have to answer the same: the refusal, its place, and what reading the message takes. Then reads all of each sound message, by the
 * kind of what is found: nothing may be refused, and nothing be taken of the limit. To be run with sanitizers.
 *
 *     sound ROUNDS [SEED]
 *
 * The last line is `N passed, M failed`. */
#include <inttypes.h>
#include <stdlib.h>

#if UINTPTR_MAX == UINT64_MAX
#include "capnp_canonical.h"
#endif
#include "capnp_layout.h"
#include "made.h"

static unsigned long sound, objects;

static void read_pointer(struct capnp_message *message, uint64_t segment, uint32_t word, int32_t nesting);

/* Asking for another kind is refused for the kind, or for a capability below the last level. */
static void expect_another_kind(uint32_t refusal, int32_t nesting, const char *what) {
    expect((refusal >= CAPNP_EXPECTED_A_POINTER_LIST_BUT_GOT_A_LIST_OF_DATA_ONLY_STRUCTS && refusal <= CAPNP_FOUND_STRUCT_LIST_WHERE_BIT_LIST_WAS_EXPECTED) ||
               (refusal >= CAPNP_MESSAGE_CONTAINS_LIST_POINTER_OF_NON_BYTES_WHERE_DATA_WAS_EXPECTED &&
                refusal <= CAPNP_MESSAGE_CONTAINS_NULL_CAPABILITY_POINTER) ||
               refusal == CAPNP_MESSAGE_CONTAINS_TEXT_THAT_IS_NOT_NUL_TERMINATED ||
               (nesting < 1 && (refusal == CAPNP_MESSAGE_IS_TOO_DEEPLY_NESTED_OR_CONTAINS_CYCLES || refusal == CAPNP_NESTING_LIMIT_EXCEEDED)),
           what);
}

static void read_struct(struct capnp_message *message, const struct capnp_found_struct *at) {
    uint32_t i;
    for (i = 0; i < at->pointers; i++) read_pointer(message, at->segment, at->pointers_at + i, at->nesting);
}

static void read_bytes(struct capnp_message *message, uint64_t segment, uint32_t word, int32_t nesting) {
    struct capnp_found_bytes bytes;
    uint32_t refusal;
    expect(capnp_layout_data(&message->segments, &message->left, segment, word, nesting, &bytes) == 0, "data");
    refusal = capnp_layout_text(&message->segments, &message->left, segment, word, nesting, &bytes);
    expect(refusal == 0 || refusal == CAPNP_MESSAGE_CONTAINS_TEXT_THAT_IS_NOT_NUL_TERMINATED, "text");
}

static void read_list(struct capnp_message *message, uint64_t segment, uint32_t word, int32_t nesting) {
    struct capnp_list list;
    uint32_t i, refusal = capnp_layout_list(&message->segments, &message->left, segment, word, nesting, CAPNP_VOID, &list.at);
    list.message = message;
    if (refusal == CAPNP_FOUND_BIT_LIST_WHERE_STRUCT_LIST_WAS_EXPECTED) {
        refusal = capnp_layout_list(&message->segments, &message->left, segment, word, nesting, CAPNP_BIT, &list.at);
        for (i = 0; i < list.at.count; i++) capnp_element_bool(&list, i);
    }
    expect(refusal == 0, "list");
    if (list.at.data_bits == 8 && list.at.pointers == 0) read_bytes(message, segment, word, nesting);
    for (i = 0; i < list.at.count && (list.at.pointers || i < 8); i++) {
        struct capnp_struct element = capnp_get_element(&list, i);
        capnp_element_u64(&list, i);
        read_struct(message, &element.at);
    }
}

/* Reads what the pointer leads to by the call for its kind, and by the others. */
static void read_pointer(struct capnp_message *message, uint64_t segment, uint32_t word, int32_t nesting) {
    struct capnp_found_struct of;
    struct capnp_found_list list;
    uint32_t kind = 77, index = 77, refusal;
    expect(capnp_layout_type(&message->segments, &message->left, segment, word, &kind) == 0, "type");
    objects += kind != CAPNP_TYPE_NULL;
    refusal = capnp_layout_struct(&message->segments, &message->left, segment, word, nesting, &of);
    if (kind == CAPNP_TYPE_NULL || kind == CAPNP_TYPE_STRUCT) {
        expect(refusal == 0, "struct");
        read_struct(message, &of);
    } else {
        expect_another_kind(refusal, nesting, "no struct");
    }
    if (kind == CAPNP_TYPE_LIST) {
        read_list(message, segment, word, nesting);
    } else {
        refusal = capnp_layout_list(&message->segments, &message->left, segment, word, nesting, below(8), &list);
        if (kind == CAPNP_TYPE_NULL) {
            expect(refusal == 0, "null as a list");
        } else {
            expect_another_kind(refusal, nesting, "no list");
        }
    }
    refusal = capnp_layout_capability(&message->segments, segment, word, &index);
    /* a capability behind a far pointer isn't read, and isn't in upstream's readers */
    if (kind != CAPNP_TYPE_CAPABILITY) expect(refusal != 0, "no capability");
}

/* What the other library answers to the same message. */
static void expect_same(const struct capnp_segment *list, uint32_t count, int32_t nesting, uint64_t limit, uint64_t left, uint32_t refusal,
                        uint64_t segment, uint32_t word) {
#if UINTPTR_MAX == UINT64_MAX
    struct capnp_canonical_segment same[MOST];
    struct capnp_canonical_extent extent;
    struct capnp_canonical_pointer pointer;
    uint32_t i;
    for (i = 0; i < count; i++) {
        same[i].bytes = list[i].bytes;
        same[i].size = (size_t)list[i].size;
    }
    expect(capnp_canonical_segments_validate(same, count, nesting, limit, &extent) == refusal, "answer");
    if (refusal == 0) {
        expect(limit - left == extent.cost && segment == 0 && word == 0, "what is taken");
    } else {
        expect(capnp_canonical_segments_locate(same, count, nesting, limit, CAPNP_CANONICAL_READING_VALUE, &pointer) == CAPNP_CANONICAL_DONE &&
                   pointer.refusal == refusal && pointer.segment == segment && pointer.word == word,
               "place");
    }
#else
    (void)list, (void)count, (void)nesting, (void)word;
    expect(left <= limit && (refusal != 0 || segment == 0), "what is taken");
#endif
}

static void validate(const struct capnp_segment *list, uint32_t count) {
    struct capnp_message message;
    uint64_t limit = below(3) ? 5000 : below(60), left = limit, segment = 77;
    int32_t nesting = below(3) ? 64 : (int32_t)below(6);
    uint32_t word = 77, refusal;
    expect(capnp_open(&message, list, count) == 0, "open");
    refusal = capnp_layout_validate(&message.segments, &left, nesting, &segment, &word);
    expect_same(list, count, nesting, limit, left, refusal, segment, word);
    message.left = limit;
    message.nesting = nesting;
    expect(capnp_validate(&message) == refusal && message.refusal == refusal, "the refusal that is kept");
    if (refusal == 0) {
        sound++;
        expect(message.left == CAPNP_NO_LIMIT, "no limit");
        read_pointer(&message, 0, 0, nesting);
        expect(message.left == CAPNP_NO_LIMIT && message.refusal == 0, "nothing is taken");
    } else {
        expect(message.left == limit && message.refused_segment == segment && message.refused_word == word, "what is kept");
        expect(capnp_validate(&message) == refusal, "the refusal again");
    }
}

static void message(void) {
    struct capnp_segment list[MOST];
    uint32_t i, k;
    make();
    for (i = 0; i < segments; i++) {
        uint8_t *bytes = (uint8_t *)malloc(8 * used[i] + 1);
        if (!bytes) abort();
        memcpy(bytes, made[i], 8 * used[i]);
        list[i].bytes = bytes;
        list[i].size = 8 * used[i];
    }
    for (k = 0; k < 4; k++) validate(list, segments);
    for (i = 0; i < segments; i++) free((void *)(uintptr_t)list[i].bytes);
}

int main(int given, char **words) {
    long rounds = given > 1 ? atol(words[1]) : 1000, round;
    if (given > 2) state ^= strtoull(words[2], NULL, 10) * UINT64_C(0x9e3779b97f4a7c15);
    for (round = 0; round < rounds; round++) message();
    printf("%lu sound, with %lu objects\n%lu passed, %lu failed\n", sound, objects, passed, failed);
    return failed != 0;
}
