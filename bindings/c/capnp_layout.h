/* Readers of Cap'n Proto messages for C and C++: the values of a message, read in place, without copies, without malloc
 * and without global state.
 *
 * The functions capnp_layout_* are in the library, and proved. The others are small functions of this header: they keep
 * the first refusal, go from an object to its pointers, and load fields and elements.
 *
 * A message is an array of segments, which you own and keep while you read. Every value, text and reader points into it,
 * and nothing is freed. Readers are values: copy them as you like.
 *
 * Refusals. A message is checked while it is read. A function that reads a pointer never fails: if the pointer can't be
 * read, it returns an empty struct, list, text or data, and the message keeps the number and the place of the first
 * refusal. So read everything, and then test `refusal` once. A field that its struct doesn't have, a null pointer and an
 * element after the end of a list have the default value. That isn't a refusal.
 *
 * Limits. Reading an object takes its words from `left`, each time that it is read, so a short message can't make a caller
 * read for long. `nesting` limits how deep structs and lists are nested. Or call capnp_validate first: it checks the whole
 * message once, and then reading takes nothing, and is refused only if the message has another kind of object than you
 * ask for. Or call capnp_check with the table of a schema, which capnpc-layout-c writes: then nothing is refused that the
 * schema has.
 *
 * What you have to keep. `bytes` and `size` of each segment are true, nothing changes the bytes while you read, and what a
 * function writes to overlaps nothing else that you pass to it. Use only structs and lists that these functions returned,
 * with the message that they were read from. A pointer to bytes or segments may be null if their number is 0. */
#ifndef CAPNP_LAYOUT_H
#define CAPNP_LAYOUT_H

#include <stdbool.h>
#include <stddef.h>
#include <stdint.h>
#include <string.h>

#if defined(__BYTE_ORDER__) && defined(__ORDER_LITTLE_ENDIAN__)
#if __BYTE_ORDER__ != __ORDER_LITTLE_ENDIAN__
#error "capnp_layout needs a little-endian machine"
#endif
#endif

/* The version of this header's interface. Headers that capnpc-layout-c has generated for another version don't compile. */
#define CAPNP_LAYOUT_MAJOR 1

/* Functions defined in this header, not in the library. The second kind isn't made part of its callers. */
#define CAPNP_INLINE static inline
#ifdef __GNUC__
#define CAPNP_SELDOM static __attribute__((cold, noinline, unused))
#else
#define CAPNP_SELDOM static inline
#endif

#ifdef __cplusplus
extern "C" {
#endif

/* The default limits of a message, those of C++ and Rust. */
#define CAPNP_NESTING 64
#define CAPNP_WORDS UINT64_C(8388608)

/* As `left`: no traversal limit. Reading takes nothing. */
#define CAPNP_NO_LIMIT UINT64_MAX

/* In the structs that the library reads or writes, a pointer takes 8 bytes on every machine. On one of 32 bits the last 4
 * are unused; this is CAPNP_CANONICAL_SLOTS_OF_8 of the generated C. */
#if UINTPTR_MAX == UINT64_MAX
#define CAPNP_LAYOUT_UPPER
#else
#define CAPNP_LAYOUT_UPPER unsigned int : 32;
#endif
#define CAPNP_LAYOUT_SIZE(TYPE, BYTES) typedef char TYPE##_has_##BYTES##_bytes[sizeof(struct TYPE) == (BYTES) ? 1 : -1]

/* What a call returns: the numbers of enum capnp_canonical_answer in capnp_canonical.h, which never change their meaning. */
enum capnp_refusal {
    CAPNP_DONE = 0,
    /* The frame has more segments than there is room for; the call stores their number. Or the buffer has no room for what
     * is built. */
    CAPNP_NO_ROOM = 1,
    /* There are no bytes where a frame was expected. */
    CAPNP_NO_MESSAGE = 2,
    /* The frame has more than 512 segments. */
    CAPNP_TOO_MANY_SEGMENTS = 17,
    /* The frame has more words than the limit. */
    CAPNP_MESSAGE_TOO_LONG = 18,
    /* The bytes end inside the frame. */
    CAPNP_TRUNCATED = 19,
    /* The value has a capability, which a canonical copy can't have. */
    CAPNP_CANNOT_CREATE_A_CANONICAL_MESSAGE_WITH_A_CAPABILITY = 33,
    /* The elements of the list that is opened are narrower than expected. From capnp_check: a text isn't UTF-8. */
    CAPNP_EXISTING_LIST_VALUE_IS_INCOMPATIBLE_WITH_EXPECTED_TYPE = 36,
    /* A list is opened, and the pointer leads to something else. */
    CAPNP_EXISTING_POINTER_IS_NOT_A_LIST = 37,
    /* A list of pointers was expected, and the elements are structs without pointers. */
    CAPNP_EXPECTED_A_POINTER_LIST_BUT_GOT_A_LIST_OF_DATA_ONLY_STRUCTS = 38,
    /* A list of numbers was expected, and the elements are structs without data. */
    CAPNP_EXPECTED_A_PRIMITIVE_LIST_BUT_GOT_A_LIST_OF_POINTER_ONLY_STRUCTS = 39,
    /* A list of bits where another list was expected. */
    CAPNP_FOUND_BIT_LIST_WHERE_STRUCT_LIST_WAS_EXPECTED = 40,
    /* A list of structs where a list of bits was expected. */
    CAPNP_FOUND_STRUCT_LIST_WHERE_BIT_LIST_WAS_EXPECTED = 41,
    /* The elements of a list of structs take more words than its pointer claims. */
    CAPNP_INLINE_COMPOSITE_LISTS_ELEMENTS_OVERRUN_ITS_WORD_COUNT = 42,
    /* The tag of a list of structs isn't a struct pointer. */
    CAPNP_INLINE_COMPOSITE_LISTS_OF_NON_STRUCT_TYPE_ARE_NOT_SUPPORTED = 43,
    /* A far pointer names a segment that doesn't exist, or there are no segments. */
    CAPNP_INVALID_SEGMENT_ID = 44,
    /* A one-word landing pad, or the tag of a two-word landing pad, is itself a far pointer. */
    CAPNP_MALFORMED_DOUBLE_FAR_POINTER = 45,
    /* Data was expected, and the list's elements aren't bytes. */
    CAPNP_MESSAGE_CONTAINS_LIST_POINTER_OF_NON_BYTES_WHERE_DATA_WAS_EXPECTED = 46,
    /* A text was expected, and the list's elements aren't bytes. */
    CAPNP_MESSAGE_CONTAINS_LIST_POINTER_OF_NON_BYTES_WHERE_TEXT_WAS_EXPECTED = 47,
    /* The elements of a list are narrower than expected. */
    CAPNP_MESSAGE_CONTAINS_LIST_WITH_INCOMPATIBLE_ELEMENT_TYPE = 48,
    /* A capability was expected, and the pointer is another one. */
    CAPNP_MESSAGE_CONTAINS_NON_CAPABILITY_POINTER_WHERE_CAPABILITY_POINTER_WAS_EXPECTED = 49,
    /* Data was expected, and the pointer doesn't lead to a list. */
    CAPNP_MESSAGE_CONTAINS_NON_LIST_POINTER_WHERE_DATA_WAS_EXPECTED = 50,
    /* A list was expected, and the pointer doesn't lead to one. */
    CAPNP_MESSAGE_CONTAINS_NON_LIST_POINTER_WHERE_LIST_POINTER_WAS_EXPECTED = 51,
    /* A text was expected, and the pointer doesn't lead to a list. */
    CAPNP_MESSAGE_CONTAINS_NON_LIST_POINTER_WHERE_TEXT_WAS_EXPECTED = 52,
    /* A struct was expected, and the pointer doesn't lead to one. */
    CAPNP_MESSAGE_CONTAINS_NON_STRUCT_POINTER_WHERE_STRUCT_POINTER_WAS_EXPECTED = 53,
    /* A capability was expected, and the pointer is null. */
    CAPNP_MESSAGE_CONTAINS_NULL_CAPABILITY_POINTER = 54,
    /* A pointer points outside its segment. */
    CAPNP_MESSAGE_CONTAINS_OUT_OF_BOUNDS_POINTER = 55,
    /* A text doesn't end with a zero byte. */
    CAPNP_MESSAGE_CONTAINS_TEXT_THAT_IS_NOT_NUL_TERMINATED = 56,
    /* The nesting limit is exceeded, perhaps by a cycle of pointers, at a struct. */
    CAPNP_MESSAGE_IS_TOO_DEEPLY_NESTED_OR_CONTAINS_CYCLES = 58,
    /* There are 2^32 segments or more, or a segment has 2^32 words or more. From capnp_open. Or a text or a list is
     * too large, or the message would be. */
    CAPNP_MESSAGE_TOO_LARGE = 59,
    /* The nesting limit is exceeded, at a list. */
    CAPNP_NESTING_LIMIT_EXCEEDED = 60,
    /* The place isn't in the message: a field, a pointer or an element that its object doesn't have. From calls that build. */
    CAPNP_NO_SUCH_PLACE = 61,
    /* The traversal limit is exceeded. */
    CAPNP_READ_LIMIT_EXCEEDED = 62,
    /* A landing pad is a far pointer. From capnp_layout_type. */
    CAPNP_UNEXPECTED_FAR_POINTER = 65,
    /* A pointer is of an unknown kind. */
    CAPNP_UNKNOWN_POINTER_TYPE = 66
};

/* A segment. Its bytes may be at any address; those after its last whole word are ignored. */
struct capnp_segment {
    const uint8_t *bytes;
    CAPNP_LAYOUT_UPPER
    uint64_t size;
};

/* Segments that capnp_layout_open has taken. Pass only those to the other calls. */
struct capnp_segments {
    const struct capnp_segment *list;
    CAPNP_LAYOUT_UPPER
    uint64_t count;
};

/* The library's part. A pointer is named by its segment and word. A pointer that isn't in the message is null. */

/* A struct that was found. */
struct capnp_found_struct {
    /* The data section. */
    const uint8_t *data;
    CAPNP_LAYOUT_UPPER
    uint64_t size;
    /* The pointers: consecutive words of a segment, from word `pointers_at` on. */
    uint64_t segment;
    uint32_t pointers_at;
    int32_t nesting;
    uint16_t pointers;
    unsigned int : 16;
    unsigned int : 32;
};

/* A list that was found. Each element is `data_bits` bits of data, and then `pointers` pointers. */
struct capnp_found_list {
    /* The words of the elements, without the tag of a list of structs. */
    const uint8_t *data;
    CAPNP_LAYOUT_UPPER
    uint64_t size;
    /* Where these words are: from word `at` of a segment on. */
    uint64_t segment;
    uint32_t at;
    uint32_t count;
    uint32_t data_bits;
    int32_t nesting;
    uint16_t pointers;
    unsigned int : 16;
    unsigned int : 32;
};

/* The bytes of a text, without the zero byte at its end, or of data. */
struct capnp_found_bytes {
    const uint8_t *bytes;
    CAPNP_LAYOUT_UPPER
    uint64_t size;
};

/* A pointer that isn't as a schema says: its place, the row of the struct that it is in, in the schema's table, and its index
 * there. Row and index are 0 for the root, and the row is 0 in a struct that the schema doesn't know. */
struct capnp_misfit {
    uint64_t segment;
    uint32_t word;
    uint32_t row;
    uint32_t index;
    unsigned int : 32;
};

CAPNP_LAYOUT_SIZE(capnp_segment, 16);
CAPNP_LAYOUT_SIZE(capnp_segments, 16);
CAPNP_LAYOUT_SIZE(capnp_found_struct, 40);
CAPNP_LAYOUT_SIZE(capnp_found_list, 48);
CAPNP_LAYOUT_SIZE(capnp_found_bytes, 16);
CAPNP_LAYOUT_SIZE(capnp_misfit, 24);

/* The element size that a list is expected to have: its elements have at least that data, and a pointer if it is
 * CAPNP_POINTER. CAPNP_VOID and CAPNP_STRUCT take elements of any size but bits. */
enum capnp_size {
    CAPNP_VOID = 0,
    CAPNP_BIT = 1,
    CAPNP_BYTE = 2,
    CAPNP_TWO_BYTES = 3,
    CAPNP_FOUR_BYTES = 4,
    CAPNP_EIGHT_BYTES = 5,
    CAPNP_POINTER = 6,
    CAPNP_STRUCT = 7
};

/* What a pointer leads to. */
enum capnp_type {
    CAPNP_TYPE_NULL = 0,
    CAPNP_TYPE_STRUCT = 1,
    CAPNP_TYPE_LIST = 2,
    CAPNP_TYPE_CAPABILITY = 3
};

/* Takes the segments of a message. Returns false, and leaves `to` unchanged, if there are 2^32 segments or more, or if one has
 * 2^32 words or more. */
bool capnp_layout_open(const struct capnp_segment *list, size_t count, struct capnp_segments *to);

/* Finds the segments of the frame at the front of `size` bytes ("Serialization Over a Stream"), and writes them to the
 * front of `room`, which has room for `rooms` of them. Stores the number of segments in `count`, and the size of the frame
 * in bytes in `bytes`. Bytes after the frame are ignored. The frame may have at most `words` words and 512 segments.
 * After CAPNP_NO_ROOM `count` and `bytes` are those of the frame; after any other refusal both are 0. `room` stays as it
 * is after a refusal. */
uint32_t capnp_layout_open_frame(const uint8_t *frame, size_t size, uint64_t words, struct capnp_segment *room, size_t rooms,
                                 uint32_t *count, uint64_t *bytes);

/* Reads the whole value of a message, from its root on, within `left` words and `nesting` levels, without the data of its
 * objects. Returns 0 if all of it can be read; otherwise the number of the first refusal, and stores the place of its pointer
 * in `segment` and `word`, which are 0 otherwise. Charges one word for the root pointer, and then each object once. Calls
 * itself for each level. */
uint32_t capnp_layout_validate(const struct capnp_segments *segments, uint64_t *left, int32_t nesting, uint64_t *segment,
                               uint32_t *word);

/* Checks a whole message against a schema, from its root on, within `left` words and `nesting` levels: the root has to be a
 * struct of row `row` of the table, or null. Returns 0 if all of it can be read, and is what the schema says; otherwise the number of the
 * first refusal, and stores the place of its pointer in `misfit`, whose numbers are all 0 otherwise. Charges like capnp_layout_validate. Calls
 * itself for each level.
 *
 * A table has `words` words. Any array is one, and words after its end are read as 0. A row is named by the position of its first
 * word, the number p of pointers that the schema knows; p words follow, one for each. Such a word has in its low 4 bits what the pointer may
 * lead to, unless it is null, and an argument in the others: 0 for anything, 1 a capability, 2 a text, 3 a text of UTF-8, 4 data, 5 a
 * struct (its row), 6 a list of any elements, 7 for what a test says (its position), 8 + a number of enum capnp_size for a list of at
 * least these elements (the row of each element as a struct). A test is four words: the offset of a union's tag in the struct's
 * data, counted in 16 bits; a number; the word that holds if the tag is that number; the word that holds otherwise. If one of these is again a
 * test, it has a larger position; if not, it is 0. A text of kind 3 that isn't UTF-8 is refused with
 * CAPNP_EXISTING_LIST_VALUE_IS_INCOMPATIBLE_WITH_EXPECTED_TYPE, which no other call that reads returns. */
uint32_t capnp_layout_check(const struct capnp_segments *segments, const uint32_t *table, size_t words, uint32_t row, uint64_t *left,
                            int32_t nesting, struct capnp_misfit *misfit);

/* The calls that read: 0, or the number of a refusal. They charge `left`, which isn't written if it is
 * CAPNP_NO_LIMIT. `to` is always written: for a null pointer, and if the call is refused, it is an empty struct, an empty
 * list, or no bytes. */
uint32_t capnp_layout_root(const struct capnp_segments *segments, uint64_t *left, int32_t nesting, struct capnp_found_struct *to);
uint32_t capnp_layout_struct(const struct capnp_segments *segments, uint64_t *left, uint64_t segment, uint32_t word,
                             int32_t nesting, struct capnp_found_struct *to);
uint32_t capnp_layout_list(const struct capnp_segments *segments, uint64_t *left, uint64_t segment, uint32_t word,
                           int32_t nesting, uint32_t expected, struct capnp_found_list *to);
uint32_t capnp_layout_text(const struct capnp_segments *segments, uint64_t *left, uint64_t segment, uint32_t word,
                           int32_t nesting, struct capnp_found_bytes *to);
uint32_t capnp_layout_data(const struct capnp_segments *segments, uint64_t *left, uint64_t segment, uint32_t word,
                           int32_t nesting, struct capnp_found_bytes *to);

/* Stores the index of a capability in the message's capability table. Charges nothing. */
uint32_t capnp_layout_capability(const struct capnp_segments *segments, uint64_t segment, uint32_t word, uint32_t *index);

/* Stores what a pointer leads to, a number of enum capnp_type. Charges its landing pads, and doesn't look at the object. */
uint32_t capnp_layout_type(const struct capnp_segments *segments, uint64_t *left, uint64_t segment, uint32_t word, uint32_t *kind);

/* Messages. */

/* A message that is read. Doesn't move while readers of it are used. */
struct capnp_message {
    struct capnp_segments segments;
    /* The words that may still be read; CAPNP_NO_LIMIT after capnp_validate and capnp_check. */
    uint64_t left;
    /* The levels of structs and lists, from the root on. */
    int32_t nesting;
    /* The first refusal, a number of enum capnp_refusal, and the place of its pointer; 0 if there is none. */
    uint32_t refusal;
    uint32_t refused_word;
    /* Of a refusal of capnp_check: the row of the pointer's struct, and its index there. */
    uint32_t refused_row;
    uint32_t refused_index;
    uint64_t refused_segment;
};

/* Takes the segments of a message, with the default limits; change `left` and `nesting` afterwards if you want others.
 * Returns 0 or CAPNP_MESSAGE_TOO_LARGE. The message is then empty, and keeps the refusal. */
CAPNP_INLINE uint32_t capnp_open(struct capnp_message *message, const struct capnp_segment *list, size_t count) {
    memset(message, 0, sizeof *message);
    message->left = CAPNP_WORDS;
    message->nesting = CAPNP_NESTING;
    if (!capnp_layout_open(list, count, &message->segments)) message->refusal = CAPNP_MESSAGE_TOO_LARGE;
    return message->refusal;
}

/* Takes the message whose frame is at the front of `size` bytes, with the default limits. Writes its segments to `room`,
 * which has room for `rooms`, and which you keep while you read. Stores the size of the frame in `used`, unless it is
 * null. Returns 0 or a refusal of capnp_layout_open_frame. The message is then empty, and keeps the refusal. */
CAPNP_INLINE uint32_t capnp_open_frame(struct capnp_message *message, const uint8_t *frame, size_t size, struct capnp_segment *room,
                                       size_t rooms, size_t *used) {
    uint32_t count = 0;
    uint64_t bytes = 0;
    uint32_t refusal = capnp_layout_open_frame(frame, size, CAPNP_WORDS, room, rooms, &count, &bytes);
    if (used) *used = (size_t)bytes;
    capnp_open(message, room, refusal == 0 ? count : 0);
    if (refusal != 0) message->refusal = refusal;
    return message->refusal;
}

/* Keeps the refusal of the pointer at this place, if it is the first. */
CAPNP_INLINE void capnp_refuse(struct capnp_message *message, uint32_t refusal, uint64_t segment, uint32_t word) {
    if (message->refusal == 0) {
        message->refusal = refusal;
        message->refused_segment = segment;
        message->refused_word = word;
    }
}

/* The refusal that a default value keeps from the start: so no other is stored in it. */
#define CAPNP_OF_DEFAULT UINT32_MAX

/* Checks the whole message, from its root on, within `left` words and `nesting` levels. Returns 0 if all of it can be read;
 * then nothing that you read of it is refused, unless an object is of another kind than you ask for, and `left` is
 * CAPNP_NO_LIMIT: reading takes nothing. Otherwise the message keeps the first refusal with its place, and is otherwise unchanged.
 * Returns the refusal that it keeps already, if there is one. */
CAPNP_INLINE uint32_t capnp_validate(struct capnp_message *message) {
    uint64_t left = message->left, segment;
    uint32_t word;
    if (message->refusal != 0) return message->refusal;
    message->refusal = capnp_layout_validate(&message->segments, &left, message->nesting, &segment, &word);
    if (message->refusal == 0) {
        message->left = CAPNP_NO_LIMIT;
    } else {
        message->refused_segment = segment;
        message->refused_word = word;
    }
    return message->refusal;
}

/* Checks the whole message, from its root on, within `left` words and `nesting` levels, against the schema of a table of `words` words; the
 * root has to be a struct of row `row`. Headers that capnpc-layout-c writes have tables, and functions that call this. Returns 0 if
 * all of the message can be read, and is what the schema says; then nothing that the schema has is refused, and `left` is
 * CAPNP_NO_LIMIT: reading takes nothing. Otherwise the message keeps the first refusal, with its place, its row and its index, and is
 * otherwise unchanged. Returns the refusal that it keeps already, if there is one. */
CAPNP_INLINE uint32_t capnp_check(struct capnp_message *message, const uint32_t *table, size_t words, uint32_t row) {
    uint64_t left = message->left;
    struct capnp_misfit misfit;
    if (message->refusal != 0) return message->refusal;
    message->refusal = capnp_layout_check(&message->segments, table, words, row, &left, message->nesting, &misfit);
    if (message->refusal == 0) {
        message->left = CAPNP_NO_LIMIT;
    } else {
        message->refused_segment = misfit.segment;
        message->refused_word = misfit.word;
        message->refused_row = misfit.row;
        message->refused_index = misfit.index;
    }
    return message->refusal;
}

/* The name of the field that is pointer `index` of row `row` of a table. */
struct capnp_field_name {
    uint32_t row;
    uint32_t index;
    const char *name;
};

/* The name of the field that capnp_check has refused, from a list that ends with a null: functions that capnpc-layout-c writes have
 * such lists. `root` if the root is refused, or the frame is; "an unknown field" if the schema doesn't have the field; "" if nothing is refused. If
 * members of a union share the pointer, the name has all of them. */
CAPNP_SELDOM const char *capnp_refused_name(const struct capnp_message *message, const char *root, const struct capnp_field_name *names) {
    if (message->refusal == 0) return "";
    for (; names->name; names++) {
        if (names->row == message->refused_row && names->index == message->refused_index) return names->name;
    }
    return message->refused_segment == 0 && message->refused_word == 0 ? root : "an unknown field";
}

/* Structs. */

struct capnp_struct {
    struct capnp_message *message;
    struct capnp_found_struct at;
};

struct capnp_list {
    struct capnp_message *message;
    struct capnp_found_list at;
};

/* A text. text[size] is 0. It may have other zero bytes, and needn't be UTF-8. Never null. */
struct capnp_text {
    const char *text;
    size_t size;
};

struct capnp_data {
    const uint8_t *bytes;
    size_t size;
};

/* The root of the message. Charges one word for its pointer. */
CAPNP_INLINE struct capnp_struct capnp_root(struct capnp_message *message) {
    struct capnp_struct to;
    uint32_t refusal;
    to.message = message;
    refusal = capnp_layout_root(&message->segments, &message->left, message->nesting, &to.at);
    if (refusal != 0) capnp_refuse(message, refusal, 0, 0);
    return to;
}

/* The pointer field with this index. `index` counts the pointers of the struct. */
CAPNP_INLINE struct capnp_struct capnp_get_struct(const struct capnp_struct *from, uint16_t index) {
    struct capnp_struct to;
    to.message = from->message;
    if (index < from->at.pointers) {
        uint32_t word = from->at.pointers_at + index;
        uint32_t refusal = capnp_layout_struct(&from->message->segments, &from->message->left, from->at.segment, word,
                                               from->at.nesting, &to.at);
        if (refusal != 0) capnp_refuse(from->message, refusal, from->at.segment, word);
    } else {
        memset(&to.at, 0, sizeof to.at);
    }
    return to;
}

CAPNP_INLINE struct capnp_list capnp_get_list(const struct capnp_struct *from, uint16_t index, enum capnp_size size) {
    struct capnp_list to;
    to.message = from->message;
    if (index < from->at.pointers) {
        uint32_t word = from->at.pointers_at + index;
        uint32_t refusal = capnp_layout_list(&from->message->segments, &from->message->left, from->at.segment, word,
                                             from->at.nesting, (uint32_t)size, &to.at);
        if (refusal != 0) capnp_refuse(from->message, refusal, from->at.segment, word);
    } else {
        memset(&to.at, 0, sizeof to.at);
    }
    return to;
}

CAPNP_INLINE struct capnp_text capnp_get_text(const struct capnp_struct *from, uint16_t index) {
    struct capnp_text to = {"", 0};
    if (index < from->at.pointers) {
        struct capnp_found_bytes found;
        uint32_t word = from->at.pointers_at + index;
        uint32_t refusal = capnp_layout_text(&from->message->segments, &from->message->left, from->at.segment, word,
                                             from->at.nesting, &found);
        if (refusal != 0) capnp_refuse(from->message, refusal, from->at.segment, word);
        if (found.size != 0) {
            to.text = (const char *)found.bytes;
            to.size = (size_t)found.size;
        }
    }
    return to;
}

CAPNP_INLINE struct capnp_data capnp_get_data(const struct capnp_struct *from, uint16_t index) {
    struct capnp_data to = {NULL, 0};
    if (index < from->at.pointers) {
        struct capnp_found_bytes found;
        uint32_t word = from->at.pointers_at + index;
        uint32_t refusal = capnp_layout_data(&from->message->segments, &from->message->left, from->at.segment, word,
                                             from->at.nesting, &found);
        if (refusal != 0) capnp_refuse(from->message, refusal, from->at.segment, word);
        if (found.size != 0) {
            to.bytes = found.bytes;
            to.size = (size_t)found.size;
        }
    }
    return to;
}

/* Whether the struct has this pointer, and it isn't null. */
CAPNP_INLINE bool capnp_has(const struct capnp_struct *from, uint16_t index) {
    uint64_t word;
    if (index >= from->at.pointers) return false;
    memcpy(&word, from->message->segments.list[(size_t)from->at.segment].bytes + 8 * (size_t)(from->at.pointers_at + index), 8);
    return word != 0;
}

/* Whether the pointer is a capability; stores its index in the capability table, or 0. Null isn't refused. */
CAPNP_INLINE bool capnp_get_capability(const struct capnp_struct *from, uint16_t index, uint32_t *capability) {
    *capability = 0;
    if (capnp_has(from, index)) {
        uint32_t word = from->at.pointers_at + index;
        uint32_t refusal = capnp_layout_capability(&from->message->segments, from->at.segment, word, capability);
        if (refusal == 0) return true;
        capnp_refuse(from->message, refusal, from->at.segment, word);
    }
    return false;
}

/* What the pointer leads to, for a field of type AnyPointer; then read it as that. CAPNP_TYPE_NULL if it is refused. */
CAPNP_INLINE enum capnp_type capnp_get_type(const struct capnp_struct *from, uint16_t index) {
    uint32_t kind = CAPNP_TYPE_NULL;
    if (index < from->at.pointers) {
        uint32_t word = from->at.pointers_at + index;
        uint32_t refusal = capnp_layout_type(&from->message->segments, &from->message->left, from->at.segment, word, &kind);
        if (refusal != 0) capnp_refuse(from->message, refusal, from->at.segment, word);
    }
    return (enum capnp_type)kind;
}

/* Default values of pointers: a message of one segment that is only read, its first word the pointer. CAPNP_DEFAULT defines
 * NAME from BYTES, an array of whole words. Reading a default takes nothing of the limit. If one isn't what you ask for, you
 * get an empty value, and the refusal isn't kept. */
#define CAPNP_DEFAULT(NAME, BYTES)                                                                                    \
    static const struct capnp_segment NAME##_segment = {BYTES, sizeof BYTES};                                        \
    static const struct capnp_message NAME = {{&NAME##_segment, 1}, CAPNP_NO_LIMIT, CAPNP_NESTING, CAPNP_OF_DEFAULT, 0, 0, 0, 0}

/* A struct of one pointer, that of a default value. */
CAPNP_INLINE struct capnp_struct capnp_missing(const struct capnp_struct *from, const struct capnp_message *missing) {
    struct capnp_struct to;
    memset(&to.at, 0, sizeof to.at);
    to.message = (struct capnp_message *)(uintptr_t)missing;
    to.at.nesting = from->at.nesting;
    to.at.pointers = 1;
    return to;
}

/* Like the functions without `_or`; if the pointer is null, or the struct doesn't have it, the value of `missing`. */
CAPNP_INLINE struct capnp_struct capnp_get_struct_or(const struct capnp_struct *from, uint16_t index, const struct capnp_message *missing) {
    struct capnp_struct other = capnp_missing(from, missing);
    return capnp_has(from, index) ? capnp_get_struct(from, index) : capnp_get_struct(&other, 0);
}

CAPNP_INLINE struct capnp_list capnp_get_list_or(const struct capnp_struct *from, uint16_t index, enum capnp_size size,
                                                 const struct capnp_message *missing) {
    struct capnp_struct other = capnp_missing(from, missing);
    return capnp_has(from, index) ? capnp_get_list(from, index, size) : capnp_get_list(&other, 0, size);
}

CAPNP_INLINE struct capnp_text capnp_get_text_or(const struct capnp_struct *from, uint16_t index, const struct capnp_message *missing) {
    struct capnp_struct other = capnp_missing(from, missing);
    return capnp_has(from, index) ? capnp_get_text(from, index) : capnp_get_text(&other, 0);
}

CAPNP_INLINE struct capnp_data capnp_get_data_or(const struct capnp_struct *from, uint16_t index, const struct capnp_message *missing) {
    struct capnp_struct other = capnp_missing(from, missing);
    return capnp_has(from, index) ? capnp_get_data(from, index) : capnp_get_data(&other, 0);
}

/* The pointer with this index, in the form of a struct without data, whose pointer 0 it is. So it can be read later, by index 0,
 * when you know what it leads to. */
CAPNP_INLINE struct capnp_struct capnp_get_pointer(const struct capnp_struct *from, uint16_t index) {
    struct capnp_struct to = *from;
    to.at.data = NULL;
    to.at.size = 0;
    to.at.pointers_at = index < from->at.pointers ? from->at.pointers_at + index : 0;
    to.at.pointers = index < from->at.pointers ? 1 : 0;
    return to;
}

CAPNP_INLINE struct capnp_struct capnp_get_pointer_or(const struct capnp_struct *from, uint16_t index, const struct capnp_message *missing) {
    return capnp_has(from, index) ? capnp_get_pointer(from, index) : capnp_missing(from, missing);
}

/* A struct of one pointer, that of a constant, which is in the form of a default value. */
CAPNP_INLINE struct capnp_struct capnp_constant(const struct capnp_message *value) {
    struct capnp_struct none;
    memset(&none, 0, sizeof none);
    none.at.nesting = CAPNP_NESTING;
    return capnp_missing(&none, value);
}

/* Fields of the data section. `offset` is in bytes from its start, for a bool in bits. `missing` is the schema's default, of
 * a float as its bits; a message holds a field's value xor its default. */
#define CAPNP_FIELD(NAME, TYPE)                                                                                      \
    CAPNP_INLINE TYPE capnp_get_##NAME(const struct capnp_struct *from, uint32_t offset, TYPE missing) {             \
        TYPE value;                                                                                                  \
        if ((uint64_t)offset + sizeof value > from->at.size) return missing;                                         \
        memcpy(&value, from->at.data + offset, sizeof value);                                                        \
        return (TYPE)(value ^ missing);                                                                              \
    }
CAPNP_FIELD(u8, uint8_t)
CAPNP_FIELD(u16, uint16_t)
CAPNP_FIELD(u32, uint32_t)
CAPNP_FIELD(u64, uint64_t)
CAPNP_FIELD(i8, int8_t)
CAPNP_FIELD(i16, int16_t)
CAPNP_FIELD(i32, int32_t)
CAPNP_FIELD(i64, int64_t)
#undef CAPNP_FIELD

CAPNP_INLINE bool capnp_get_bool(const struct capnp_struct *from, uint32_t offset, bool missing) {
    if (offset / 8 >= from->at.size) return missing;
    return ((from->at.data[offset / 8] >> (offset % 8)) & 1) != missing;
}

CAPNP_INLINE float capnp_get_f32(const struct capnp_struct *from, uint32_t offset, uint32_t missing) {
    uint32_t bits = capnp_get_u32(from, offset, missing);
    float value;
    memcpy(&value, &bits, sizeof value);
    return value;
}

CAPNP_INLINE double capnp_get_f64(const struct capnp_struct *from, uint32_t offset, uint64_t missing) {
    uint64_t bits = capnp_get_u64(from, offset, missing);
    double value;
    memcpy(&value, &bits, sizeof value);
    return value;
}

/* The struct, if the member of its union with this number is set; otherwise one without data and pointers, whose fields all
 * have their default values. `tag` is the offset of the union's tag, in bytes. */
CAPNP_INLINE struct capnp_struct capnp_member(const struct capnp_struct *from, uint32_t tag, uint16_t number) {
    struct capnp_struct to = *from;
    if (capnp_get_u16(from, tag, 0) != number) {
        to.at.size = 0;
        to.at.pointers = 0;
    }
    return to;
}

/* Lists. */

CAPNP_INLINE uint32_t capnp_count(const struct capnp_list *from) { return from->at.count; }

/* Element `index` as a struct: a struct is itself, a number a struct of its bytes, a pointer a struct of one pointer. So
 * its pointers are read by capnp_get_struct, _list, _text and _data, with index 0 in a list of pointers. An element after
 * the end of the list is a struct without data and pointers. */
CAPNP_INLINE struct capnp_struct capnp_get_element(const struct capnp_list *from, uint32_t index) {
    struct capnp_struct to;
    to.message = from->message;
    memset(&to.at, 0, sizeof to.at);
    if (index < from->at.count) {
        uint32_t bytes = from->at.data_bits / 8;
        uint64_t start = (uint64_t)index * (bytes + 8u * from->at.pointers);
        to.at.data = from->at.data + (size_t)start;
        to.at.size = bytes;
        to.at.segment = from->at.segment;
        to.at.pointers_at = from->at.at + (uint32_t)((start + bytes) / 8);
        to.at.nesting = from->at.nesting;
        to.at.pointers = from->at.pointers;
    }
    return to;
}

/* Element `index` of a list of numbers, or the first field of a struct in a list of structs. 0 if the list has no such
 * element, or its elements have too little data: for data of that size, read the list with the size of its elements. */
#define CAPNP_ELEMENT(NAME, TYPE)                                                                                    \
    CAPNP_INLINE TYPE capnp_element_##NAME(const struct capnp_list *from, uint32_t index) {                          \
        TYPE value;                                                                                                  \
        if (index >= from->at.count || from->at.data_bits < 8 * sizeof value) return 0;                              \
        memcpy(&value,                                                                                               \
               from->at.data + (size_t)index * (from->at.data_bits / 8 + 8u * (size_t)from->at.pointers),            \
               sizeof value);                                                                                        \
        return value;                                                                                                \
    }
CAPNP_ELEMENT(u8, uint8_t)
CAPNP_ELEMENT(u16, uint16_t)
CAPNP_ELEMENT(u32, uint32_t)
CAPNP_ELEMENT(u64, uint64_t)
CAPNP_ELEMENT(i8, int8_t)
CAPNP_ELEMENT(i16, int16_t)
CAPNP_ELEMENT(i32, int32_t)
CAPNP_ELEMENT(i64, int64_t)
CAPNP_ELEMENT(f32, float)
CAPNP_ELEMENT(f64, double)
#undef CAPNP_ELEMENT

/* Element `index` of a list of bits. */
CAPNP_INLINE bool capnp_element_bool(const struct capnp_list *from, uint32_t index) {
    return index < from->at.count && from->at.data_bits == 1 && ((from->at.data[index / 8] >> (index % 8)) & 1);
}

/* Element `index` of a list of texts, data, lists or structs. */
CAPNP_INLINE struct capnp_text capnp_element_text(const struct capnp_list *from, uint32_t index) {
    struct capnp_struct element = capnp_get_element(from, index);
    return capnp_get_text(&element, 0);
}

CAPNP_INLINE struct capnp_data capnp_element_data(const struct capnp_list *from, uint32_t index) {
    struct capnp_struct element = capnp_get_element(from, index);
    return capnp_get_data(&element, 0);
}

CAPNP_INLINE struct capnp_list capnp_element_list(const struct capnp_list *from, uint32_t index, enum capnp_size size) {
    struct capnp_struct element = capnp_get_element(from, index);
    return capnp_get_list(&element, 0, size);
}

/* Building.
 *
 * A message is one segment in your buffer. Nothing takes memory, and all state is in structs of yours.
 *
 *     uint8_t buffer[4096];
 *     struct capnp_builder message;
 *     capnp_start(&message, buffer, sizeof buffer);
 *     struct capnp_struct_builder root = capnp_init_root(&message, 1, 2);
 *     capnp_set_u32(&root, 0, 123, 0);
 *     capnp_set_text(&root, 0, "Alice");
 *     size_t size;
 *     const uint8_t *frame = capnp_finish(&message, &size);
 *
 * The first refusal is kept in `refusal` of the message, and each later call does nothing; so only the end has to be tested:
 * `frame` is null. No argument makes a call write outside of the buffer, if the buffer, texts and data that you pass are
 * there, and don't overlap: copy a text that you read from the same message.
 *
 * A place is a number of words from the start of the message, and stays true if the buffer moves. So `grow` may move the
 * message to a larger buffer. A builder stays good until a pointer on the way to it is set again. */

/* Where a struct is: the word at which its data section starts, and the sizes of its sections in words and pointers. */
struct capnp_struct_at {
    uint32_t at;
    uint16_t data_words;
    uint16_t pointers;
};

CAPNP_LAYOUT_SIZE(capnp_struct_at, 8);

/* A list that was opened: the place of its first element, without sections if the elements aren't structs; their number; and
 * a number of enum capnp_size for what they are. All 0 for null. */
struct capnp_elements_at {
    struct capnp_struct_at first;
    uint32_t count;
    uint32_t size;
};

CAPNP_LAYOUT_SIZE(capnp_elements_at, 16);

/* The library's part. The buffer's first `used` words are the message: `bytes` and `room` are its address and its size in
 * bytes. It needn't be aligned or zero. `place` is a struct's, from capnp_place, `word` a pointer's, from
 * capnp_pointer_word, and `list` a list's, from capnp_list_place. A place that isn't in the message is refused with
 * CAPNP_NO_SUCH_PLACE, and nothing is changed.
 * After any other refusal a call that opens an object has changed nothing, and one that sets a pointer leaves it null; but
 * CAPNP_MESSAGE_TOO_LARGE changes nothing, if it isn't for one of the largest lists: 2^29 - 1 pointers or elements of 8
 * bytes, or structs of 2^29 - 2 or 2^29 - 1 words together. */
uint32_t capnp_layout_start(uint8_t *bytes, size_t room, uint32_t *used);
uint32_t capnp_layout_init_root(uint8_t *bytes, size_t room, uint32_t *used, uint16_t data_words, uint16_t pointers, uint32_t *at);
uint32_t capnp_layout_init_struct(uint8_t *bytes, size_t room, uint32_t *used, uint64_t place, uint16_t index, uint16_t data_words,
                                  uint16_t pointers, uint32_t *at);
uint32_t capnp_layout_init_struct_list(uint8_t *bytes, size_t room, uint32_t *used, uint64_t place, uint16_t index, uint32_t count,
                                       uint16_t data_words, uint16_t pointers, uint32_t *first);
uint32_t capnp_layout_init_list(uint8_t *bytes, size_t room, uint32_t *used, uint64_t place, uint16_t index, uint32_t size,
                                uint32_t count, uint32_t *first);
uint32_t capnp_layout_get_struct(uint8_t *bytes, size_t room, uint32_t *used, uint64_t place, uint16_t index, uint16_t data_words,
                                 uint16_t pointers, struct capnp_struct_at *inner);
uint32_t capnp_layout_get_struct_list(uint8_t *bytes, size_t room, uint32_t *used, uint64_t place, uint16_t index, uint16_t data_words,
                                      uint16_t pointers, struct capnp_elements_at *to);
uint32_t capnp_layout_get_list(uint8_t *bytes, size_t room, uint32_t used, uint64_t place, uint16_t index, uint32_t size,
                               struct capnp_elements_at *to);
uint32_t capnp_layout_set_text(uint8_t *bytes, size_t room, uint32_t *used, uint64_t word, const uint8_t *text, size_t size);
uint32_t capnp_layout_set_data(uint8_t *bytes, size_t room, uint32_t *used, uint64_t word, const uint8_t *data, size_t size);
uint32_t capnp_layout_clear(uint8_t *bytes, size_t room, uint32_t used, uint64_t place, uint16_t index);
uint32_t capnp_layout_set_capability(uint8_t *bytes, size_t room, uint32_t used, uint64_t place, uint16_t index, uint32_t capability);

/* Copies the value of the pointer at word `word` of segment `segment` of another message, and charges `left` what reading all
 * of it costs. After any refusal but CAPNP_NO_SUCH_PLACE the pointer `index` is null. The second one copies it in canonical
 * form. */
uint32_t capnp_layout_copy(uint8_t *bytes, size_t room, uint32_t *used, uint64_t place, uint16_t index,
                           const struct capnp_segments *segments, uint64_t *left, uint64_t segment, uint32_t word, int32_t nesting);
uint32_t capnp_layout_copy_canonical(uint8_t *bytes, size_t room, uint32_t *used, uint64_t place, uint16_t index,
                                     const struct capnp_segments *segments, uint64_t *left, uint64_t segment, uint32_t word,
                                     int32_t nesting);

/* `offset` is in values of that width, and in bits for a bool. */
uint32_t capnp_layout_set_bool(uint8_t *bytes, size_t room, uint32_t used, uint64_t place, uint32_t offset, bool value);
uint32_t capnp_layout_set_u8(uint8_t *bytes, size_t room, uint32_t used, uint64_t place, uint32_t offset, uint8_t value);
uint32_t capnp_layout_set_u16(uint8_t *bytes, size_t room, uint32_t used, uint64_t place, uint32_t offset, uint16_t value);
uint32_t capnp_layout_set_u32(uint8_t *bytes, size_t room, uint32_t used, uint64_t place, uint32_t offset, uint32_t value);
uint32_t capnp_layout_set_u64(uint8_t *bytes, size_t room, uint32_t used, uint64_t place, uint32_t offset, uint64_t value);
uint32_t capnp_layout_set_element_bool(uint8_t *bytes, size_t room, uint32_t used, uint64_t list, uint32_t index, bool value);
uint32_t capnp_layout_set_element_u8(uint8_t *bytes, size_t room, uint32_t used, uint64_t list, uint32_t index, uint8_t value);
uint32_t capnp_layout_set_element_u16(uint8_t *bytes, size_t room, uint32_t used, uint64_t list, uint32_t index, uint16_t value);
uint32_t capnp_layout_set_element_u32(uint8_t *bytes, size_t room, uint32_t used, uint64_t list, uint32_t index, uint32_t value);
uint32_t capnp_layout_set_element_u64(uint8_t *bytes, size_t room, uint32_t used, uint64_t list, uint32_t index, uint64_t value);

/* The place of a struct, the word of its pointer `index`, and the place of a list of `count` elements from word `at` on. If the
 * struct doesn't have the pointer, the word is one that no message has. */
CAPNP_INLINE uint64_t capnp_place(struct capnp_struct_at at) {
    return at.at | (uint64_t)at.data_words << 32 | (uint64_t)at.pointers << 48;
}

CAPNP_INLINE uint64_t capnp_pointer_word(struct capnp_struct_at at, uint16_t index) {
    return index < at.pointers ? (uint64_t)at.at + at.data_words + index : UINT64_MAX;
}

CAPNP_INLINE uint64_t capnp_list_place(uint32_t at, uint32_t count) { return at | (uint64_t)count << 32; }

/* A message for building. Doesn't move while builders of it are used. */
struct capnp_builder {
    /* The segment. The 8 bytes before it are for the table of its frame. */
    uint8_t *bytes;
    /* The size of the segment's buffer in bytes. */
    size_t room;
    /* How many words of it are the message. */
    uint32_t used;
    /* The first refusal, a number of enum capnp_refusal; 0 if there is none. */
    uint32_t refusal;
    /* After CAPNP_NO_ROOM: the least `room` that the refused call needs. */
    uint64_t wanted;
    /* Makes `room` at least `wanted` bytes, keeps the first 8 * used bytes and the 8 bytes before them, and returns true; or
     * returns false. May be null. */
    bool (*grow)(struct capnp_builder *message, size_t wanted);
    /* Yours. */
    void *context;
};

struct capnp_struct_builder {
    struct capnp_builder *message;
    struct capnp_struct_at place;
};

/* A list. Its first element is at `first.at`. The elements are structs with the sections of `first`, or have the size
 * `size`. */
struct capnp_list_builder {
    struct capnp_builder *message;
    struct capnp_struct_at first;
    uint32_t count;
    enum capnp_size size;
};

/* Keeps the refusal of a call that needs room for `words` words. Returns true if `grow` has made room, so that the caller
 * repeats the call. */
CAPNP_SELDOM bool capnp_again(struct capnp_builder *message, uint32_t refusal, uint64_t words) {
    if (refusal == CAPNP_NO_ROOM) {
        uint64_t wanted = 8 * (message->used + words);
        if (message->grow && wanted > message->room && wanted <= SIZE_MAX && message->grow(message, (size_t)wanted)) return true;
        message->wanted = wanted;
    }
    message->refusal = refusal;
    return false;
}

/* Starts a message in a buffer. Its first 8 bytes are for the table of the frame. */
CAPNP_INLINE void capnp_start(struct capnp_builder *message, void *buffer, size_t size) {
    memset(message, 0, sizeof *message);
    message->bytes = (uint8_t *)buffer + (size < 8 ? 0 : 8);
    message->room = size < 8 ? 0 : size - 8;
    message->refusal = capnp_layout_start(message->bytes, message->room, &message->used);
    if (message->refusal != 0) message->wanted = 8;
}

/* Makes the root pointer lead to a new struct, all zero. */
CAPNP_INLINE struct capnp_struct_builder capnp_init_root(struct capnp_builder *message, uint16_t data_words, uint16_t pointers) {
    struct capnp_struct_builder made;
    uint32_t at = 0;
    while (message->refusal == 0) {
        uint32_t answer = capnp_layout_init_root(message->bytes, message->room, &message->used, data_words, pointers, &at);
        if (answer == 0 || !capnp_again(message, answer, (uint64_t)data_words + pointers)) break;
    }
    made.message = message;
    made.place.at = at;
    made.place.data_words = data_words;
    made.place.pointers = pointers;
    return made;
}

/* The root pointer, in the form of a struct without data: to set it to something else than a struct, or to open it. */
CAPNP_INLINE struct capnp_struct_builder capnp_root_pointer(struct capnp_builder *message) {
    struct capnp_struct_builder root;
    root.message = message;
    root.place.at = 0;
    root.place.data_words = 0;
    root.place.pointers = 1;
    return root;
}

/* The functions whose names end in `_again` repeat a call that was refused with `answer` while `grow` makes room. They are
 * seldom called, and so not part of the functions that call them. */
CAPNP_SELDOM uint32_t capnp_init_struct_again(struct capnp_builder *message, uint64_t place, uint16_t index, uint16_t data_words,
                                              uint16_t pointers, uint32_t answer) {
    uint32_t at = 0;
    while (answer != 0 && capnp_again(message, answer, (uint64_t)data_words + pointers)) {
        answer = capnp_layout_init_struct(message->bytes, message->room, &message->used, place, index, data_words, pointers, &at);
    }
    return at;
}

/* Makes the pointer with this index lead to a new struct, all zero. */
CAPNP_INLINE struct capnp_struct_builder capnp_init_struct(const struct capnp_struct_builder *of, uint16_t index, uint16_t data_words,
                                                           uint16_t pointers) {
    struct capnp_builder *message = of->message;
    struct capnp_struct_builder made;
    uint32_t at = 0;
    if (message->refusal == 0) {
        uint64_t place = capnp_place(of->place);
        uint32_t answer = capnp_layout_init_struct(message->bytes, message->room, &message->used, place, index, data_words, pointers, &at);
        if (answer != 0) at = capnp_init_struct_again(message, place, index, data_words, pointers, answer);
    }
    made.message = message;
    made.place.at = at;
    made.place.data_words = data_words;
    made.place.pointers = pointers;
    return made;
}

/* The words that opening this struct takes after CAPNP_NO_ROOM. If it is there, the larger of both sizes of each section. */
CAPNP_INLINE uint64_t capnp_words_to_open(const struct capnp_struct_builder *of, uint16_t index, uint16_t data_words, uint16_t pointers) {
    struct capnp_builder *message = of->message;
    struct capnp_struct_at old;
    uint64_t word;
    memcpy(&word, message->bytes + 8 * ((size_t)of->place.at + of->place.data_words + index), sizeof word);
    if (word != 0 &&
        capnp_layout_get_struct(message->bytes, message->room, &message->used, capnp_place(of->place), index, 0, 0, &old) == 0) {
        if (old.data_words > data_words) data_words = old.data_words;
        if (old.pointers > pointers) pointers = old.pointers;
    }
    return (uint64_t)data_words + pointers;
}

/* Opens the struct that the pointer leads to. Null becomes a new struct, all zero; one with smaller sections, as of an older
 * schema, is moved to new words. */
CAPNP_INLINE struct capnp_struct_builder capnp_open_struct(const struct capnp_struct_builder *of, uint16_t index, uint16_t data_words,
                                                           uint16_t pointers) {
    struct capnp_builder *message = of->message;
    struct capnp_struct_builder found;
    uint32_t answer;
    found.message = message;
    memset(&found.place, 0, sizeof found.place);
    while (message->refusal == 0) {
        answer = capnp_layout_get_struct(message->bytes, message->room, &message->used, capnp_place(of->place), index, data_words,
                                         pointers, &found.place);
        if (answer == 0) break;
        if (!capnp_again(message, answer, answer == CAPNP_NO_ROOM ? capnp_words_to_open(of, index, data_words, pointers) : 0)) break;
    }
    return found;
}

/* Opens the root struct. */
CAPNP_INLINE struct capnp_struct_builder capnp_open_root(struct capnp_builder *message, uint16_t data_words, uint16_t pointers) {
    struct capnp_struct_builder root = capnp_root_pointer(message);
    return capnp_open_struct(&root, 0, data_words, pointers);
}

CAPNP_SELDOM uint32_t capnp_init_struct_list_again(struct capnp_builder *message, uint64_t place, uint16_t index, uint32_t count,
                                                   uint16_t data_words, uint16_t pointers, uint32_t answer) {
    uint32_t first = 0;
    while (answer != 0 && capnp_again(message, answer, 1 + (uint64_t)count * ((uint64_t)data_words + pointers))) {
        answer = capnp_layout_init_struct_list(message->bytes, message->room, &message->used, place, index, count, data_words,
                                               pointers, &first);
    }
    return first;
}

/* Makes the pointer lead to a new list of `count` structs, all zero. */
CAPNP_INLINE struct capnp_list_builder capnp_init_struct_list(const struct capnp_struct_builder *of, uint16_t index, uint32_t count,
                                                              uint16_t data_words, uint16_t pointers) {
    struct capnp_builder *message = of->message;
    struct capnp_list_builder made;
    uint32_t first = 0;
    if (message->refusal == 0) {
        uint64_t place = capnp_place(of->place);
        uint32_t answer = capnp_layout_init_struct_list(message->bytes, message->room, &message->used, place, index, count, data_words,
                                                        pointers, &first);
        if (answer != 0) first = capnp_init_struct_list_again(message, place, index, count, data_words, pointers, answer);
    }
    made.message = message;
    made.first.at = first;
    made.first.data_words = data_words;
    made.first.pointers = pointers;
    made.count = message->refusal == 0 ? count : 0;
    made.size = CAPNP_STRUCT;
    return made;
}

CAPNP_SELDOM uint32_t capnp_init_list_again(struct capnp_builder *message, uint64_t place, uint16_t index, enum capnp_size size,
                                            uint32_t count, uint32_t answer) {
    static const uint8_t bits[] = {0, 1, 8, 16, 32, 64, 64, 0};
    uint32_t first = 0;
    while (answer != 0 && capnp_again(message, answer, ((uint64_t)count * bits[(uint32_t)size & 7] + 63) / 64)) {
        answer = capnp_layout_init_list(message->bytes, message->room, &message->used, place, index, (uint32_t)size, count, &first);
    }
    return first;
}

/* Makes the pointer lead to a new list of `count` elements that aren't structs, all zero or null. */
CAPNP_INLINE struct capnp_list_builder capnp_init_list(const struct capnp_struct_builder *of, uint16_t index, enum capnp_size size,
                                                       uint32_t count) {
    struct capnp_builder *message = of->message;
    struct capnp_list_builder made;
    uint32_t first = 0;
    if (message->refusal == 0) {
        uint64_t place = capnp_place(of->place);
        uint32_t answer = capnp_layout_init_list(message->bytes, message->room, &message->used, place, index, (uint32_t)size, count, &first);
        if (answer != 0) first = capnp_init_list_again(message, place, index, size, count, answer);
    }
    made.message = message;
    made.first.at = first;
    made.first.data_words = 0;
    made.first.pointers = 1;
    made.count = message->refusal == 0 ? count : 0;
    made.size = size;
    return made;
}

/* How many words a list takes once it is one of structs of at least these sizes, with its tag. */
CAPNP_INLINE uint64_t capnp_widened_words(const struct capnp_struct_builder *of, uint16_t index, uint16_t data_words, uint16_t pointers) {
    struct capnp_builder *message = of->message;
    struct capnp_elements_at old;
    capnp_layout_get_list(message->bytes, message->room, message->used, capnp_place(of->place), index, CAPNP_VOID, &old);
    if (old.size >= CAPNP_BYTE && old.size <= CAPNP_EIGHT_BYTES) old.first.data_words = 1;
    if (old.size == CAPNP_POINTER) old.first.pointers = 1;
    if (old.first.data_words < data_words) old.first.data_words = data_words;
    if (old.first.pointers < pointers) old.first.pointers = pointers;
    return 1 + (uint64_t)old.count * ((uint64_t)old.first.data_words + old.first.pointers);
}

/* Opens the list that the pointer leads to, as a list of structs. One of smaller structs, as of an older schema, of numbers or of
 * pointers is moved to new words. Null stays null, and is a list without elements. */
CAPNP_INLINE struct capnp_list_builder capnp_open_struct_list(const struct capnp_struct_builder *of, uint16_t index, uint16_t data_words,
                                                              uint16_t pointers) {
    struct capnp_builder *message = of->message;
    struct capnp_list_builder found;
    struct capnp_elements_at at;
    memset(&at, 0, sizeof at);
    while (message->refusal == 0) {
        uint32_t answer = capnp_layout_get_struct_list(message->bytes, message->room, &message->used, capnp_place(of->place), index,
                                                       data_words, pointers, &at);
        uint64_t words = answer == CAPNP_NO_ROOM ? capnp_widened_words(of, index, data_words, pointers) : 0;
        if (!capnp_again(message, answer, words)) break;
    }
    found.message = message;
    found.first = at.first;
    found.count = at.count;
    found.size = CAPNP_STRUCT;
    return found;
}

/* Opens the list that the pointer leads to, of elements with the size `size` or a wider one, or of structs that begin with such
 * an element. `size` of the list says what they are. Null stays null, and is a list without elements. */
CAPNP_INLINE struct capnp_list_builder capnp_open_list(const struct capnp_struct_builder *of, uint16_t index, enum capnp_size size) {
    struct capnp_builder *message = of->message;
    struct capnp_list_builder found;
    struct capnp_elements_at at;
    memset(&at, 0, sizeof at);
    if (message->refusal == 0) {
        message->refusal = capnp_layout_get_list(message->bytes, message->room, message->used, capnp_place(of->place), index,
                                                 (uint32_t)size, &at);
    }
    found.message = message;
    found.first = at.first;
    if (at.size == CAPNP_POINTER) found.first.pointers = 1;
    found.count = at.count;
    found.size = at.count == 0 ? size : (enum capnp_size)at.size;
    return found;
}

/* Element `index` of a list of structs; or of a list of pointers, a struct without data, whose pointer 0 it is. If
 * there is no such element, a place that each call refuses. */
CAPNP_INLINE struct capnp_struct_builder capnp_builder_element(const struct capnp_list_builder *of, uint32_t index) {
    struct capnp_struct_builder element;
    uint32_t step = (uint32_t)of->first.data_words + of->first.pointers;
    bool is_there = index < of->count && (of->size == CAPNP_STRUCT || of->size == CAPNP_POINTER);
    element.message = of->message;
    element.place = of->first;
    element.place.at = is_there ? of->first.at + index * step : UINT32_MAX;
    return element;
}

/* The pointer with this index, in the form of a struct without data, whose pointer 0 it is. So it can be set later, by index 0,
 * to anything. If the struct has no such pointer, a place that each call refuses. */
CAPNP_INLINE struct capnp_struct_builder capnp_builder_pointer(const struct capnp_struct_builder *of, uint16_t index) {
    struct capnp_struct_builder to = *of;
    to.place.at = index < of->place.pointers ? of->place.at + of->place.data_words + index : UINT32_MAX;
    to.place.data_words = 0;
    to.place.pointers = 1;
    return to;
}

CAPNP_SELDOM void capnp_set_text_again(struct capnp_builder *message, uint64_t word, const char *text, size_t size, uint32_t answer) {
    while (answer != 0 && capnp_again(message, answer, (uint64_t)size / 8 + 1)) {
        answer = capnp_layout_set_text(message->bytes, message->room, &message->used, word, (const uint8_t *)text, size);
    }
}

/* Makes the pointer lead to a new text: `size` bytes, and a zero byte. */
CAPNP_INLINE void capnp_set_text_n(const struct capnp_struct_builder *of, uint16_t index, const char *text, size_t size) {
    struct capnp_builder *message = of->message;
    if (message->refusal == 0) {
        uint64_t word = capnp_pointer_word(of->place, index);
        uint32_t answer = capnp_layout_set_text(message->bytes, message->room, &message->used, word, (const uint8_t *)text, size);
        if (answer != 0) capnp_set_text_again(message, word, text, size, answer);
    }
}

CAPNP_INLINE void capnp_set_text(const struct capnp_struct_builder *of, uint16_t index, const char *text) {
    capnp_set_text_n(of, index, text, strlen(text));
}

CAPNP_SELDOM void capnp_set_data_again(struct capnp_builder *message, uint64_t word, const void *data, size_t size, uint32_t answer) {
    while (answer != 0 && capnp_again(message, answer, ((uint64_t)size + 7) / 8)) {
        answer = capnp_layout_set_data(message->bytes, message->room, &message->used, word, (const uint8_t *)data, size);
    }
}

/* Makes the pointer lead to new data. */
CAPNP_INLINE void capnp_set_data(const struct capnp_struct_builder *of, uint16_t index, const void *data, size_t size) {
    struct capnp_builder *message = of->message;
    if (message->refusal == 0) {
        uint64_t word = capnp_pointer_word(of->place, index);
        uint32_t answer = capnp_layout_set_data(message->bytes, message->room, &message->used, word, (const uint8_t *)data, size);
        if (answer != 0) capnp_set_data_again(message, word, data, size, answer);
    }
}

/* Makes the pointer null, and zeroes what it held. */
CAPNP_INLINE void capnp_clear(const struct capnp_struct_builder *of, uint16_t index) {
    struct capnp_builder *message = of->message;
    if (message->refusal == 0) {
        message->refusal = capnp_layout_clear(message->bytes, message->room, message->used, capnp_place(of->place), index);
    }
}

/* Makes the pointer the capability with this index in the message's capability table. */
CAPNP_INLINE void capnp_set_capability(const struct capnp_struct_builder *of, uint16_t index, uint32_t capability) {
    struct capnp_builder *message = of->message;
    if (message->refusal == 0) {
        message->refusal = capnp_layout_set_capability(message->bytes, message->room, message->used, capnp_place(of->place), index, capability);
    }
}

/* Whether the message has the number of `size` bytes at byte `offset` of a struct's data section. */
CAPNP_INLINE bool capnp_has_field(const struct capnp_struct_builder *of, uint32_t offset, uint32_t size) {
    return (uint64_t)of->place.at + of->place.data_words + of->place.pointers <= of->message->used &&
           (uint64_t)offset + size <= UINT64_C(8) * of->place.data_words && offset % size == 0;
}

/* Write a field of the data section. `offset` is in bytes from its start, for a bool in bits; it is refused if it isn't a
 * multiple of the field's width. `missing` is the schema's default, of a float as its bits. Write the tag of a union before
 * its member. */
#define CAPNP_SET(NAME, TYPE)                                                                                              \
    CAPNP_INLINE void capnp_set_##NAME(const struct capnp_struct_builder *of, uint32_t offset, TYPE value, TYPE missing) { \
        struct capnp_builder *message = of->message;                                                                       \
        TYPE bits = (TYPE)(value ^ missing);                                                                               \
        if (message->refusal != 0) return;                                                                                 \
        if (capnp_has_field(of, offset, (uint32_t)sizeof value)) {                                                         \
            memcpy(message->bytes + 8 * (size_t)of->place.at + offset, &bits, sizeof bits);                                \
        } else {                                                                                                           \
            message->refusal = CAPNP_NO_SUCH_PLACE;                                                                        \
        }                                                                                                                  \
    }
CAPNP_SET(u8, uint8_t)
CAPNP_SET(u16, uint16_t)
CAPNP_SET(u32, uint32_t)
CAPNP_SET(u64, uint64_t)
CAPNP_SET(i8, int8_t)
CAPNP_SET(i16, int16_t)
CAPNP_SET(i32, int32_t)
CAPNP_SET(i64, int64_t)
#undef CAPNP_SET

CAPNP_INLINE void capnp_set_bool(const struct capnp_struct_builder *of, uint32_t offset, bool value, bool missing) {
    struct capnp_builder *message = of->message;
    if (message->refusal == 0) {
        message->refusal = capnp_layout_set_bool(message->bytes, message->room, message->used, capnp_place(of->place), offset, value != missing);
    }
}

CAPNP_INLINE void capnp_set_f32(const struct capnp_struct_builder *of, uint32_t offset, float value, uint32_t missing) {
    uint32_t bits;
    memcpy(&bits, &value, sizeof bits);
    capnp_set_u32(of, offset, bits, missing);
}

CAPNP_INLINE void capnp_set_f64(const struct capnp_struct_builder *of, uint32_t offset, double value, uint64_t missing) {
    uint64_t bits;
    memcpy(&bits, &value, sizeof bits);
    capnp_set_u64(of, offset, bits, missing);
}

/* Write element `index` of a list of numbers that are as wide, or of bits. */
#define CAPNP_SET_ELEMENT(NAME, TYPE, UNSIGNED, CALL, SIZE)                                                                  \
    CAPNP_INLINE void capnp_set_element_##NAME(const struct capnp_list_builder *of, uint32_t index, TYPE value) {            \
        struct capnp_builder *message = of->message;                                                                         \
        UNSIGNED bits;                                                                                                       \
        memcpy(&bits, &value, sizeof bits);                                                                                  \
        if (message->refusal == 0) {                                                                                         \
            message->refusal = capnp_layout_set_element_##CALL(message->bytes, message->room, message->used,                 \
                                                               capnp_list_place(of->first.at, of->size == SIZE ? of->count : 0), \
                                                               index, bits);                                                 \
        }                                                                                                                    \
    }
CAPNP_SET_ELEMENT(u8, uint8_t, uint8_t, u8, CAPNP_BYTE)
CAPNP_SET_ELEMENT(u16, uint16_t, uint16_t, u16, CAPNP_TWO_BYTES)
CAPNP_SET_ELEMENT(u32, uint32_t, uint32_t, u32, CAPNP_FOUR_BYTES)
CAPNP_SET_ELEMENT(u64, uint64_t, uint64_t, u64, CAPNP_EIGHT_BYTES)
CAPNP_SET_ELEMENT(i8, int8_t, uint8_t, u8, CAPNP_BYTE)
CAPNP_SET_ELEMENT(i16, int16_t, uint16_t, u16, CAPNP_TWO_BYTES)
CAPNP_SET_ELEMENT(i32, int32_t, uint32_t, u32, CAPNP_FOUR_BYTES)
CAPNP_SET_ELEMENT(i64, int64_t, uint64_t, u64, CAPNP_EIGHT_BYTES)
CAPNP_SET_ELEMENT(f32, float, uint32_t, u32, CAPNP_FOUR_BYTES)
CAPNP_SET_ELEMENT(f64, double, uint64_t, u64, CAPNP_EIGHT_BYTES)
CAPNP_SET_ELEMENT(bool, bool, bool, bool, CAPNP_BIT)
#undef CAPNP_SET_ELEMENT

/* Make element `index` of a list of pointers lead to a new text, or to new data. For other objects call
 * capnp_builder_element first. */
CAPNP_INLINE void capnp_set_element_text(const struct capnp_list_builder *of, uint32_t index, const char *text) {
    struct capnp_struct_builder element = capnp_builder_element(of, index);
    capnp_set_text(&element, 0, text);
}

CAPNP_INLINE void capnp_set_element_data(const struct capnp_list_builder *of, uint32_t index, const void *data, size_t size) {
    struct capnp_struct_builder element = capnp_builder_element(of, index);
    capnp_set_data(&element, 0, data, size);
}

/* capnp_layout_copy, or capnp_layout_copy_canonical. */
typedef uint32_t (*capnp_copying)(uint8_t *bytes, size_t room, uint32_t *used, uint64_t place, uint16_t index,
                                  const struct capnp_segments *segments, uint64_t *left, uint64_t segment, uint32_t word, int32_t nesting);

/* Copies by one of these what the pointer at word `word` of a segment of another message leads to, of any type, to pointer
 * `index`. Takes what reading all of it costs from the limit of that message. A refusal to read it is kept by both messages. */
CAPNP_INLINE void capnp_copy_by(capnp_copying copying, const struct capnp_struct_builder *of, uint16_t index, struct capnp_message *from,
                                uint64_t segment, uint32_t word, int32_t nesting) {
    struct capnp_builder *message = of->message;
    uint32_t used = message->used, answer;
    /* What reading costs is counted without a limit too, because the room that is wanted follows from it. */
    bool is_limited = from->left != CAPNP_NO_LIMIT;
    uint64_t before = is_limited ? from->left : CAPNP_NO_LIMIT - 1, left;
    while (message->refusal == 0) {
        left = before;
        answer = copying(message->bytes, message->room, &message->used, capnp_place(of->place), index, &from->segments, &left, segment,
                         word, nesting);
        if (is_limited) from->left = left;
        if (answer != 0 && answer != CAPNP_NO_ROOM && answer != CAPNP_NO_SUCH_PLACE) capnp_refuse(from, answer, segment, word);
        /* What a refused copy has allocated is zero, and no pointer leads there. */
        if (answer == CAPNP_NO_ROOM) message->used = used;
        /* A copy has at most one word more than twice what reading it costs. What was read until the buffer was full is known. */
        if (answer == 0 || !capnp_again(message, answer, 2 * (before - left) + 1)) break;
    }
}

CAPNP_INLINE void capnp_copy_pointer(const struct capnp_struct_builder *of, uint16_t index, struct capnp_message *from, uint64_t segment,
                                     uint32_t word, int32_t nesting) {
    capnp_copy_by(capnp_layout_copy, of, index, from, segment, word, nesting);
}

/* The same, for pointer `from_index` of a struct that is read. If the struct has no such pointer, the copy is null. */
CAPNP_INLINE void capnp_copy(const struct capnp_struct_builder *of, uint16_t index, const struct capnp_struct *from, uint16_t from_index) {
    if (from_index < from->at.pointers) {
        capnp_copy_pointer(of, index, from->message, from->at.segment, from->at.pointers_at + from_index, from->at.nesting);
    } else {
        capnp_clear(of, index);
    }
}

/* The same, in canonical form. A value with a capability is refused. */
CAPNP_INLINE void capnp_copy_canonical(const struct capnp_struct_builder *of, uint16_t index, const struct capnp_struct *from,
                                       uint16_t from_index) {
    if (from_index < from->at.pointers) {
        capnp_copy_by(capnp_layout_copy_canonical, of, index, from->message, from->at.segment, from->at.pointers_at + from_index,
                      from->at.nesting);
    } else {
        capnp_clear(of, index);
    }
}

/* The same, for the root of a message, which becomes the root of this one. */
CAPNP_INLINE void capnp_copy_root(struct capnp_builder *message, struct capnp_message *from) {
    struct capnp_struct_builder root = capnp_root_pointer(message);
    capnp_copy_pointer(&root, 0, from, 0, 0, from->nesting);
}

/* The same, in canonical form. If this message was just started, it is the canonical one afterwards. */
CAPNP_INLINE void capnp_copy_root_canonical(struct capnp_builder *message, struct capnp_message *from) {
    struct capnp_struct_builder root = capnp_root_pointer(message);
    capnp_copy_by(capnp_layout_copy_canonical, &root, 0, from, 0, 0, from->nesting);
}

/* Writes the table in front of the segment, and returns the frame, of `size` bytes; null if a call was refused. Building may
 * go on, and the message be finished again. */
CAPNP_INLINE const uint8_t *capnp_finish(struct capnp_builder *message, size_t *size) {
    uint32_t i;
    *size = 0;
    if (message->refusal != 0) return NULL;
    memset(message->bytes - 8, 0, 4);
    for (i = 0; i < 4; i++) message->bytes[(int32_t)i - 4] = (uint8_t)(message->used >> (8 * i));
    *size = 8 + 8 * (size_t)message->used;
    return message->bytes - 8;
}

#ifdef __cplusplus
}
#endif

#endif
