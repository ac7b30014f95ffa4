/* Canonical form of Cap'n Proto messages ("Canonicalization" in the encoding specification), for C and C++: copies a
 * message into canonical form, hashes that form, tests whether a message is canonical, and measures it.
 *
 * You pass a message in one of three ways:
 *   - as a frame ("Serialization Over a Stream"), as `capnp encode`, capnp::writeMessage and Rust's
 *     serialize::write_message write it;
 *   - as its segments, as MessageReader::getSegment and Rust's ReaderSegments give them: capnp_canonical_segments_*;
 *   - as its raw words, which are a message of one segment without its segment table: capnp_canonical_words_*. Calls
 *     named `flat` write raw words.
 * Unpack packed bytes ("Packing") first, with capnp_canonical_unpack; capnp_canonical_pack packs frames.
 *
 * Two messages have the same canonical bytes exactly if their values are equal once zeros and nulls at the ends of
 * structs are dropped (docs/THEOREM.md).
 *
 * WARNING: raw words aren't a frame. Hash, sign and store what capnp_canonical_copy_flat and
 * capnp_canonical_segments_copy_flat write, and read it back with the calls named capnp_canonical_words_*. The calls
 * that take a frame may SUCCEED on raw words, and then read ANOTHER value: the pointer to a root struct of DDDD data
 * words and no pointers, `00 00 00 00 DD DD 00 00`, is also the segment table of a frame of one segment of DDDD words.
 * Nothing in the bytes says which they are.
 *
 * Limits. `nesting` is the nesting limit: how deep structs and lists may be nested. `words` is the traversal limit in
 * words of 8 bytes: how many words may be read, including the root pointer. A frame may not have more words than that
 * either. CAPNP_CANONICAL_NESTING and CAPNP_CANONICAL_WORDS are the defaults of C++ and Rust.
 *
 * Answers. Each call returns CAPNP_CANONICAL_DONE or the number of a refusal. A number never changes its meaning.
 *
 * Memory. No call keeps anything, so several threads may call at once. If both a message and its copy have fewer than
 * 64 words, the copy is made on the stack. A longer message that is already canonical is copied from your buffer, or
 * hashed in it. For others, the calls that copy or hash take memory with malloc, about the size of the canonical
 * message, and free it before they return. No other call takes any.
 *
 * Stack. `nesting` is all that bounds the stack of a call, which must have room for so many levels. A level of nesting
 * takes up to 624 bytes as ./install builds the library, which is for x86-64-v2 and later. As make builds it from
 * generated/, for any 64-bit processor, it takes up to 640 bytes with clang, 768 with gcc, and 11,056 if the compiler
 * doesn't optimise. A call takes another 9 KB, or 21 KB if it doesn't. This is measured on x86-64, not proved.
 *
 * What you have to keep. A pointer to bytes or segments goes with their number, and may be null if that is 0. No other
 * pointer may be null. What a call writes to must overlap nothing else that you pass to it, and nothing may change what
 * it reads while it runs. Don't call from a signal handler, nor in the forked child of a process with threads. */
#ifndef CAPNP_CANONICAL_H
#define CAPNP_CANONICAL_H

#include <stdbool.h>
#include <stddef.h>
#include <stdint.h>

/* Functions defined in this header, not in the library. */
#define CAPNP_CANONICAL_INLINE static inline

/* What the library's functions are declared with. A static library needs nothing. For a shared one or a DLL, define
 * CAPNP_CANONICAL_SHARED for its users, and CAPNP_CANONICAL_BUILDS_SHARED for the library: its functions are then visible
 * with -fvisibility=hidden too, and exported from a DLL. Define CAPNP_CANONICAL_API yourself for anything else. */
#ifndef CAPNP_CANONICAL_API
#if defined(_WIN32) && defined(CAPNP_CANONICAL_BUILDS_SHARED)
#define CAPNP_CANONICAL_API __declspec(dllexport)
#elif defined(_WIN32) && defined(CAPNP_CANONICAL_SHARED)
#define CAPNP_CANONICAL_API __declspec(dllimport)
#elif defined(__GNUC__) && (defined(CAPNP_CANONICAL_SHARED) || defined(CAPNP_CANONICAL_BUILDS_SHARED))
#define CAPNP_CANONICAL_API __attribute__((visibility("default")))
#else
#define CAPNP_CANONICAL_API
#endif
#endif

/* What compilers warn of: an answer that is ignored; null for a pointer that may not be null, by the number of the
 * argument; and with gcc, bytes that are fewer than their number says, by the numbers of both arguments. */
#ifdef __GNUC__
#define CAPNP_CANONICAL_CHECKED __attribute__((warn_unused_result))
#define CAPNP_CANONICAL_NEEDS(...) __attribute__((nonnull(__VA_ARGS__)))
#define CAPNP_CANONICAL_DEPRECATED(text) __attribute__((deprecated(text)))
#else
#define CAPNP_CANONICAL_CHECKED
#define CAPNP_CANONICAL_NEEDS(...)
#define CAPNP_CANONICAL_DEPRECATED(text)
#endif
#if defined(__GNUC__) && !defined(__clang__) && __GNUC__ >= 10
#define CAPNP_CANONICAL_READS(at, size) __attribute__((access(read_only, at, size)))
#define CAPNP_CANONICAL_WRITES(at, size) __attribute__((access(write_only, at, size)))
#else
#define CAPNP_CANONICAL_READS(at, size)
#define CAPNP_CANONICAL_WRITES(at, size)
#endif

#ifdef __cplusplus
extern "C" {
#endif

/* The version of this header: major * 10000 + minor * 100 + patch. */
#define CAPNP_CANONICAL_VERSION 10100
#define CAPNP_CANONICAL_VERSION_TEXT "1.1.0"

/* The default limits. */
#define CAPNP_CANONICAL_NESTING 64
#define CAPNP_CANONICAL_WORDS UINT64_C(8388608)

/* The largest nesting limit in C++, Rust, Python and JavaScript. The calls of this header take any number; a larger one needs
 * a stack with room for so many levels. */
#define CAPNP_CANONICAL_MAX_NESTING 1024

/* Enough room for any text that capnp_canonical_name, _reason_text or _version_text writes, with its terminating
 * zero. */
#define CAPNP_CANONICAL_TEXT_ROOM 96

/* What a call returns. 57, 58 and 60 all mean that the message is nested too deeply: treat them alike. */
enum capnp_canonical_answer {
    CAPNP_CANONICAL_DONE = 0,
    /* The buffer is too small. The call writes the size that is needed. */
    CAPNP_CANONICAL_NO_ROOM = 1,
    /* There are no bytes where a frame was expected. */
    CAPNP_CANONICAL_NO_MESSAGE = 2,
    /* The size of a segment isn't a multiple of 8 bytes. */
    CAPNP_CANONICAL_SEGMENT_IS_NOT_WHOLE_WORDS = 3,
    /* The frame has more than 512 segments. */
    CAPNP_CANONICAL_TOO_MANY_SEGMENTS = 17,
    /* The frame or the unpacked bytes have more words than the limit. */
    CAPNP_CANONICAL_MESSAGE_TOO_LONG = 18,
    /* The bytes end inside a frame or a packed word. The count after a packed word is a part of it. */
    CAPNP_CANONICAL_TRUNCATED = 19,
    /* Memory ran out. */
    CAPNP_CANONICAL_ALLOCATION_FAILED = 32,
    /* The value contains a capability, so it has no canonical form. */
    CAPNP_CANONICAL_CANNOT_CREATE_A_CANONICAL_MESSAGE_WITH_A_CAPABILITY = 33,
    /* The tag of a list of structs isn't a struct pointer. From the calls that measure. */
    CAPNP_CANONICAL_CANT_HANDLE_NON_STRUCT_INLINE_COMPOSITE = 34,
    /* The elements of a list of structs take more words than its pointer claims. */
    CAPNP_CANONICAL_INLINE_COMPOSITE_LISTS_ELEMENTS_OVERRUN_ITS_WORD_COUNT = 42,
    /* The tag of a list of structs isn't a struct pointer. From the calls that copy and those that test. */
    CAPNP_CANONICAL_INLINE_COMPOSITE_LISTS_OF_NON_STRUCT_TYPE_ARE_NOT_SUPPORTED = 43,
    /* A far pointer names a segment that doesn't exist, or there are no segments. */
    CAPNP_CANONICAL_INVALID_SEGMENT_ID = 44,
    /* A one-word landing pad, or the tag of a two-word landing pad, is itself a far pointer. */
    CAPNP_CANONICAL_MALFORMED_DOUBLE_FAR_POINTER = 45,
    /* A pointer points outside its segment. */
    CAPNP_CANONICAL_MESSAGE_CONTAINS_OUT_OF_BOUNDS_POINTER = 55,
    /* The nesting limit is exceeded. From the calls that measure. */
    CAPNP_CANONICAL_MESSAGE_IS_TOO_DEEPLY_NESTED = 57,
    /* The nesting limit is exceeded, perhaps by a cycle of pointers. From the calls that copy, and from those that
     * test, at a struct. */
    CAPNP_CANONICAL_MESSAGE_IS_TOO_DEEPLY_NESTED_OR_CONTAINS_CYCLES = 58,
    /* The message or its canonical form is larger than the format allows. The canonical message would have more than
     * 536,870,911 words, there are 2^32 or more segments, or a segment has 2^32 or more words. */
    CAPNP_CANONICAL_MESSAGE_TOO_LARGE = 59,
    /* The nesting limit is exceeded. From the calls that test, at a list. */
    CAPNP_CANONICAL_NESTING_LIMIT_EXCEEDED = 60,
    /* The path leads nowhere. From the calls for a part. */
    CAPNP_CANONICAL_NO_SUCH_PLACE = 61,
    /* The traversal limit is exceeded. */
    CAPNP_CANONICAL_READ_LIMIT_EXCEEDED = 62,
    /* A pointer is of an unknown kind. */
    CAPNP_CANONICAL_UNKNOWN_POINTER_TYPE = 66
};

/* What sort of refusal an answer is, for programs that treat several alike: see capnp_canonical_class_of. */
enum capnp_canonical_class {
    /* Not refused: CAPNP_CANONICAL_DONE. */
    CAPNP_CANONICAL_CLASS_NONE = 0,
    /* The bytes end too early, or aren't a message: whole words are missing, or a pointer is broken. */
    CAPNP_CANONICAL_CLASS_MALFORMED = 1,
    /* The message is over a limit: one of the caller's, or the number of segments or words that the format or a frame
     * may have. */
    CAPNP_CANONICAL_CLASS_LIMIT = 2,
    /* The value has a capability. */
    CAPNP_CANONICAL_CLASS_CAPABILITY = 3,
    /* The caller's buffer is too small. */
    CAPNP_CANONICAL_CLASS_ROOM = 4,
    /* Memory ran out. */
    CAPNP_CANONICAL_CLASS_MEMORY = 5,
    /* The path leads nowhere. */
    CAPNP_CANONICAL_CLASS_PATH = 6,
    /* A refusal that this header doesn't know, of a newer library. */
    CAPNP_CANONICAL_CLASS_OTHER = 7
};

/* Why a message isn't canonical. Each comment has the reason, and after the colon the word that the fault names. */
enum capnp_canonical_reason {
    /* It is canonical. */
    CAPNP_CANONICAL_REASON_NONE = 0,
    /* A number of segments other than one: the first word of segment 1, or of segment 0 if there is none. */
    CAPNP_CANONICAL_REASON_SEGMENT_COUNT = 1,
    /* No word where a pointer should be: the place of the missing word. */
    CAPNP_CANONICAL_REASON_NO_POINTER = 2,
    /* A far pointer: the word itself. */
    CAPNP_CANONICAL_REASON_FAR_POINTER = 3,
    /* A capability: the word itself. */
    CAPNP_CANONICAL_REASON_CAPABILITY = 4,
    /* A pointer of an unknown kind: the word itself. */
    CAPNP_CANONICAL_REASON_UNKNOWN_POINTER = 5,
    /* A pointer to an empty struct with an offset other than -1: the pointer. */
    CAPNP_CANONICAL_REASON_EMPTY_STRUCT_PLACE = 6,
    /* A pointer to an object that isn't directly next in order: the pointer. */
    CAPNP_CANONICAL_REASON_OBJECT_PLACE = 7,
    /* A list whose padding isn't zero: the word with the padding. */
    CAPNP_CANONICAL_REASON_PADDING = 8,
    /* A data section whose last word is zero: the last word. */
    CAPNP_CANONICAL_REASON_DATA_SECTION = 9,
    /* A pointer section whose last pointer is null: the last pointer. */
    CAPNP_CANONICAL_REASON_POINTER_SECTION = 10,
    /* A list of structs whose pointer claims more words than its elements take: the tag. */
    CAPNP_CANONICAL_REASON_ELEMENT_WORDS = 11,
    /* A list of structs with more data words than any element needs: the tag. */
    CAPNP_CANONICAL_REASON_ELEMENT_DATA = 12,
    /* A list of structs with more pointers than any element needs: the tag. */
    CAPNP_CANONICAL_REASON_ELEMENT_POINTERS = 13,
    /* Words after the value: the first of them. */
    CAPNP_CANONICAL_REASON_WORDS_BEHIND = 14
};

/* Why and where a message isn't canonical. */
struct capnp_canonical_fault {
    /* A number of enum capnp_canonical_reason. */
    uint32_t reason;
    /* The position in the segment, in words. */
    uint32_t word;
    /* The number of the segment. */
    uint64_t segment;
};

/* How deep the value of a message is, how much it holds, and what reading it costs. */
struct capnp_canonical_extent {
    /* The number of words of all objects, without landing pads; 2^64 - 1 if there are more. An object counts each time a
     * pointer leads to it. */
    uint64_t words;
    /* The number of capabilities; 2^64 - 1 if there are more. */
    uint64_t capabilities;
    /* The number of words that reading the whole value once takes from the traversal limit: the least limit within which
     * the message is sound. It counts one for the root pointer. */
    uint64_t cost;
    /* The number of structs and lists that are nested in each other, at most: the least nesting limit. */
    uint32_t depth;
};

/* How far a packed stream is unpacked, for capnp_canonical_unpack_piece. All 0 at the start of a stream, as
 * `struct capnp_canonical_unpacking unpacking = {0};` makes it; only the calls change it. If it is all 0 after a call, the
 * packed bytes may end there. */
struct capnp_canonical_unpacking {
    /* The number of zero bytes that are unpacked and not written yet. */
    uint16_t zeros;
    /* Where the next packed byte is, inside a word or a run of words. */
    uint16_t left;
    uint8_t place;
    uint8_t bits;
};

/* How capnp_canonical_locate reads a message. */
enum capnp_canonical_reading {
    /* As the calls that validate and those that test read it. */
    CAPNP_CANONICAL_READING_VALUE = 0,
    /* As the calls that copy and those that hash read it, which refuse a capability. */
    CAPNP_CANONICAL_READING_CANONICAL = 1,
    /* As the calls that measure read it. */
    CAPNP_CANONICAL_READING_SIZE = 2
};

/* The pointer at which reading a message stops. */
struct capnp_canonical_pointer {
    /* Why: a number of enum capnp_canonical_answer; CAPNP_CANONICAL_DONE if the whole value is read. */
    uint32_t refusal;
    /* The position in the segment, in words. */
    uint32_t word;
    /* The number of the segment. */
    uint64_t segment;
};

/* What an object of a message is. A list has the format's number of its element size ("Lists"). */
enum capnp_canonical_kind {
    CAPNP_CANONICAL_KIND_LIST_OF_VOID = 0,
    CAPNP_CANONICAL_KIND_LIST_OF_BITS = 1,
    CAPNP_CANONICAL_KIND_LIST_OF_BYTES = 2,
    CAPNP_CANONICAL_KIND_LIST_OF_TWO_BYTES = 3,
    CAPNP_CANONICAL_KIND_LIST_OF_FOUR_BYTES = 4,
    CAPNP_CANONICAL_KIND_LIST_OF_EIGHT_BYTES = 5,
    CAPNP_CANONICAL_KIND_LIST_OF_POINTERS = 6,
    CAPNP_CANONICAL_KIND_LIST_OF_STRUCTS = 7,
    CAPNP_CANONICAL_KIND_STRUCT = 8,
    CAPNP_CANONICAL_KIND_CAPABILITY = 9
};

/* The parent of the object that the root pointer leads to. */
#define CAPNP_CANONICAL_NO_PARENT UINT64_MAX

/* An object of a message: its kind and place, and the place of the pointer that leads to it. */
struct capnp_canonical_object {
    /* The index of the object that the pointer is in; CAPNP_CANONICAL_NO_PARENT for the root pointer. */
    uint64_t parent;
    /* The number of the pointer's segment. */
    uint64_t pointer_segment;
    /* The number of the object's segment; 0 for a capability. */
    uint64_t segment;
    /* The position of the pointer in its segment, in words. */
    uint32_t pointer_word;
    /* The position of the object in its segment, in words: of its first word, but of the first word after the tag for a list
     * of structs; 0 for a capability. */
    uint32_t word;
    /* A number of enum capnp_canonical_kind. */
    uint32_t kind;
    /* The number of elements of a list; otherwise 0. */
    uint32_t count;
    /* The index of a capability; otherwise 0. */
    uint32_t capability;
    /* The number of data words of a struct, or of each element of a list of structs; otherwise 0. */
    uint16_t data_words;
    /* The number of pointers of a struct, or of each element of a list of structs; otherwise 0. */
    uint16_t pointers;
};

/* A segment of a message. */
struct capnp_canonical_segment {
    /* Its first byte, at any address; may be null if `size` is 0. */
    const uint8_t *bytes;
    /* Its size in bytes, a multiple of 8. */
    size_t size;
};

/* A constant text: its bytes, with a terminating zero, and their number, which counts the zero. */
struct capnp_canonical_text {
    const char *bytes;
    size_t size;
};

/* Makes the message at `frame` canonical. Writes it as a frame of one segment to the front of the `room` bytes at `to`,
 * and its size in bytes to `*written`. `frame_size` is the number of bytes at `frame`; bytes after the end of the frame
 * are ignored.
 *
 * CAPNP_CANONICAL_NO_ROOM means that the copy takes more than `room` bytes, and `*written` says how many; so pass null
 * and 0 to ask for the size. 16 bytes, plus 8 for each word that capnp_canonical_size gives, are always enough. After
 * any other refusal `*written` is 0. Bytes of `to` after those written stay as they are, and after a refusal all of
 * them do. */
CAPNP_CANONICAL_API CAPNP_CANONICAL_CHECKED CAPNP_CANONICAL_NEEDS(7) CAPNP_CANONICAL_READS(1, 2) CAPNP_CANONICAL_WRITES(5, 6)
uint32_t capnp_canonical_copy(const uint8_t *frame, size_t frame_size, int32_t nesting, uint64_t words, uint8_t *to, size_t room, size_t *written);

/* The same, but writes raw words, without the segment table: the bytes to hash or sign. 8 bytes, plus 8 for each word
 * that capnp_canonical_size gives, are always enough. */
CAPNP_CANONICAL_API CAPNP_CANONICAL_CHECKED CAPNP_CANONICAL_NEEDS(7) CAPNP_CANONICAL_READS(1, 2) CAPNP_CANONICAL_WRITES(5, 6)
uint32_t capnp_canonical_copy_flat(const uint8_t *frame, size_t frame_size, int32_t nesting, uint64_t words, uint8_t *to, size_t room, size_t *written);

/* Writes the SHA-256 of the canonical words of the message at `frame` to the 32 bytes at `digest`: the hash of the bytes
 * that capnp_canonical_copy_flat writes. It names the value: messages with equal values have the same. It needs no room
 * for the copy. The refusals are those of capnp_canonical_copy_flat, except that there is always room. After a refusal
 * the 32 bytes are 0. */
CAPNP_CANONICAL_API CAPNP_CANONICAL_CHECKED CAPNP_CANONICAL_NEEDS(5) CAPNP_CANONICAL_READS(1, 2)
uint32_t capnp_canonical_digest(const uint8_t *frame, size_t frame_size, int32_t nesting, uint64_t words, uint8_t digest[32]);

/* The same, but hashes the `prefix_size` bytes at `prefix` first, and the canonical words after them. Canonical words don't
 * tell their type: with the 8 bytes of a type id as the prefix, the digest and a signature of it cover the type. The
 * prefixes of all digests that are compared should have one size, or none should begin with another. The refusals are those
 * of capnp_canonical_digest. */
CAPNP_CANONICAL_API CAPNP_CANONICAL_CHECKED CAPNP_CANONICAL_NEEDS(7) CAPNP_CANONICAL_READS(1, 2) CAPNP_CANONICAL_READS(3, 4)
uint32_t capnp_canonical_digest_with(const uint8_t *prefix, size_t prefix_size, const uint8_t *frame, size_t frame_size, int32_t nesting, uint64_t words, uint8_t digest[32]);

/* Tests whether two messages mean equal values, and writes the answer to `*is_equal`: whether capnp_canonical_copy_flat
 * writes the same bytes for both. Each is read within both limits. The refusals are those of capnp_canonical_digest: the
 * one of the first message if there is one, and otherwise the other's. `*is_equal` is then false. A message of 64 words or
 * more that is canonical already is compared in its buffer, without memory. */
CAPNP_CANONICAL_API CAPNP_CANONICAL_CHECKED CAPNP_CANONICAL_NEEDS(7) CAPNP_CANONICAL_READS(1, 2) CAPNP_CANONICAL_READS(3, 4)
uint32_t capnp_canonical_equal(const uint8_t *one, size_t one_size, const uint8_t *other, size_t other_size, int32_t nesting, uint64_t words, bool *is_equal);

/* Tests whether the message of the frame at the front of `frame_size` bytes is canonical: one segment, which holds the
 * canonical words of a value and nothing else. Writes the answer to `*is_canonical`. If it is true, the value is also
 * within both limits. If it is false, `*fault` says why and where. If it is true, or the call is refused, the numbers of
 * `*fault` are 0. After a refusal `*is_canonical` is false. */
CAPNP_CANONICAL_API CAPNP_CANONICAL_CHECKED CAPNP_CANONICAL_NEEDS(5, 6) CAPNP_CANONICAL_READS(1, 2)
uint32_t capnp_canonical_check(const uint8_t *frame, size_t frame_size, int32_t nesting, uint64_t words, bool *is_canonical, struct capnp_canonical_fault *fault);

/* Counts the words and capabilities that the root of the message leads to, without the root pointer and landing pads,
 * and writes them to `*word_count` and `*cap_count`. The frame is at the front of `frame_size` bytes. After a refusal
 * both are 0. */
CAPNP_CANONICAL_API CAPNP_CANONICAL_CHECKED CAPNP_CANONICAL_NEEDS(5, 6) CAPNP_CANONICAL_READS(1, 2)
uint32_t capnp_canonical_size(const uint8_t *frame, size_t frame_size, int32_t nesting, uint64_t words, uint64_t *word_count, uint32_t *cap_count);

/* Tests whether the message is sound: whether its root means a value within both limits. The value may have capabilities.
 * Exactly then the answer is CAPNP_CANONICAL_DONE, and `*extent` tells how deep the value is, how much it holds, and what
 * reading it costs. Otherwise the answer is the first fault that reading the value meets, and `*extent` is all 0. The
 * frame is at the front of `frame_size` bytes. Takes no memory, and doesn't read the data of structs and lists. */
CAPNP_CANONICAL_API CAPNP_CANONICAL_CHECKED CAPNP_CANONICAL_NEEDS(5) CAPNP_CANONICAL_READS(1, 2)
uint32_t capnp_canonical_validate(const uint8_t *frame, size_t frame_size, int32_t nesting, uint64_t words, struct capnp_canonical_extent *extent);

/* Finds the pointer at which the message is broken, after another call has refused it: the first pointer, in the order of
 * reading, whose object can't be read. Writes its place and its refusal to `*pointer`. If the root pointer itself is
 * refused, because there is none or `words` is 0, that is word 0 of segment 0. If the whole value is read, the numbers of
 * `*pointer` are 0. `reading` is one of enum capnp_canonical_reading, by the call that refused the message; any other
 * number counts as CAPNP_CANONICAL_READING_VALUE. The frame is at the front of `frame_size` bytes. Takes no memory. The
 * other calls don't remember places: this one reads the message once more, which takes about as long as they did.
 *
 * `refusal` is the number that the other call returned, except that a call that tests returns
 * CAPNP_CANONICAL_NESTING_LIMIT_EXCEEDED at a list. These refusals are of no pointer: those of bytes that aren't a frame,
 * or of segments that aren't whole words, which this call returns too, with the numbers of `*pointer` 0;
 * CAPNP_CANONICAL_NO_ROOM, _ALLOCATION_FAILED and _MESSAGE_TOO_LARGE. It looks at the whole message, so don't call it for
 * the calls that take a path. */
CAPNP_CANONICAL_API CAPNP_CANONICAL_CHECKED CAPNP_CANONICAL_NEEDS(6) CAPNP_CANONICAL_READS(1, 2)
uint32_t capnp_canonical_locate(const uint8_t *frame, size_t frame_size, int32_t nesting, uint64_t words, uint32_t reading, struct capnp_canonical_pointer *pointer);

/* Lists the objects of the message: writes one entry to the array at `objects`, which has room for `room` of them, for each
 * struct, list and capability, and their number to `*count`. An object comes before those that its own pointers lead to,
 * and these come in the order of the pointers. Null pointers have no entry, and neither has an element of a list of
 * structs: `parent` is then the list, and the place of the pointer tells the element. An object that several pointers lead
 * to has an entry for each. The frame is at the front of `frame_size` bytes. Takes no memory.
 *
 * CAPNP_CANONICAL_NO_ROOM means that there are more than `room` objects; those that fit are written, and `*count` is the
 * number of all of them. It is at most `words`, since each pointer that is read takes a word of the limit. So pass null and
 * 0 to ask for the number. A message that isn't sound is refused as capnp_canonical_validate refuses it. The objects before
 * the broken pointer, in the order of the list, are still written and counted; capnp_canonical_locate finds that pointer.
 * `*count` is 0 if there is no such frame. Entries after those that are written stay as they are. */
CAPNP_CANONICAL_API CAPNP_CANONICAL_CHECKED CAPNP_CANONICAL_NEEDS(7) CAPNP_CANONICAL_READS(1, 2) CAPNP_CANONICAL_WRITES(5, 6)
uint32_t capnp_canonical_walk(const uint8_t *frame, size_t frame_size, int32_t nesting, uint64_t words, struct capnp_canonical_object *objects, size_t room, size_t *count);

/* copy_flat, digest, digest_with and size for a part of the message: for the value at the end of a path. If
 * `struct Signed { payload @0 :Payload; signature @1 :Data; }` is the root, the path {0} leads to the payload, whose words
 * can be signed. `path` is `steps` indexes; it may be null if `steps` is 0, which leads to the root pointer. An index
 * leads from a struct to its pointer with this index, which isn't the field's number: only pointers count, and a schema's
 * code has their indexes; from a list of pointers to an element; from a list of structs to an element, which is a struct.
 *
 * CAPNP_CANONICAL_NO_SUCH_PLACE means that the path leads nowhere: an index is too large; or a pointer on the way is
 * null, a capability or a list without pointers. The pointer at the end may be null; the part then has the words of a
 * null root. But a struct may have fewer pointers than in your schema: if an older schema wrote it, or in a canonical
 * copy, which ends before the last null pointers. A path to a pointer that isn't there is refused, not taken as null.
 *
 * Reading the path and the part has the limits of the other calls. The rest of the message isn't read, so it needn't be
 * sound. The words of the part are those that the other calls give for a message with this value at its root. 8 bytes,
 * plus 8 for each word that capnp_canonical_size_at gives, are always enough for them. */
CAPNP_CANONICAL_API CAPNP_CANONICAL_CHECKED CAPNP_CANONICAL_NEEDS(9) CAPNP_CANONICAL_READS(1, 2) CAPNP_CANONICAL_READS(3, 4) CAPNP_CANONICAL_WRITES(7, 8)
uint32_t capnp_canonical_copy_flat_at(const uint8_t *frame, size_t frame_size, const uint32_t *path, size_t steps, int32_t nesting, uint64_t words, uint8_t *to, size_t room, size_t *written);

CAPNP_CANONICAL_API CAPNP_CANONICAL_CHECKED CAPNP_CANONICAL_NEEDS(7) CAPNP_CANONICAL_READS(1, 2) CAPNP_CANONICAL_READS(3, 4)
uint32_t capnp_canonical_digest_at(const uint8_t *frame, size_t frame_size, const uint32_t *path, size_t steps, int32_t nesting, uint64_t words, uint8_t digest[32]);

CAPNP_CANONICAL_API CAPNP_CANONICAL_CHECKED CAPNP_CANONICAL_NEEDS(9) CAPNP_CANONICAL_READS(1, 2) CAPNP_CANONICAL_READS(3, 4) CAPNP_CANONICAL_READS(5, 6)
uint32_t capnp_canonical_digest_with_at(const uint8_t *prefix, size_t prefix_size, const uint8_t *frame, size_t frame_size, const uint32_t *path, size_t steps, int32_t nesting, uint64_t words, uint8_t digest[32]);

CAPNP_CANONICAL_API CAPNP_CANONICAL_CHECKED CAPNP_CANONICAL_NEEDS(7, 8) CAPNP_CANONICAL_READS(1, 2) CAPNP_CANONICAL_READS(3, 4)
uint32_t capnp_canonical_size_at(const uint8_t *frame, size_t frame_size, const uint32_t *path, size_t steps, int32_t nesting, uint64_t words, uint64_t *word_count, uint32_t *cap_count);

/* Writes to `*bytes` the size of the frame at the front of `size` bytes; the next frame of a stream starts after it.
 * Reads only the segment table, not the message. After a refusal `*bytes` is 0. */
CAPNP_CANONICAL_API CAPNP_CANONICAL_CHECKED CAPNP_CANONICAL_NEEDS(4) CAPNP_CANONICAL_READS(1, 2)
uint32_t capnp_canonical_frame_size(const uint8_t *frame, size_t size, uint64_t words, size_t *bytes);

/* Writes to `*bytes` how many bytes of a stream to have, from the start of a frame on, before capnp_canonical_frame_size
 * finds the frame whole. `prefix` has the first `size` of them. If they contain the segment table, that is the size of the
 * frame. Otherwise it is the size of the table, or of the smallest table, and more than `size`: read until that many bytes
 * are there, and ask again. No byte after the frame is ever requested. Refuses the frame if they tell that it has too many
 * segments, or more than `words` words; `*bytes` is then 0. Eight bytes can announce a frame of many words, so make room
 * for what has arrived, not for what is announced. */
CAPNP_CANONICAL_API CAPNP_CANONICAL_CHECKED CAPNP_CANONICAL_NEEDS(4) CAPNP_CANONICAL_READS(1, 2)
uint32_t capnp_canonical_frame_size_from_prefix(const uint8_t *prefix, size_t size, uint64_t words, size_t *bytes);

/* copy, copy_flat, digest, digest_with, equal, check, size, validate, locate and walk, and the four calls for a part, for a
 * message of `count` segments. There may be more segments than a frame can have. If there are none there is no root, and
 * the call is refused with CAPNP_CANONICAL_INVALID_SEGMENT_ID. */
CAPNP_CANONICAL_API CAPNP_CANONICAL_CHECKED CAPNP_CANONICAL_NEEDS(7) CAPNP_CANONICAL_READS(1, 2) CAPNP_CANONICAL_WRITES(5, 6)
uint32_t capnp_canonical_segments_copy(const struct capnp_canonical_segment *segments, size_t count, int32_t nesting, uint64_t words, uint8_t *to, size_t room, size_t *written);

CAPNP_CANONICAL_API CAPNP_CANONICAL_CHECKED CAPNP_CANONICAL_NEEDS(7) CAPNP_CANONICAL_READS(1, 2) CAPNP_CANONICAL_WRITES(5, 6)
uint32_t capnp_canonical_segments_copy_flat(const struct capnp_canonical_segment *segments, size_t count, int32_t nesting, uint64_t words, uint8_t *to, size_t room, size_t *written);

CAPNP_CANONICAL_API CAPNP_CANONICAL_CHECKED CAPNP_CANONICAL_NEEDS(5) CAPNP_CANONICAL_READS(1, 2)
uint32_t capnp_canonical_segments_digest(const struct capnp_canonical_segment *segments, size_t count, int32_t nesting, uint64_t words, uint8_t digest[32]);

CAPNP_CANONICAL_API CAPNP_CANONICAL_CHECKED CAPNP_CANONICAL_NEEDS(7) CAPNP_CANONICAL_READS(1, 2) CAPNP_CANONICAL_READS(3, 4)
uint32_t capnp_canonical_segments_digest_with(const uint8_t *prefix, size_t prefix_size, const struct capnp_canonical_segment *segments, size_t count, int32_t nesting, uint64_t words, uint8_t digest[32]);

CAPNP_CANONICAL_API CAPNP_CANONICAL_CHECKED CAPNP_CANONICAL_NEEDS(7) CAPNP_CANONICAL_READS(1, 2) CAPNP_CANONICAL_READS(3, 4)
uint32_t capnp_canonical_segments_equal(const struct capnp_canonical_segment *one, size_t one_count, const struct capnp_canonical_segment *other, size_t other_count, int32_t nesting, uint64_t words, bool *is_equal);

CAPNP_CANONICAL_API CAPNP_CANONICAL_CHECKED CAPNP_CANONICAL_NEEDS(5, 6) CAPNP_CANONICAL_READS(1, 2)
uint32_t capnp_canonical_segments_check(const struct capnp_canonical_segment *segments, size_t count, int32_t nesting, uint64_t words, bool *is_canonical, struct capnp_canonical_fault *fault);

CAPNP_CANONICAL_API CAPNP_CANONICAL_CHECKED CAPNP_CANONICAL_NEEDS(5, 6) CAPNP_CANONICAL_READS(1, 2)
uint32_t capnp_canonical_segments_size(const struct capnp_canonical_segment *segments, size_t count, int32_t nesting, uint64_t words, uint64_t *word_count, uint32_t *cap_count);

CAPNP_CANONICAL_API CAPNP_CANONICAL_CHECKED CAPNP_CANONICAL_NEEDS(5) CAPNP_CANONICAL_READS(1, 2)
uint32_t capnp_canonical_segments_validate(const struct capnp_canonical_segment *segments, size_t count, int32_t nesting, uint64_t words, struct capnp_canonical_extent *extent);

CAPNP_CANONICAL_API CAPNP_CANONICAL_CHECKED CAPNP_CANONICAL_NEEDS(6) CAPNP_CANONICAL_READS(1, 2)
uint32_t capnp_canonical_segments_locate(const struct capnp_canonical_segment *segments, size_t count, int32_t nesting, uint64_t words, uint32_t reading, struct capnp_canonical_pointer *pointer);

CAPNP_CANONICAL_API CAPNP_CANONICAL_CHECKED CAPNP_CANONICAL_NEEDS(7) CAPNP_CANONICAL_READS(1, 2) CAPNP_CANONICAL_WRITES(5, 6)
uint32_t capnp_canonical_segments_walk(const struct capnp_canonical_segment *segments, size_t count, int32_t nesting, uint64_t words, struct capnp_canonical_object *objects, size_t room, size_t *found);

CAPNP_CANONICAL_API CAPNP_CANONICAL_CHECKED CAPNP_CANONICAL_NEEDS(9) CAPNP_CANONICAL_READS(1, 2) CAPNP_CANONICAL_READS(3, 4) CAPNP_CANONICAL_WRITES(7, 8)
uint32_t capnp_canonical_segments_copy_flat_at(const struct capnp_canonical_segment *segments, size_t count, const uint32_t *path, size_t steps, int32_t nesting, uint64_t words, uint8_t *to, size_t room, size_t *written);

CAPNP_CANONICAL_API CAPNP_CANONICAL_CHECKED CAPNP_CANONICAL_NEEDS(7) CAPNP_CANONICAL_READS(1, 2) CAPNP_CANONICAL_READS(3, 4)
uint32_t capnp_canonical_segments_digest_at(const struct capnp_canonical_segment *segments, size_t count, const uint32_t *path, size_t steps, int32_t nesting, uint64_t words, uint8_t digest[32]);

CAPNP_CANONICAL_API CAPNP_CANONICAL_CHECKED CAPNP_CANONICAL_NEEDS(9) CAPNP_CANONICAL_READS(1, 2) CAPNP_CANONICAL_READS(3, 4) CAPNP_CANONICAL_READS(5, 6)
uint32_t capnp_canonical_segments_digest_with_at(const uint8_t *prefix, size_t prefix_size, const struct capnp_canonical_segment *segments, size_t count, const uint32_t *path, size_t steps, int32_t nesting, uint64_t words, uint8_t digest[32]);

CAPNP_CANONICAL_API CAPNP_CANONICAL_CHECKED CAPNP_CANONICAL_NEEDS(7, 8) CAPNP_CANONICAL_READS(1, 2) CAPNP_CANONICAL_READS(3, 4)
uint32_t capnp_canonical_segments_size_at(const struct capnp_canonical_segment *segments, size_t count, const uint32_t *path, size_t steps, int32_t nesting, uint64_t words, uint64_t *word_count, uint32_t *cap_count);

/* The same, for a message given as the raw words that copy_flat writes: all `size` bytes at `message` are its one
 * segment. The copy is raw words too. If you pass a frame here, its bytes are read as raw words and mean another
 * value. If `size` is 0, the message has no root, which is refused with
 * CAPNP_CANONICAL_MESSAGE_CONTAINS_OUT_OF_BOUNDS_POINTER. */
CAPNP_CANONICAL_API CAPNP_CANONICAL_CHECKED CAPNP_CANONICAL_NEEDS(7) CAPNP_CANONICAL_READS(1, 2) CAPNP_CANONICAL_WRITES(5, 6)
uint32_t capnp_canonical_words_copy(const uint8_t *message, size_t size, int32_t nesting, uint64_t words, uint8_t *to, size_t room, size_t *written);

CAPNP_CANONICAL_API CAPNP_CANONICAL_CHECKED CAPNP_CANONICAL_NEEDS(5) CAPNP_CANONICAL_READS(1, 2)
uint32_t capnp_canonical_words_digest(const uint8_t *message, size_t size, int32_t nesting, uint64_t words, uint8_t digest[32]);

CAPNP_CANONICAL_API CAPNP_CANONICAL_CHECKED CAPNP_CANONICAL_NEEDS(7) CAPNP_CANONICAL_READS(1, 2) CAPNP_CANONICAL_READS(3, 4)
uint32_t capnp_canonical_words_digest_with(const uint8_t *prefix, size_t prefix_size, const uint8_t *message, size_t size, int32_t nesting, uint64_t words, uint8_t digest[32]);

CAPNP_CANONICAL_API CAPNP_CANONICAL_CHECKED CAPNP_CANONICAL_NEEDS(7) CAPNP_CANONICAL_READS(1, 2) CAPNP_CANONICAL_READS(3, 4)
uint32_t capnp_canonical_words_equal(const uint8_t *one, size_t one_size, const uint8_t *other, size_t other_size, int32_t nesting, uint64_t words, bool *is_equal);

CAPNP_CANONICAL_API CAPNP_CANONICAL_CHECKED CAPNP_CANONICAL_NEEDS(5, 6) CAPNP_CANONICAL_READS(1, 2)
uint32_t capnp_canonical_words_check(const uint8_t *message, size_t size, int32_t nesting, uint64_t words, bool *is_canonical, struct capnp_canonical_fault *fault);

CAPNP_CANONICAL_API CAPNP_CANONICAL_CHECKED CAPNP_CANONICAL_NEEDS(5, 6) CAPNP_CANONICAL_READS(1, 2)
uint32_t capnp_canonical_words_size(const uint8_t *message, size_t size, int32_t nesting, uint64_t words, uint64_t *word_count, uint32_t *cap_count);

CAPNP_CANONICAL_API CAPNP_CANONICAL_CHECKED CAPNP_CANONICAL_NEEDS(5) CAPNP_CANONICAL_READS(1, 2)
uint32_t capnp_canonical_words_validate(const uint8_t *message, size_t size, int32_t nesting, uint64_t words, struct capnp_canonical_extent *extent);

CAPNP_CANONICAL_API CAPNP_CANONICAL_CHECKED CAPNP_CANONICAL_NEEDS(6) CAPNP_CANONICAL_READS(1, 2)
uint32_t capnp_canonical_words_locate(const uint8_t *message, size_t size, int32_t nesting, uint64_t words, uint32_t reading, struct capnp_canonical_pointer *pointer);

CAPNP_CANONICAL_API CAPNP_CANONICAL_CHECKED CAPNP_CANONICAL_NEEDS(7) CAPNP_CANONICAL_READS(1, 2) CAPNP_CANONICAL_WRITES(5, 6)
uint32_t capnp_canonical_words_walk(const uint8_t *message, size_t size, int32_t nesting, uint64_t words, struct capnp_canonical_object *objects, size_t room, size_t *count);

CAPNP_CANONICAL_API CAPNP_CANONICAL_CHECKED CAPNP_CANONICAL_NEEDS(9) CAPNP_CANONICAL_READS(1, 2) CAPNP_CANONICAL_READS(3, 4) CAPNP_CANONICAL_WRITES(7, 8)
uint32_t capnp_canonical_words_copy_at(const uint8_t *message, size_t size, const uint32_t *path, size_t steps, int32_t nesting, uint64_t words, uint8_t *to, size_t room, size_t *written);

CAPNP_CANONICAL_API CAPNP_CANONICAL_CHECKED CAPNP_CANONICAL_NEEDS(7) CAPNP_CANONICAL_READS(1, 2) CAPNP_CANONICAL_READS(3, 4)
uint32_t capnp_canonical_words_digest_at(const uint8_t *message, size_t size, const uint32_t *path, size_t steps, int32_t nesting, uint64_t words, uint8_t digest[32]);

CAPNP_CANONICAL_API CAPNP_CANONICAL_CHECKED CAPNP_CANONICAL_NEEDS(9) CAPNP_CANONICAL_READS(1, 2) CAPNP_CANONICAL_READS(3, 4) CAPNP_CANONICAL_READS(5, 6)
uint32_t capnp_canonical_words_digest_with_at(const uint8_t *prefix, size_t prefix_size, const uint8_t *message, size_t size, const uint32_t *path, size_t steps, int32_t nesting, uint64_t words, uint8_t digest[32]);

CAPNP_CANONICAL_API CAPNP_CANONICAL_CHECKED CAPNP_CANONICAL_NEEDS(7, 8) CAPNP_CANONICAL_READS(1, 2) CAPNP_CANONICAL_READS(3, 4)
uint32_t capnp_canonical_words_size_at(const uint8_t *message, size_t size, const uint32_t *path, size_t steps, int32_t nesting, uint64_t words, uint64_t *word_count, uint32_t *cap_count);

/* Unpacks all `packed_size` packed bytes to the front of the `room` bytes at `to`, and writes to `*written` how many
 * bytes they stand for, which are whole words. This turns what capnp::writePackedMessage, `capnp encode --packed` and
 * Rust's serialize_packed::write_message write into the frames of one or more messages, which the calls above take.
 *
 * CAPNP_CANONICAL_NO_ROOM means that they stand for more than `room` bytes, and `*written` says how many; so pass null
 * and 0 to ask for the size. It is SIZE_MAX if that is 2^64 bytes or more. Two packed bytes stand for up to 2,048, so
 * compare the size with what you accept before you make room for it. CAPNP_CANONICAL_TRUNCATED means that they end
 * inside a packed word; `*written` is then 0. There is no other refusal. Bytes of `to` after those written stay as they
 * are, and after a refusal all of them do.
 *
 * Don't unpack in place: if the packed bytes overlap those at `to`, or if another thread changes them meanwhile, what is
 * written to `to` is of no use. Even then the call writes nothing outside of the `room` bytes, which is tested, not
 * proved. */
CAPNP_CANONICAL_API CAPNP_CANONICAL_CHECKED CAPNP_CANONICAL_NEEDS(5) CAPNP_CANONICAL_READS(1, 2) CAPNP_CANONICAL_WRITES(3, 4)
uint32_t capnp_canonical_unpack(const uint8_t *packed, size_t packed_size, uint8_t *to, size_t room, size_t *written);

/* Unpacks the next bytes of a packed stream, which may be cut into pieces anywhere: goes on from where the last call with
 * this `*unpacking` stopped, and stops when it has written `room` bytes to `to`, or has taken all `packed_size` packed
 * bytes. Returns the number of bytes written, and writes to `*taken` how many packed bytes it took. It is never refused.
 *
 * It takes no more packed bytes than it needs for what it writes, and the count after the last word if that is there. So
 * when it has written a whole message, it has taken the message's own packed bytes and no others, if no run of words
 * begins in one message and ends in another. C++, Rust and capnp_canon write no such run. Other streams are read, too:
 * `*unpacking` then has the rest of the run, and the next call goes on with it.
 *
 * The packed bytes and those at `to` may not overlap. */
CAPNP_CANONICAL_API CAPNP_CANONICAL_CHECKED CAPNP_CANONICAL_NEEDS(1, 6) CAPNP_CANONICAL_READS(2, 3) CAPNP_CANONICAL_WRITES(4, 5)
size_t capnp_canonical_unpack_piece(struct capnp_canonical_unpacking *unpacking, const uint8_t *packed, size_t packed_size, uint8_t *to, size_t room, size_t *taken);

/* Packs the `size` bytes at `message`, which are whole words, to the front of the `room` bytes at `to`, and writes to
 * `*written` how many packed bytes there are. This turns the frames that capnp_canonical_copy, capnp_finish of capnp_layout.h
 * or `capnp encode` write into what `capnp encode --packed` writes. Raw words can be packed too, but no program expects that.
 * Takes no memory.
 *
 * CAPNP_CANONICAL_NO_ROOM means that there are more than `room` packed bytes, and `*written` says how many; so pass null
 * and 0 to ask for the size. capnp_canonical_pack_bound(size) bytes are always enough. If `size` isn't a multiple of 8 the
 * answer is CAPNP_CANONICAL_SEGMENT_IS_NOT_WHOLE_WORDS, and `*written` is 0. There is no other refusal. Bytes of `to` after
 * those written stay as they are, and after a refusal all of them do. */
CAPNP_CANONICAL_API CAPNP_CANONICAL_CHECKED CAPNP_CANONICAL_NEEDS(5) CAPNP_CANONICAL_READS(1, 2) CAPNP_CANONICAL_WRITES(3, 4)
uint32_t capnp_canonical_pack(const uint8_t *message, size_t size, uint8_t *to, size_t room, size_t *written);

/* Writes the text of an answer to `*text`: a constant of the library, so that a refusal has its text even if it is newer than
 * this header. capnp_canonical_strerror returns it. */
CAPNP_CANONICAL_API CAPNP_CANONICAL_NEEDS(2)
void capnp_canonical_answer_text(uint32_t answer, struct capnp_canonical_text *text);

/* Writes the name of a refusal, such as `Truncated`, and a terminating zero to the `room` bytes at `to`, like snprintf:
 * if the room is too small the name is cut, and the zero is still written unless `room` is 0. Returns the length of the
 * name in bytes, without the zero, or 0 if the number has no name. */
CAPNP_CANONICAL_API CAPNP_CANONICAL_WRITES(2, 3)
size_t capnp_canonical_name(uint32_t answer, char *to, size_t room);

/* The same for the text of a reason, such as `a list whose padding isn't zero`. */
CAPNP_CANONICAL_API CAPNP_CANONICAL_WRITES(2, 3)
size_t capnp_canonical_reason_text(uint32_t reason, char *to, size_t room);

/* The version of the linked library, in the form of CAPNP_CANONICAL_VERSION. If it is less than that, the library is older
 * than this header, and may lack calls; a program that uses those isn't linked with it, and isn't started with it either where
 * symbols have versions. */
CAPNP_CANONICAL_API
uint32_t capnp_canonical_version(void);

/* The same as a text, in the form of CAPNP_CANONICAL_VERSION_TEXT, written like capnp_canonical_name does. */
CAPNP_CANONICAL_API CAPNP_CANONICAL_WRITES(1, 2)
size_t capnp_canonical_version_text(char *to, size_t room);

/* The functions from here on are defined in this header. */

/* Unpacks the next message of a packed stream, and no other: its frame, to the front of the `room` bytes at `to`. `*held`
 * is the number of bytes of the frame that are there already: 0 at the start of a frame. Goes on from where the last call
 * with this `*unpacking` stopped. After each answer, `*taken` is how many packed bytes it took, `*held` how many bytes of
 * the frame are there, and `*wanted` how many to have (see capnp_canonical_frame_size_from_prefix).
 *
 * CAPNP_CANONICAL_DONE means that the frame is whole, and `*held` is its size. The next one starts after these packed
 * bytes; set `*held` to 0 for it. CAPNP_CANONICAL_NO_ROOM means that `*wanted` is more than `room`: move what is there to a
 * larger buffer, and call again with the other packed bytes. CAPNP_CANONICAL_TRUNCATED means that no packed bytes are
 * left: call again with those that follow. If none follow, the stream is cut short, unless `*held` is 0 and
 * capnp_canonical_is_unpacked is true. Refuses the frame if it has too many segments, or more than
 * `words` words. */
CAPNP_CANONICAL_INLINE uint32_t capnp_canonical_unpack_frame(struct capnp_canonical_unpacking *unpacking, const uint8_t *packed, size_t packed_size, uint64_t words, uint8_t *to, size_t room, size_t *held, size_t *taken, size_t *wanted) {
    *taken = 0;
    for (;;) {
        uint32_t answer = capnp_canonical_frame_size_from_prefix(to, *held, words, wanted);
        size_t end = *wanted < room ? *wanted : room, more = 0;
        if (answer != CAPNP_CANONICAL_DONE) return answer;
        if (*held == *wanted) return CAPNP_CANONICAL_DONE;
        if (*held >= end) return CAPNP_CANONICAL_NO_ROOM;
        *held += capnp_canonical_unpack_piece(unpacking, *taken ? packed + *taken : packed, packed_size - *taken, to + *held, end - *held, &more);
        *taken += more;
        if (*held < end) return CAPNP_CANONICAL_TRUNCATED;
    }
}

/* Whether no packed word or run has begun that isn't unpacked to its end: whether the packed bytes may end here. */
CAPNP_CANONICAL_INLINE bool capnp_canonical_is_unpacked(const struct capnp_canonical_unpacking *unpacking) {
    return !unpacking->zeros && !unpacking->place;
}

/* Whether the message of the frame at the front is canonical. Also false if the message can't be read, because a limit
 * is exceeded or the bytes aren't a frame; capnp_canonical_check says why. */
CAPNP_CANONICAL_INLINE bool capnp_canonical_is_canonical(const uint8_t *frame, size_t frame_size, int32_t nesting, uint64_t words) {
    bool is_canonical = false;
    struct capnp_canonical_fault fault;
    return capnp_canonical_check(frame, frame_size, nesting, words, &is_canonical, &fault) == CAPNP_CANONICAL_DONE && is_canonical;
}

/* The same for a message of `count` segments. */
CAPNP_CANONICAL_INLINE bool capnp_canonical_segments_is_canonical(const struct capnp_canonical_segment *segments, size_t count, int32_t nesting, uint64_t words) {
    bool is_canonical = false;
    struct capnp_canonical_fault fault;
    return capnp_canonical_segments_check(segments, count, nesting, words, &is_canonical, &fault) == CAPNP_CANONICAL_DONE && is_canonical;
}

/* The same for a message given as raw words. */
CAPNP_CANONICAL_INLINE bool capnp_canonical_words_is_canonical(const uint8_t *message, size_t size, int32_t nesting, uint64_t words) {
    bool is_canonical = false;
    struct capnp_canonical_fault fault;
    return capnp_canonical_words_check(message, size, nesting, words, &is_canonical, &fault) == CAPNP_CANONICAL_DONE && is_canonical;
}

/* How many bytes are always enough for a copy within a traversal limit of `words`, as a frame or as raw words. The
 * message isn't looked at. For untrusted messages, set the limit to twice the words of the largest message that you
 * accept. The size of a message alone gives no bound: an object that several pointers lead to is copied for each of
 * them, so the canonical form may be larger than its message by any factor, up to this limit. */
CAPNP_CANONICAL_INLINE uint64_t capnp_canonical_bound(uint64_t words) {
    const uint64_t most = UINT64_C(536870911);
    return 8 + 8 * (words < most ? words : most);
}

/* How many bytes are always enough for what capnp_canonical_pack makes of `size` bytes, at most SIZE_MAX. */
CAPNP_CANONICAL_INLINE size_t capnp_canonical_pack_bound(size_t size) {
    return size > SIZE_MAX - size / 4 ? SIZE_MAX : size + size / 4;
}

/* The text that the library has for an answer, such as `the bytes end inside a frame or a packed word`: a constant, for any
 * number. It is what strerror is for errno. */
CAPNP_CANONICAL_INLINE const char *capnp_canonical_strerror(uint32_t answer) {
    struct capnp_canonical_text text = {"", 1};
    capnp_canonical_answer_text(answer, &text);
    return text.bytes;
}

/* The name of a refusal as capnp_canonical_name writes it, but as a constant. Empty if the number isn't one of enum
 * capnp_canonical_answer. */
CAPNP_CANONICAL_INLINE const char *capnp_canonical_error_name(uint32_t answer) {
    switch (answer) {
    case CAPNP_CANONICAL_NO_ROOM: return "NoRoom";
    case CAPNP_CANONICAL_NO_MESSAGE: return "NoMessage";
    case CAPNP_CANONICAL_SEGMENT_IS_NOT_WHOLE_WORDS: return "SegmentIsNotWholeWords";
    case CAPNP_CANONICAL_TOO_MANY_SEGMENTS: return "TooManySegments";
    case CAPNP_CANONICAL_MESSAGE_TOO_LONG: return "MessageTooLong";
    case CAPNP_CANONICAL_TRUNCATED: return "Truncated";
    case CAPNP_CANONICAL_ALLOCATION_FAILED: return "AllocationFailed";
    case CAPNP_CANONICAL_CANNOT_CREATE_A_CANONICAL_MESSAGE_WITH_A_CAPABILITY: return "CannotCreateACanonicalMessageWithACapability";
    case CAPNP_CANONICAL_CANT_HANDLE_NON_STRUCT_INLINE_COMPOSITE: return "CantHandleNonStructInlineComposite";
    case CAPNP_CANONICAL_INLINE_COMPOSITE_LISTS_ELEMENTS_OVERRUN_ITS_WORD_COUNT: return "InlineCompositeListsElementsOverrunItsWordCount";
    case CAPNP_CANONICAL_INLINE_COMPOSITE_LISTS_OF_NON_STRUCT_TYPE_ARE_NOT_SUPPORTED: return "InlineCompositeListsOfNonStructTypeAreNotSupported";
    case CAPNP_CANONICAL_INVALID_SEGMENT_ID: return "InvalidSegmentId";
    case CAPNP_CANONICAL_MALFORMED_DOUBLE_FAR_POINTER: return "MalformedDoubleFarPointer";
    case CAPNP_CANONICAL_MESSAGE_CONTAINS_OUT_OF_BOUNDS_POINTER: return "MessageContainsOutOfBoundsPointer";
    case CAPNP_CANONICAL_MESSAGE_IS_TOO_DEEPLY_NESTED: return "MessageIsTooDeeplyNested";
    case CAPNP_CANONICAL_MESSAGE_IS_TOO_DEEPLY_NESTED_OR_CONTAINS_CYCLES: return "MessageIsTooDeeplyNestedOrContainsCycles";
    case CAPNP_CANONICAL_MESSAGE_TOO_LARGE: return "MessageTooLarge";
    case CAPNP_CANONICAL_NESTING_LIMIT_EXCEEDED: return "NestingLimitExceeded";
    case CAPNP_CANONICAL_NO_SUCH_PLACE: return "NoSuchPlace";
    case CAPNP_CANONICAL_READ_LIMIT_EXCEEDED: return "ReadLimitExceeded";
    case CAPNP_CANONICAL_UNKNOWN_POINTER_TYPE: return "UnknownPointerType";
    default: return "";
    }
}

/* The text that this header has for a refusal. A newer library may return refusals whose texts only
 * capnp_canonical_strerror knows. */
CAPNP_CANONICAL_INLINE const char *capnp_canonical_error_text(uint32_t answer) {
    switch (answer) {
    case CAPNP_CANONICAL_DONE: return "the call is done";
    case CAPNP_CANONICAL_NO_ROOM: return "the buffer is too small";
    case CAPNP_CANONICAL_NO_MESSAGE: return "there are no bytes where a frame was expected";
    case CAPNP_CANONICAL_SEGMENT_IS_NOT_WHOLE_WORDS: return "the size of a segment isn't a multiple of 8 bytes";
    case CAPNP_CANONICAL_TOO_MANY_SEGMENTS: return "the frame has more than 512 segments";
    case CAPNP_CANONICAL_MESSAGE_TOO_LONG: return "the frame or the unpacked bytes have more words than the limit";
    case CAPNP_CANONICAL_TRUNCATED: return "the bytes end inside a frame or a packed word";
    case CAPNP_CANONICAL_ALLOCATION_FAILED: return "memory ran out";
    case CAPNP_CANONICAL_CANNOT_CREATE_A_CANONICAL_MESSAGE_WITH_A_CAPABILITY: return "the value contains a capability, so it has no canonical form";
    case CAPNP_CANONICAL_CANT_HANDLE_NON_STRUCT_INLINE_COMPOSITE: return "the tag of a list of structs isn't a struct pointer";
    case CAPNP_CANONICAL_INLINE_COMPOSITE_LISTS_ELEMENTS_OVERRUN_ITS_WORD_COUNT: return "the elements of a list of structs take more words than its pointer claims";
    case CAPNP_CANONICAL_INLINE_COMPOSITE_LISTS_OF_NON_STRUCT_TYPE_ARE_NOT_SUPPORTED: return "the tag of a list of structs isn't a struct pointer";
    case CAPNP_CANONICAL_INVALID_SEGMENT_ID: return "a far pointer names a segment that doesn't exist, or there are no segments";
    case CAPNP_CANONICAL_MALFORMED_DOUBLE_FAR_POINTER: return "a one-word landing pad, or the tag of a two-word landing pad, is itself a far pointer";
    case CAPNP_CANONICAL_MESSAGE_CONTAINS_OUT_OF_BOUNDS_POINTER: return "a pointer points outside its segment";
    case CAPNP_CANONICAL_MESSAGE_IS_TOO_DEEPLY_NESTED: return "the nesting limit is exceeded";
    case CAPNP_CANONICAL_MESSAGE_IS_TOO_DEEPLY_NESTED_OR_CONTAINS_CYCLES: return "the nesting limit is exceeded, perhaps by a cycle of pointers";
    case CAPNP_CANONICAL_MESSAGE_TOO_LARGE: return "the message or its canonical form is larger than the format allows";
    case CAPNP_CANONICAL_NESTING_LIMIT_EXCEEDED: return "the nesting limit is exceeded";
    case CAPNP_CANONICAL_NO_SUCH_PLACE: return "the path leads nowhere";
    case CAPNP_CANONICAL_READ_LIMIT_EXCEEDED: return "the traversal limit is exceeded";
    case CAPNP_CANONICAL_UNKNOWN_POINTER_TYPE: return "a pointer is of an unknown kind";
    default: return "a refusal that this header doesn't know";
    }
}

/* The class of an answer: a number of enum capnp_canonical_class. */
CAPNP_CANONICAL_INLINE uint32_t capnp_canonical_class_of(uint32_t answer) {
    switch (answer) {
    case CAPNP_CANONICAL_DONE: return CAPNP_CANONICAL_CLASS_NONE;
    case CAPNP_CANONICAL_NO_ROOM: return CAPNP_CANONICAL_CLASS_ROOM;
    case CAPNP_CANONICAL_NO_MESSAGE:
    case CAPNP_CANONICAL_SEGMENT_IS_NOT_WHOLE_WORDS:
    case CAPNP_CANONICAL_TRUNCATED:
    case CAPNP_CANONICAL_CANT_HANDLE_NON_STRUCT_INLINE_COMPOSITE:
    case CAPNP_CANONICAL_INLINE_COMPOSITE_LISTS_ELEMENTS_OVERRUN_ITS_WORD_COUNT:
    case CAPNP_CANONICAL_INLINE_COMPOSITE_LISTS_OF_NON_STRUCT_TYPE_ARE_NOT_SUPPORTED:
    case CAPNP_CANONICAL_INVALID_SEGMENT_ID:
    case CAPNP_CANONICAL_MALFORMED_DOUBLE_FAR_POINTER:
    case CAPNP_CANONICAL_MESSAGE_CONTAINS_OUT_OF_BOUNDS_POINTER:
    case CAPNP_CANONICAL_UNKNOWN_POINTER_TYPE: return CAPNP_CANONICAL_CLASS_MALFORMED;
    case CAPNP_CANONICAL_TOO_MANY_SEGMENTS:
    case CAPNP_CANONICAL_MESSAGE_TOO_LONG:
    case CAPNP_CANONICAL_MESSAGE_IS_TOO_DEEPLY_NESTED:
    case CAPNP_CANONICAL_MESSAGE_IS_TOO_DEEPLY_NESTED_OR_CONTAINS_CYCLES:
    case CAPNP_CANONICAL_MESSAGE_TOO_LARGE:
    case CAPNP_CANONICAL_NESTING_LIMIT_EXCEEDED:
    case CAPNP_CANONICAL_READ_LIMIT_EXCEEDED: return CAPNP_CANONICAL_CLASS_LIMIT;
    case CAPNP_CANONICAL_CANNOT_CREATE_A_CANONICAL_MESSAGE_WITH_A_CAPABILITY: return CAPNP_CANONICAL_CLASS_CAPABILITY;
    case CAPNP_CANONICAL_ALLOCATION_FAILED: return CAPNP_CANONICAL_CLASS_MEMORY;
    case CAPNP_CANONICAL_NO_SUCH_PLACE: return CAPNP_CANONICAL_CLASS_PATH;
    default: return CAPNP_CANONICAL_CLASS_OTHER;
    }
}

/* What capnp_canonical_reason_text writes, as a constant. */
CAPNP_CANONICAL_INLINE const char *capnp_canonical_fault_text(uint32_t reason) {
    switch (reason) {
    case CAPNP_CANONICAL_REASON_SEGMENT_COUNT: return "a number of segments other than one";
    case CAPNP_CANONICAL_REASON_NO_POINTER: return "no word where a pointer should be";
    case CAPNP_CANONICAL_REASON_FAR_POINTER: return "a far pointer";
    case CAPNP_CANONICAL_REASON_CAPABILITY: return "a capability";
    case CAPNP_CANONICAL_REASON_UNKNOWN_POINTER: return "a pointer of an unknown kind";
    case CAPNP_CANONICAL_REASON_EMPTY_STRUCT_PLACE: return "a pointer to an empty struct with an offset other than -1";
    case CAPNP_CANONICAL_REASON_OBJECT_PLACE: return "a pointer to an object that isn't directly next in order";
    case CAPNP_CANONICAL_REASON_PADDING: return "a list whose padding isn't zero";
    case CAPNP_CANONICAL_REASON_DATA_SECTION: return "a data section whose last word is zero";
    case CAPNP_CANONICAL_REASON_POINTER_SECTION: return "a pointer section whose last pointer is null";
    case CAPNP_CANONICAL_REASON_ELEMENT_WORDS: return "a list of structs whose pointer claims more words than its elements take";
    case CAPNP_CANONICAL_REASON_ELEMENT_DATA: return "a list of structs with more data words than any element needs";
    case CAPNP_CANONICAL_REASON_ELEMENT_POINTERS: return "a list of structs with more pointers than any element needs";
    case CAPNP_CANONICAL_REASON_WORDS_BEHIND: return "words after the value";
    default: return "";
    }
}

/* Functions named `private` are parts of the others: don't call them, because they may change.
 *
 * The little-endian number in the 4 bytes at `bytes`, which must be there: only bytes that have a size may be null. */
CAPNP_CANONICAL_INLINE uint32_t capnp_canonical_private_number_at(const uint8_t *bytes) {
    return (uint32_t)bytes[0] | (uint32_t)bytes[1] << 8 | (uint32_t)bytes[2] << 16 | (uint32_t)bytes[3] << 24;
}

/* Whether packed bytes start with what may be the segment table of a frame. False if they end within its first word. */
CAPNP_CANONICAL_INLINE bool capnp_canonical_private_looks_packed(const uint8_t *bytes, size_t size) {
    uint8_t word[8] = {0};
    size_t at = 1;
    if (size == 0) return false;
    for (int i = 0; i < 8; i++) {
        if (!(bytes[0] >> i & 1)) continue;
        if (at == size || bytes[at] == 0) return false;
        word[i] = bytes[at++];
    }
    uint32_t segments = capnp_canonical_private_number_at(word) + 1, words = capnp_canonical_private_number_at(word + 4);
    return 0 < segments && segments <= 512 && 0 < words && words < (UINT32_C(1) << 29);
}

/* Whether the first 64 bytes are text: no control characters but tabs and line ends. */
CAPNP_CANONICAL_INLINE bool capnp_canonical_private_looks_text(const uint8_t *bytes, size_t size) {
    for (size_t i = 0; i < size && i < 64; i++) {
        bool is_blank = bytes[i] == '\t' || bytes[i] == '\n' || bytes[i] == '\r';
        if ((bytes[i] < 32 && !is_blank) || bytes[i] == 127) return false;
    }
    return size >= 4;
}

/* The three functions above by their names of version 1.1.0. */
CAPNP_CANONICAL_DEPRECATED("it is a part of capnp_canonical_looks_like")
CAPNP_CANONICAL_INLINE uint32_t capnp_canonical_number_at(const uint8_t *bytes) {
    return capnp_canonical_private_number_at(bytes);
}

CAPNP_CANONICAL_DEPRECATED("use capnp_canonical_looks_like")
CAPNP_CANONICAL_INLINE bool capnp_canonical_looks_packed(const uint8_t *bytes, size_t size) {
    return capnp_canonical_private_looks_packed(bytes, size);
}

CAPNP_CANONICAL_DEPRECATED("use capnp_canonical_looks_like")
CAPNP_CANONICAL_INLINE bool capnp_canonical_looks_text(const uint8_t *bytes, size_t size) {
    return capnp_canonical_private_looks_text(bytes, size);
}

/* What bytes look like that were refused as a frame, such as `gzip`. Null if they look like nothing else, or do start
 * with a frame. It is a guess, to help people read a refusal; don't base anything else on it. */
CAPNP_CANONICAL_INLINE const char *capnp_canonical_looks_like(const uint8_t *bytes, size_t size) {
    size_t taken;
    if (size < 4 || capnp_canonical_frame_size(bytes, size, UINT64_MAX, &taken) == CAPNP_CANONICAL_DONE) return NULL;
    if (bytes[0] == 0x1f && bytes[1] == 0x8b) return "gzip";
    if (capnp_canonical_private_number_at(bytes) == UINT32_C(0xfd2fb528)) return "zstd";
    if (bytes[0] == 'B' && bytes[1] == 'Z' && bytes[2] == 'h') return "bzip2";
    if (bytes[0] == 0xfd && bytes[1] == '7' && bytes[2] == 'z' && bytes[3] == 'X') return "xz";
    if (bytes[0] == 'P' && bytes[1] == 'K' && bytes[2] == 3 && bytes[3] == 4) return "a zip archive";
    if (capnp_canonical_private_looks_text(bytes, size)) return "text";
    if (capnp_canonical_words_is_canonical(bytes, size, CAPNP_CANONICAL_NESTING, CAPNP_CANONICAL_WORDS)) return "raw canonical words";
    if (capnp_canonical_private_looks_packed(bytes, size)) return "packed messages";
    return NULL;
}

#ifdef __cplusplus
}
#endif

#endif
