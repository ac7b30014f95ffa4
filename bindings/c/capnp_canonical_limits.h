/* The calls of capnp_canonical.h with the limits in a struct, whose two numbers can't be swapped, and with outputs that may be
 * null if you don't want them. They are defined here, and only call those: `capnp_canonical_check_within(frame, size, NULL, &is_canonical, NULL)`
 * is capnp_canonical_check with the default limits, without the fault.
 *
 * `limits` may be null, and a number in it may be 0: the default holds. So `&(struct capnp_canonical_limits){.words = 1000}` limits
 * the words alone. Only `digest`, which is 32 bytes, and the buffers that have a size may not be null. What each call
 * returns and writes is told in capnp_canonical.h. */
#ifndef CAPNP_CANONICAL_LIMITS_H
#define CAPNP_CANONICAL_LIMITS_H

#include "capnp_canonical.h"

#include <string.h>

#ifdef __cplusplus
extern "C" {
#endif

/* How much may be read. */
struct capnp_canonical_limits {
    /* The nesting limit; 0 for CAPNP_CANONICAL_NESTING. */
    int32_t nesting;
    /* The traversal limit in words of 8 bytes; 0 for CAPNP_CANONICAL_WORDS. */
    uint64_t words;
};

/* The limits that hold; for the functions below. */
CAPNP_CANONICAL_INLINE struct capnp_canonical_limits capnp_canonical_private_limits(const struct capnp_canonical_limits *limits) {
    struct capnp_canonical_limits held = {CAPNP_CANONICAL_NESTING, CAPNP_CANONICAL_WORDS};
    if (limits && limits->nesting) held.nesting = limits->nesting;
    if (limits && limits->words) held.words = limits->words;
    return held;
}

/* A frame at the front of `frame_size` bytes. */
CAPNP_CANONICAL_CHECKED
CAPNP_CANONICAL_INLINE uint32_t capnp_canonical_copy_within(const uint8_t *frame, size_t frame_size, const struct capnp_canonical_limits *limits, uint8_t *to, size_t room, size_t *written) {
    const struct capnp_canonical_limits held = capnp_canonical_private_limits(limits);
    size_t unwanted;
    return capnp_canonical_copy(frame, frame_size, held.nesting, held.words, to, room, written ? written : &unwanted);
}

CAPNP_CANONICAL_CHECKED
CAPNP_CANONICAL_INLINE uint32_t capnp_canonical_copy_flat_within(const uint8_t *frame, size_t frame_size, const struct capnp_canonical_limits *limits, uint8_t *to, size_t room, size_t *written) {
    const struct capnp_canonical_limits held = capnp_canonical_private_limits(limits);
    size_t unwanted;
    return capnp_canonical_copy_flat(frame, frame_size, held.nesting, held.words, to, room, written ? written : &unwanted);
}

CAPNP_CANONICAL_CHECKED CAPNP_CANONICAL_NEEDS(4)
CAPNP_CANONICAL_INLINE uint32_t capnp_canonical_digest_within(const uint8_t *frame, size_t frame_size, const struct capnp_canonical_limits *limits, uint8_t digest[32]) {
    const struct capnp_canonical_limits held = capnp_canonical_private_limits(limits);
    return capnp_canonical_digest(frame, frame_size, held.nesting, held.words, digest);
}

CAPNP_CANONICAL_CHECKED CAPNP_CANONICAL_NEEDS(6)
CAPNP_CANONICAL_INLINE uint32_t capnp_canonical_digest_with_within(const uint8_t *prefix, size_t prefix_size, const uint8_t *frame, size_t frame_size, const struct capnp_canonical_limits *limits, uint8_t digest[32]) {
    const struct capnp_canonical_limits held = capnp_canonical_private_limits(limits);
    return capnp_canonical_digest_with(prefix, prefix_size, frame, frame_size, held.nesting, held.words, digest);
}

CAPNP_CANONICAL_CHECKED
CAPNP_CANONICAL_INLINE uint32_t capnp_canonical_check_within(const uint8_t *frame, size_t frame_size, const struct capnp_canonical_limits *limits, bool *is_canonical, struct capnp_canonical_fault *fault) {
    const struct capnp_canonical_limits held = capnp_canonical_private_limits(limits);
    bool unwanted;
    struct capnp_canonical_fault unwanted_fault;
    return capnp_canonical_check(frame, frame_size, held.nesting, held.words, is_canonical ? is_canonical : &unwanted, fault ? fault : &unwanted_fault);
}

CAPNP_CANONICAL_CHECKED
CAPNP_CANONICAL_INLINE uint32_t capnp_canonical_size_within(const uint8_t *frame, size_t frame_size, const struct capnp_canonical_limits *limits, uint64_t *word_count, uint32_t *capability_count) {
    const struct capnp_canonical_limits held = capnp_canonical_private_limits(limits);
    uint64_t unwanted_words;
    uint32_t unwanted_capabilities;
    return capnp_canonical_size(frame, frame_size, held.nesting, held.words, word_count ? word_count : &unwanted_words, capability_count ? capability_count : &unwanted_capabilities);
}

CAPNP_CANONICAL_CHECKED
CAPNP_CANONICAL_INLINE uint32_t capnp_canonical_validate_within(const uint8_t *frame, size_t frame_size, const struct capnp_canonical_limits *limits, struct capnp_canonical_extent *extent) {
    const struct capnp_canonical_limits held = capnp_canonical_private_limits(limits);
    struct capnp_canonical_extent unwanted;
    return capnp_canonical_validate(frame, frame_size, held.nesting, held.words, extent ? extent : &unwanted);
}

CAPNP_CANONICAL_CHECKED
CAPNP_CANONICAL_INLINE uint32_t capnp_canonical_locate_within(const uint8_t *frame, size_t frame_size, const struct capnp_canonical_limits *limits, uint32_t reading, struct capnp_canonical_pointer *pointer) {
    const struct capnp_canonical_limits held = capnp_canonical_private_limits(limits);
    struct capnp_canonical_pointer unwanted;
    return capnp_canonical_locate(frame, frame_size, held.nesting, held.words, reading, pointer ? pointer : &unwanted);
}

CAPNP_CANONICAL_CHECKED
CAPNP_CANONICAL_INLINE uint32_t capnp_canonical_walk_within(const uint8_t *frame, size_t frame_size, const struct capnp_canonical_limits *limits, struct capnp_canonical_object *objects, size_t room, size_t *found) {
    const struct capnp_canonical_limits held = capnp_canonical_private_limits(limits);
    size_t unwanted;
    return capnp_canonical_walk(frame, frame_size, held.nesting, held.words, objects, room, found ? found : &unwanted);
}

CAPNP_CANONICAL_CHECKED
CAPNP_CANONICAL_INLINE uint32_t capnp_canonical_copy_flat_at_within(const uint8_t *frame, size_t frame_size, const uint32_t *path, size_t steps, const struct capnp_canonical_limits *limits, uint8_t *to, size_t room, size_t *written) {
    const struct capnp_canonical_limits held = capnp_canonical_private_limits(limits);
    size_t unwanted;
    return capnp_canonical_copy_flat_at(frame, frame_size, path, steps, held.nesting, held.words, to, room, written ? written : &unwanted);
}

CAPNP_CANONICAL_CHECKED CAPNP_CANONICAL_NEEDS(6)
CAPNP_CANONICAL_INLINE uint32_t capnp_canonical_digest_at_within(const uint8_t *frame, size_t frame_size, const uint32_t *path, size_t steps, const struct capnp_canonical_limits *limits, uint8_t digest[32]) {
    const struct capnp_canonical_limits held = capnp_canonical_private_limits(limits);
    return capnp_canonical_digest_at(frame, frame_size, path, steps, held.nesting, held.words, digest);
}

CAPNP_CANONICAL_CHECKED CAPNP_CANONICAL_NEEDS(8)
CAPNP_CANONICAL_INLINE uint32_t capnp_canonical_digest_with_at_within(const uint8_t *prefix, size_t prefix_size, const uint8_t *frame, size_t frame_size, const uint32_t *path, size_t steps, const struct capnp_canonical_limits *limits, uint8_t digest[32]) {
    const struct capnp_canonical_limits held = capnp_canonical_private_limits(limits);
    return capnp_canonical_digest_with_at(prefix, prefix_size, frame, frame_size, path, steps, held.nesting, held.words, digest);
}

CAPNP_CANONICAL_CHECKED
CAPNP_CANONICAL_INLINE uint32_t capnp_canonical_size_at_within(const uint8_t *frame, size_t frame_size, const uint32_t *path, size_t steps, const struct capnp_canonical_limits *limits, uint64_t *word_count, uint32_t *capability_count) {
    const struct capnp_canonical_limits held = capnp_canonical_private_limits(limits);
    uint64_t unwanted_words;
    uint32_t unwanted_capabilities;
    return capnp_canonical_size_at(frame, frame_size, path, steps, held.nesting, held.words, word_count ? word_count : &unwanted_words, capability_count ? capability_count : &unwanted_capabilities);
}

/* The same for a message of `count` segments. */
CAPNP_CANONICAL_CHECKED
CAPNP_CANONICAL_INLINE uint32_t capnp_canonical_segments_copy_within(const struct capnp_canonical_segment *segments, size_t count, const struct capnp_canonical_limits *limits, uint8_t *to, size_t room, size_t *written) {
    const struct capnp_canonical_limits held = capnp_canonical_private_limits(limits);
    size_t unwanted;
    return capnp_canonical_segments_copy(segments, count, held.nesting, held.words, to, room, written ? written : &unwanted);
}

CAPNP_CANONICAL_CHECKED
CAPNP_CANONICAL_INLINE uint32_t capnp_canonical_segments_copy_flat_within(const struct capnp_canonical_segment *segments, size_t count, const struct capnp_canonical_limits *limits, uint8_t *to, size_t room, size_t *written) {
    const struct capnp_canonical_limits held = capnp_canonical_private_limits(limits);
    size_t unwanted;
    return capnp_canonical_segments_copy_flat(segments, count, held.nesting, held.words, to, room, written ? written : &unwanted);
}

CAPNP_CANONICAL_CHECKED CAPNP_CANONICAL_NEEDS(4)
CAPNP_CANONICAL_INLINE uint32_t capnp_canonical_segments_digest_within(const struct capnp_canonical_segment *segments, size_t count, const struct capnp_canonical_limits *limits, uint8_t digest[32]) {
    const struct capnp_canonical_limits held = capnp_canonical_private_limits(limits);
    return capnp_canonical_segments_digest(segments, count, held.nesting, held.words, digest);
}

CAPNP_CANONICAL_CHECKED CAPNP_CANONICAL_NEEDS(6)
CAPNP_CANONICAL_INLINE uint32_t capnp_canonical_segments_digest_with_within(const uint8_t *prefix, size_t prefix_size, const struct capnp_canonical_segment *segments, size_t count, const struct capnp_canonical_limits *limits, uint8_t digest[32]) {
    const struct capnp_canonical_limits held = capnp_canonical_private_limits(limits);
    return capnp_canonical_segments_digest_with(prefix, prefix_size, segments, count, held.nesting, held.words, digest);
}

CAPNP_CANONICAL_CHECKED CAPNP_CANONICAL_NEEDS(6)
CAPNP_CANONICAL_INLINE uint32_t capnp_canonical_segments_equal_within(const struct capnp_canonical_segment *one, size_t one_count, const struct capnp_canonical_segment *other, size_t other_count, const struct capnp_canonical_limits *limits, bool *is_equal) {
    const struct capnp_canonical_limits held = capnp_canonical_private_limits(limits);
    return capnp_canonical_segments_equal(one, one_count, other, other_count, held.nesting, held.words, is_equal);
}

CAPNP_CANONICAL_CHECKED
CAPNP_CANONICAL_INLINE uint32_t capnp_canonical_segments_check_within(const struct capnp_canonical_segment *segments, size_t count, const struct capnp_canonical_limits *limits, bool *is_canonical, struct capnp_canonical_fault *fault) {
    const struct capnp_canonical_limits held = capnp_canonical_private_limits(limits);
    bool unwanted;
    struct capnp_canonical_fault unwanted_fault;
    return capnp_canonical_segments_check(segments, count, held.nesting, held.words, is_canonical ? is_canonical : &unwanted, fault ? fault : &unwanted_fault);
}

CAPNP_CANONICAL_CHECKED
CAPNP_CANONICAL_INLINE uint32_t capnp_canonical_segments_size_within(const struct capnp_canonical_segment *segments, size_t count, const struct capnp_canonical_limits *limits, uint64_t *word_count, uint32_t *capability_count) {
    const struct capnp_canonical_limits held = capnp_canonical_private_limits(limits);
    uint64_t unwanted_words;
    uint32_t unwanted_capabilities;
    return capnp_canonical_segments_size(segments, count, held.nesting, held.words, word_count ? word_count : &unwanted_words, capability_count ? capability_count : &unwanted_capabilities);
}

CAPNP_CANONICAL_CHECKED
CAPNP_CANONICAL_INLINE uint32_t capnp_canonical_segments_validate_within(const struct capnp_canonical_segment *segments, size_t count, const struct capnp_canonical_limits *limits, struct capnp_canonical_extent *extent) {
    const struct capnp_canonical_limits held = capnp_canonical_private_limits(limits);
    struct capnp_canonical_extent unwanted;
    return capnp_canonical_segments_validate(segments, count, held.nesting, held.words, extent ? extent : &unwanted);
}

CAPNP_CANONICAL_CHECKED
CAPNP_CANONICAL_INLINE uint32_t capnp_canonical_segments_locate_within(const struct capnp_canonical_segment *segments, size_t count, const struct capnp_canonical_limits *limits, uint32_t reading, struct capnp_canonical_pointer *pointer) {
    const struct capnp_canonical_limits held = capnp_canonical_private_limits(limits);
    struct capnp_canonical_pointer unwanted;
    return capnp_canonical_segments_locate(segments, count, held.nesting, held.words, reading, pointer ? pointer : &unwanted);
}

CAPNP_CANONICAL_CHECKED
CAPNP_CANONICAL_INLINE uint32_t capnp_canonical_segments_walk_within(const struct capnp_canonical_segment *segments, size_t count, const struct capnp_canonical_limits *limits, struct capnp_canonical_object *objects, size_t room, size_t *found) {
    const struct capnp_canonical_limits held = capnp_canonical_private_limits(limits);
    size_t unwanted;
    return capnp_canonical_segments_walk(segments, count, held.nesting, held.words, objects, room, found ? found : &unwanted);
}

CAPNP_CANONICAL_CHECKED
CAPNP_CANONICAL_INLINE uint32_t capnp_canonical_segments_copy_flat_at_within(const struct capnp_canonical_segment *segments, size_t count, const uint32_t *path, size_t steps, const struct capnp_canonical_limits *limits, uint8_t *to, size_t room, size_t *written) {
    const struct capnp_canonical_limits held = capnp_canonical_private_limits(limits);
    size_t unwanted;
    return capnp_canonical_segments_copy_flat_at(segments, count, path, steps, held.nesting, held.words, to, room, written ? written : &unwanted);
}

CAPNP_CANONICAL_CHECKED CAPNP_CANONICAL_NEEDS(6)
CAPNP_CANONICAL_INLINE uint32_t capnp_canonical_segments_digest_at_within(const struct capnp_canonical_segment *segments, size_t count, const uint32_t *path, size_t steps, const struct capnp_canonical_limits *limits, uint8_t digest[32]) {
    const struct capnp_canonical_limits held = capnp_canonical_private_limits(limits);
    return capnp_canonical_segments_digest_at(segments, count, path, steps, held.nesting, held.words, digest);
}

CAPNP_CANONICAL_CHECKED CAPNP_CANONICAL_NEEDS(8)
CAPNP_CANONICAL_INLINE uint32_t capnp_canonical_segments_digest_with_at_within(const uint8_t *prefix, size_t prefix_size, const struct capnp_canonical_segment *segments, size_t count, const uint32_t *path, size_t steps, const struct capnp_canonical_limits *limits, uint8_t digest[32]) {
    const struct capnp_canonical_limits held = capnp_canonical_private_limits(limits);
    return capnp_canonical_segments_digest_with_at(prefix, prefix_size, segments, count, path, steps, held.nesting, held.words, digest);
}

CAPNP_CANONICAL_CHECKED
CAPNP_CANONICAL_INLINE uint32_t capnp_canonical_segments_size_at_within(const struct capnp_canonical_segment *segments, size_t count, const uint32_t *path, size_t steps, const struct capnp_canonical_limits *limits, uint64_t *word_count, uint32_t *capability_count) {
    const struct capnp_canonical_limits held = capnp_canonical_private_limits(limits);
    uint64_t unwanted_words;
    uint32_t unwanted_capabilities;
    return capnp_canonical_segments_size_at(segments, count, path, steps, held.nesting, held.words, word_count ? word_count : &unwanted_words, capability_count ? capability_count : &unwanted_capabilities);
}

/* The same for a message given as raw words. */
CAPNP_CANONICAL_CHECKED
CAPNP_CANONICAL_INLINE uint32_t capnp_canonical_words_copy_within(const uint8_t *message, size_t size, const struct capnp_canonical_limits *limits, uint8_t *to, size_t room, size_t *written) {
    const struct capnp_canonical_limits held = capnp_canonical_private_limits(limits);
    size_t unwanted;
    return capnp_canonical_words_copy(message, size, held.nesting, held.words, to, room, written ? written : &unwanted);
}

CAPNP_CANONICAL_CHECKED CAPNP_CANONICAL_NEEDS(4)
CAPNP_CANONICAL_INLINE uint32_t capnp_canonical_words_digest_within(const uint8_t *message, size_t size, const struct capnp_canonical_limits *limits, uint8_t digest[32]) {
    const struct capnp_canonical_limits held = capnp_canonical_private_limits(limits);
    return capnp_canonical_words_digest(message, size, held.nesting, held.words, digest);
}

CAPNP_CANONICAL_CHECKED CAPNP_CANONICAL_NEEDS(6)
CAPNP_CANONICAL_INLINE uint32_t capnp_canonical_words_digest_with_within(const uint8_t *prefix, size_t prefix_size, const uint8_t *message, size_t size, const struct capnp_canonical_limits *limits, uint8_t digest[32]) {
    const struct capnp_canonical_limits held = capnp_canonical_private_limits(limits);
    return capnp_canonical_words_digest_with(prefix, prefix_size, message, size, held.nesting, held.words, digest);
}

CAPNP_CANONICAL_CHECKED CAPNP_CANONICAL_NEEDS(6)
CAPNP_CANONICAL_INLINE uint32_t capnp_canonical_words_equal_within(const uint8_t *one, size_t one_size, const uint8_t *other, size_t other_size, const struct capnp_canonical_limits *limits, bool *is_equal) {
    const struct capnp_canonical_limits held = capnp_canonical_private_limits(limits);
    return capnp_canonical_words_equal(one, one_size, other, other_size, held.nesting, held.words, is_equal);
}

CAPNP_CANONICAL_CHECKED
CAPNP_CANONICAL_INLINE uint32_t capnp_canonical_words_check_within(const uint8_t *message, size_t size, const struct capnp_canonical_limits *limits, bool *is_canonical, struct capnp_canonical_fault *fault) {
    const struct capnp_canonical_limits held = capnp_canonical_private_limits(limits);
    bool unwanted;
    struct capnp_canonical_fault unwanted_fault;
    return capnp_canonical_words_check(message, size, held.nesting, held.words, is_canonical ? is_canonical : &unwanted, fault ? fault : &unwanted_fault);
}

CAPNP_CANONICAL_CHECKED
CAPNP_CANONICAL_INLINE uint32_t capnp_canonical_words_size_within(const uint8_t *message, size_t size, const struct capnp_canonical_limits *limits, uint64_t *word_count, uint32_t *capability_count) {
    const struct capnp_canonical_limits held = capnp_canonical_private_limits(limits);
    uint64_t unwanted_words;
    uint32_t unwanted_capabilities;
    return capnp_canonical_words_size(message, size, held.nesting, held.words, word_count ? word_count : &unwanted_words, capability_count ? capability_count : &unwanted_capabilities);
}

CAPNP_CANONICAL_CHECKED
CAPNP_CANONICAL_INLINE uint32_t capnp_canonical_words_validate_within(const uint8_t *message, size_t size, const struct capnp_canonical_limits *limits, struct capnp_canonical_extent *extent) {
    const struct capnp_canonical_limits held = capnp_canonical_private_limits(limits);
    struct capnp_canonical_extent unwanted;
    return capnp_canonical_words_validate(message, size, held.nesting, held.words, extent ? extent : &unwanted);
}

CAPNP_CANONICAL_CHECKED
CAPNP_CANONICAL_INLINE uint32_t capnp_canonical_words_locate_within(const uint8_t *message, size_t size, const struct capnp_canonical_limits *limits, uint32_t reading, struct capnp_canonical_pointer *pointer) {
    const struct capnp_canonical_limits held = capnp_canonical_private_limits(limits);
    struct capnp_canonical_pointer unwanted;
    return capnp_canonical_words_locate(message, size, held.nesting, held.words, reading, pointer ? pointer : &unwanted);
}

CAPNP_CANONICAL_CHECKED
CAPNP_CANONICAL_INLINE uint32_t capnp_canonical_words_walk_within(const uint8_t *message, size_t size, const struct capnp_canonical_limits *limits, struct capnp_canonical_object *objects, size_t room, size_t *found) {
    const struct capnp_canonical_limits held = capnp_canonical_private_limits(limits);
    size_t unwanted;
    return capnp_canonical_words_walk(message, size, held.nesting, held.words, objects, room, found ? found : &unwanted);
}

CAPNP_CANONICAL_CHECKED
CAPNP_CANONICAL_INLINE uint32_t capnp_canonical_words_copy_at_within(const uint8_t *message, size_t size, const uint32_t *path, size_t steps, const struct capnp_canonical_limits *limits, uint8_t *to, size_t room, size_t *written) {
    const struct capnp_canonical_limits held = capnp_canonical_private_limits(limits);
    size_t unwanted;
    return capnp_canonical_words_copy_at(message, size, path, steps, held.nesting, held.words, to, room, written ? written : &unwanted);
}

CAPNP_CANONICAL_CHECKED CAPNP_CANONICAL_NEEDS(6)
CAPNP_CANONICAL_INLINE uint32_t capnp_canonical_words_digest_at_within(const uint8_t *message, size_t size, const uint32_t *path, size_t steps, const struct capnp_canonical_limits *limits, uint8_t digest[32]) {
    const struct capnp_canonical_limits held = capnp_canonical_private_limits(limits);
    return capnp_canonical_words_digest_at(message, size, path, steps, held.nesting, held.words, digest);
}

CAPNP_CANONICAL_CHECKED CAPNP_CANONICAL_NEEDS(8)
CAPNP_CANONICAL_INLINE uint32_t capnp_canonical_words_digest_with_at_within(const uint8_t *prefix, size_t prefix_size, const uint8_t *message, size_t size, const uint32_t *path, size_t steps, const struct capnp_canonical_limits *limits, uint8_t digest[32]) {
    const struct capnp_canonical_limits held = capnp_canonical_private_limits(limits);
    return capnp_canonical_words_digest_with_at(prefix, prefix_size, message, size, path, steps, held.nesting, held.words, digest);
}

CAPNP_CANONICAL_CHECKED
CAPNP_CANONICAL_INLINE uint32_t capnp_canonical_words_size_at_within(const uint8_t *message, size_t size, const uint32_t *path, size_t steps, const struct capnp_canonical_limits *limits, uint64_t *word_count, uint32_t *capability_count) {
    const struct capnp_canonical_limits held = capnp_canonical_private_limits(limits);
    uint64_t unwanted_words;
    uint32_t unwanted_capabilities;
    return capnp_canonical_words_size_at(message, size, path, steps, held.nesting, held.words, word_count ? word_count : &unwanted_words, capability_count ? capability_count : &unwanted_capabilities);
}

/* Tells whether two messages mean equal values; each is a frame. */
CAPNP_CANONICAL_CHECKED CAPNP_CANONICAL_NEEDS(6)
CAPNP_CANONICAL_INLINE uint32_t capnp_canonical_equal_within(const uint8_t *one, size_t one_size, const uint8_t *other, size_t other_size, const struct capnp_canonical_limits *limits, bool *is_equal) {
    const struct capnp_canonical_limits held = capnp_canonical_private_limits(limits);
    return capnp_canonical_equal(one, one_size, other, other_size, held.nesting, held.words, is_equal);
}

/* Writes the 8 bytes that make raw words a frame, if they are in front of them: the segment table of one segment of `size`
 * bytes. Refused, with 8 bytes of 0, if that isn't a number of whole words (CAPNP_CANONICAL_SEGMENT_IS_NOT_WHOLE_WORDS) or there
 * are 2^32 or more words (CAPNP_CANONICAL_MESSAGE_TOO_LARGE). */
CAPNP_CANONICAL_CHECKED CAPNP_CANONICAL_NEEDS(2)
CAPNP_CANONICAL_INLINE uint32_t capnp_canonical_frame_head(uint64_t size, uint8_t head[8]) {
    const uint64_t words = size / 8;
    memset(head, 0, 8);
    if (size % 8) return CAPNP_CANONICAL_SEGMENT_IS_NOT_WHOLE_WORDS;
    if (words > UINT32_MAX) return CAPNP_CANONICAL_MESSAGE_TOO_LARGE;
    for (int i = 0; i < 4; i++) head[4 + i] = (uint8_t)(words >> (8 * i));
    return CAPNP_CANONICAL_DONE;
}

#ifdef __cplusplus
}
#endif

#endif
