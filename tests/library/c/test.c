/* Calls each function of the library with the messages of a file (see its top), whole, cut short everywhere and with each
 * bit turned, and with buffers of each length; and with malloc refusing each time in turn where it is linked so.
 *
 *     test FILE
 *
 * Each buffer is a block of the heap of its very size, so that valgrind and the address sanitizer see any byte too many. The
 * last line is `N passed, M failed`: a count is one comparison. */
#include "capnp_canonical.h"
#include "blocks.h"
#include "messages.h"

static const int32_t NESTING = CAPNP_CANONICAL_NESTING;
static const uint64_t WORDS = CAPNP_CANONICAL_WORDS;

/* A message of the file. */
struct message {
    char name[64], copy[96], check[96], size[96], digest[96];
    struct bytes frame, flat;
};

/* A message's segments, each a block of the heap, and their number. */
struct parts {
    struct capnp_canonical_segment at[MOST_SEGMENTS];
    size_t count;
};

/* One of the two copies, of a frame or of segments. */
struct copier {
    const char *name;
    int flat;
    struct bytes frame;
    const struct parts *parts;
};

#ifdef WRAP
/* How many blocks are given before one is refused; none is where it is negative. */
static long blocks = -1;
void *__real_malloc(size_t size);
void *__real_realloc(void *block, size_t size);

static int is_refused(void) { return blocks >= 0 && blocks-- == 0; }
void *__wrap_malloc(size_t size) { return is_refused() ? NULL : __real_malloc(size); }
void *__wrap_realloc(void *block, size_t size) { return is_refused() ? NULL : __real_realloc(block, size); }
#endif

static int are_same(const uint8_t *one, size_t size, struct bytes other) {
    return size == other.size && (size == 0 || memcmp(one, other.at, size) == 0);
}

/* The segments of a whole frame, each at an odd address of a block of its own where `odd` is 1. */
static void take_apart(struct bytes frame, struct parts *parts, int odd) {
    parts->count = number_at(frame.at) + 1;
    const uint8_t *from = frame.at + 8 * ((parts->count + 2) / 2);
    for (size_t i = 0; i < parts->count; i++) {
        size_t size = 8 * (size_t)number_at(frame.at + 4 + 4 * i);
        struct bytes made = block(size ? size + odd : 0);
        if (size) memcpy(made.at + odd, from, size);
        parts->at[i].bytes = size ? made.at + odd : NULL;
        parts->at[i].size = size;
        from += size;
    }
}

static void let_go(struct parts *parts, int odd) {
    for (size_t i = 0; i < parts->count; i++) {
        if (parts->at[i].bytes) free((uint8_t *)parts->at[i].bytes - odd);
    }
}

static uint32_t copied(const struct copier *by, struct bytes to, size_t *written) {
    *written = SIZE_MAX;
    if (by->parts) {
        return by->flat ? capnp_canonical_segments_copy_flat(by->parts->at, by->parts->count, NESTING, WORDS, to.at, to.size, written)
                        : capnp_canonical_segments_copy(by->parts->at, by->parts->count, NESTING, WORDS, to.at, to.size, written);
    }
    return by->flat ? capnp_canonical_copy_flat(by->frame.at, by->frame.size, NESTING, WORDS, to.at, to.size, written)
                    : capnp_canonical_copy(by->frame.at, by->frame.size, NESTING, WORDS, to.at, to.size, written);
}

/* A buffer of each length up to the answer's, and one beyond it. Gives the answer. */
static uint32_t copy_in_each_room(const struct copier *by, struct bytes wanted) {
    size_t written;
    uint32_t answer = CAPNP_CANONICAL_NO_ROOM;
    for (size_t room = 0; room <= wanted.size + 1; room++) {
        struct bytes to = block(room);
        answer = copied(by, to, &written);
        if (answer == CAPNP_CANONICAL_DONE) {
            expect(room >= wanted.size && are_same(to.at, written, wanted), by->name);
            expect(room == written || to.at[written] == FILL, "what stands behind a copy is written");
        } else {
            expect(is_filled(to), "a refused copy is written");
            expect(written == (answer == CAPNP_CANONICAL_NO_ROOM ? wanted.size : 0), "the room that is wanted");
        }
        free(to.at);
    }
    return answer;
}

/* The frame of one segment of these words. */
static struct bytes framed(struct bytes flat) {
    struct bytes made = block(8 + flat.size);
    memset(made.at, 0, 8);
    for (int i = 0; i < 4; i++) made.at[4 + i] = (uint8_t)(flat.size / 8 >> 8 * i);
    if (flat.size) memcpy(made.at + 8, flat.at, flat.size);
    return made;
}

static void test_copies(const struct message *of, const struct parts *parts) {
    struct bytes none = {NULL, 0}, frame = of->flat.size ? framed(of->flat) : none;
    struct copier plain = {"the copy", 0, of->frame, parts}, flat = {"the flat copy", 1, of->frame, parts};
    expect(is_named(copy_in_each_room(&plain, frame), of->copy), "the answer of the copy");
    expect(is_named(copy_in_each_room(&flat, of->flat), of->copy), "the answer of the flat copy");
    free(frame.at);
}

static uint32_t digested(struct bytes frame, const struct parts *parts, struct bytes to) {
    memset(to.at, FILL, to.size);
    return parts ? capnp_canonical_segments_digest(parts->at, parts->count, NESTING, WORDS, to.at)
                 : capnp_canonical_digest(frame.at, frame.size, NESTING, WORDS, to.at);
}

static int is_zero(struct bytes it) {
    for (size_t i = 0; i < it.size; i++) {
        if (it.at[i]) return 0;
    }
    return 1;
}

static void test_digest(const struct message *of, const struct parts *parts) {
    struct bytes to = block(32);
    uint32_t answer = digested(of->frame, parts, to);
    expect(is_named(answer, of->copy), "the answer of the digest");
    if (answer == CAPNP_CANONICAL_DONE) {
        struct bytes wanted = from_hex(of->digest);
        expect(are_same(to.at, to.size, wanted), "the digest");
        memset(to.at, FILL, to.size);
        expect(capnp_canonical_words_digest(of->flat.at, of->flat.size, NESTING, WORDS, to.at) == CAPNP_CANONICAL_DONE && are_same(to.at, to.size, wanted),
               "the digest of the words");
        free(wanted.at);
    } else {
        expect(is_zero(to), "the digest of a message that is refused");
    }
    free(to.at);
}

static uint32_t checked(struct bytes frame, const struct parts *parts, bool *holds, struct capnp_canonical_fault *fault) {
    *holds = true;
    memset(fault, FILL, sizeof *fault);
    return parts ? capnp_canonical_segments_check(parts->at, parts->count, NESTING, WORDS, holds, fault)
                 : capnp_canonical_check(frame.at, frame.size, NESTING, WORDS, holds, fault);
}

static void test_check(const struct message *of, const struct parts *parts) {
    bool holds;
    struct capnp_canonical_fault fault;
    uint32_t answer = checked(of->frame, parts, &holds, &fault);
    char told[96];
    snprintf(told, sizeof told, "%u,%llu,%u", (unsigned)fault.reason, (unsigned long long)fault.segment, (unsigned)fault.word);
    int yes = strcmp(of->check, "yes") == 0, no = strchr(of->check, ',') != NULL;
    expect(yes || no ? answer == CAPNP_CANONICAL_DONE : is_named(answer, of->check), "the answer of the check");
    expect(holds == yes, "whether it is canonical");
    expect(strcmp(told, no ? of->check : "0,0,0") == 0, "the fault");
}

static uint32_t sized(struct bytes frame, const struct parts *parts, uint64_t *words, uint32_t *caps) {
    *words = UINT64_MAX, *caps = UINT32_MAX;
    return parts ? capnp_canonical_segments_size(parts->at, parts->count, NESTING, WORDS, words, caps)
                 : capnp_canonical_size(frame.at, frame.size, NESTING, WORDS, words, caps);
}

static void test_size(const struct message *of, const struct parts *parts) {
    uint64_t words;
    uint32_t caps;
    uint32_t answer = sized(of->frame, parts, &words, &caps);
    char told[96];
    snprintf(told, sizeof told, "%llu,%u", (unsigned long long)words, (unsigned)caps);
    int done = strchr(of->size, ',') != NULL;
    expect(done ? answer == CAPNP_CANONICAL_DONE : is_named(answer, of->size), "the answer of the size");
    expect(strcmp(told, done ? of->size : "0,0") == 0, "the size");
    if (done && of->flat.size) expect(of->flat.size <= 8 + 8 * words, "the room that the size says is enough");
}

/* The size of the frame, with bytes behind it. */
static void test_frame_size(const struct message *of) {
    struct bytes more = block(of->frame.size + 5);
    size_t size = 0;
    memcpy(more.at, of->frame.at, of->frame.size);
    expect(capnp_canonical_frame_size(more.at, more.size, WORDS, &size) == CAPNP_CANONICAL_DONE && size == of->frame.size, "the size of the frame");
    uint64_t words = of->frame.size / 8;
    expect(capnp_canonical_frame_size(more.at, more.size, words, &size) == CAPNP_CANONICAL_DONE, "a frame within the limit");
    free(more.at);
}

/* The bytes at the front of the frame tell its size: never more than it, more than there is of it, and all of it if the
 * segment table is there. The table has four bytes for the number of segments less one, and four for each size. */
static void test_frame_size_from_prefix(struct bytes frame) {
    size_t table = (size_t)((frame.at[0] | frame.at[1] << 8) + 1) / 2 * 8 + 8;
    for (size_t size = 0; size <= frame.size; size++) {
        struct bytes prefix = copy_of(frame.at, size);
        size_t bytes = 0;
        expect(capnp_canonical_frame_size_from_prefix(prefix.at, size, frame.size / 8, &bytes) == CAPNP_CANONICAL_DONE, "a part of a frame has a size");
        expect(size < table ? size < bytes && bytes <= table : bytes == frame.size, "the size that a part of a frame tells");
        free(prefix.at);
    }
}

/* Each of the calls on a frame that is cut short anywhere. */
static void test_cuts(struct bytes frame) {
    for (size_t size = 0; size < frame.size; size++) {
        uint32_t wanted = size ? CAPNP_CANONICAL_TRUNCATED : CAPNP_CANONICAL_NO_MESSAGE;
        struct bytes cut = copy_of(frame.at, size), to = block(64), digest = block(32), none = {NULL, 0};
        struct copier plain = {"", 0, cut, NULL}, flat = {"", 1, cut, NULL};
        size_t written, taken = SIZE_MAX;
        bool holds;
        struct capnp_canonical_fault fault;
        uint64_t words;
        uint32_t caps;
        expect(copied(&plain, to, &written) == wanted && written == 0, "a frame cut short is copied");
        expect(copied(&flat, none, &written) == wanted && written == 0, "a frame cut short is copied flat");
        expect(digested(cut, NULL, digest) == wanted && is_zero(digest), "a frame cut short has a digest");
        expect(checked(cut, NULL, &holds, &fault) == wanted && !holds && !fault.reason, "a frame cut short is tested");
        expect(sized(cut, NULL, &words, &caps) == wanted && !words && !caps, "a frame cut short is measured");
        expect(capnp_canonical_frame_size(cut.at, size, WORDS, &taken) == wanted && !taken, "a frame cut short has a size");
        expect(is_filled(to), "a refused copy is written");
        free(cut.at);
        free(to.at);
        free(digest.at);
    }
}

/* What stands after a copy of any bytes: it is canonical, its own copy, and within the room that the size says. */
static void test_copied(const struct copier *by, struct bytes to, size_t written) {
    struct bytes made = by->flat ? framed((struct bytes){to.at, written}) : copy_of(to.at, written), again = block(made.size);
    bool holds, was;
    struct capnp_canonical_fault fault;
    uint64_t words;
    uint32_t caps;
    size_t size;
    struct copier second = {"", 0, made, NULL};
    expect(checked(made, NULL, &holds, &fault) == CAPNP_CANONICAL_DONE && holds && !fault.reason, "a copy isn't canonical");
    expect(copied(&second, again, &size) == CAPNP_CANONICAL_DONE && are_same(again.at, size, made), "a copy isn't its own");
    if (sized(by->frame, by->parts, &words, &caps) == CAPNP_CANONICAL_DONE) expect(made.size <= 16 + 8 * words, "the size is too small");
    if (!by->parts && checked(by->frame, NULL, &was, &fault) == CAPNP_CANONICAL_DONE) {
        size_t taken = 0;
        expect(capnp_canonical_frame_size(by->frame.at, by->frame.size, WORDS, &taken) == CAPNP_CANONICAL_DONE, "the size of the frame");
        int same = taken == made.size && memcmp(by->frame.at + 8, made.at + 8, taken - 8) == 0;
        expect(was == (same && number_at(by->frame.at) == 0), "the check isn't whether the copy is the same");
        expect(was == (fault.reason == CAPNP_CANONICAL_REASON_NONE), "there is no fault, or one too many");
    }
    free(made.at);
    free(again.at);
}

/* The digest of any bytes: it is that of the words of the flat copy, or refused like that. */
static void test_any_digest(struct bytes frame, const struct parts *parts, uint32_t copied, struct bytes words) {
    struct bytes to = block(32), of_words = block(32);
    uint32_t answer = digested(frame, parts, to);
    if (copied == CAPNP_CANONICAL_NO_ROOM) {
        expect(answer == CAPNP_CANONICAL_DONE, "a digest needs room");
    } else {
        expect(answer == copied, "a digest is refused by another number than a copy");
    }
    if (copied == CAPNP_CANONICAL_DONE) {
        expect(capnp_canonical_words_digest(words.at, words.size, NESTING, WORDS, of_words.at) == CAPNP_CANONICAL_DONE, "words have no digest");
        expect(are_same(to.at, to.size, of_words), "the digest isn't that of the copy");
    }
    expect(answer == CAPNP_CANONICAL_DONE || is_zero(to), "the digest of bytes that are refused");
    free(to.at);
    free(of_words.at);
}

/* Each of the calls on any bytes. */
static void test_any(struct bytes frame, const struct parts *parts) {
    for (int flat = 0; flat < 2; flat++) {
        struct copier by = {"", flat, frame, parts};
        struct bytes to = block(frame.size + 64);
        size_t written;
        uint32_t answer = copied(&by, to, &written);
        if (answer == CAPNP_CANONICAL_DONE) {
            test_copied(&by, to, written);
        } else {
            expect(is_filled(to), "a refused copy is written");
            expect((answer == CAPNP_CANONICAL_NO_ROOM) == (written != 0), "the room that is wanted");
        }
        if (flat) test_any_digest(frame, parts, answer, (struct bytes){to.at, answer == CAPNP_CANONICAL_DONE ? written : 0});
        free(to.at);
    }
    bool holds;
    struct capnp_canonical_fault fault;
    uint64_t words;
    uint32_t caps;
    uint32_t check = checked(frame, parts, &holds, &fault), size = sized(frame, parts, &words, &caps);
    expect(check == CAPNP_CANONICAL_DONE ? holds == !fault.reason : !holds && !fault.reason, "what the check says");
    expect(size == CAPNP_CANONICAL_DONE || (!words && !caps), "what the size says");
}

/* Each bit turned, of the frame and of its segments. */
static void test_bits(struct bytes frame) {
    struct bytes turned = copy_of(frame.at, frame.size);
    struct parts parts;
    take_apart(frame, &parts, 1);
    for (size_t bit = 0; bit < 8 * frame.size; bit++) {
        turned.at[bit / 8] ^= 1 << bit % 8;
        test_any(turned, NULL);
        turned.at[bit / 8] ^= 1 << bit % 8;
    }
    for (size_t i = 0; i < parts.count; i++) {
        for (size_t bit = 0; bit < 8 * parts.at[i].size; bit++) {
            uint8_t *at = (uint8_t *)parts.at[i].bytes + bit / 8;
            *at ^= 1 << bit % 8;
            test_any(frame, &parts);
            *at ^= 1 << bit % 8;
        }
    }
    let_go(&parts, 1);
    free(turned.at);
}

/* A segment that isn't of whole words is refused by each call. */
static void test_parts_of_words(struct parts *parts) {
    struct bytes none = {NULL, 0}, to = block(64), digest = block(32);
    struct copier plain = {"", 0, none, parts}, flat = {"", 1, none, parts};
    uint32_t wanted = CAPNP_CANONICAL_SEGMENT_IS_NOT_WHOLE_WORDS;
    for (size_t i = 0; i < parts->count; i++) {
        size_t whole = parts->at[i].size, written;
        for (size_t less = 1; whole && less < 8; less++) {
            bool holds;
            struct capnp_canonical_fault fault;
            uint64_t words;
            uint32_t caps;
            parts->at[i].size = whole - less;
            expect(copied(&plain, to, &written) == wanted && !written, "a part of a word is copied");
            expect(copied(&flat, to, &written) == wanted && !written, "a part of a word is copied flat");
            expect(digested(none, parts, digest) == wanted && is_zero(digest), "a part of a word has a digest");
            expect(checked(none, parts, &holds, &fault) == wanted && !holds, "a part of a word is tested");
            expect(sized(none, parts, &words, &caps) == wanted && !words, "a part of a word is measured");
        }
        parts->at[i].size = whole;
    }
    expect(is_filled(to), "a refused copy is written");
    free(to.at);
    free(digest.at);
}

#ifdef WRAP
/* Each block refused in turn: the copy is refused, and nothing is written, until no more are asked for; and so is the
 * digest. Gives how many each takes. */
static long blocks_taken(struct bytes frame, struct bytes wanted) {
    struct bytes to = block(wanted.size);
    struct copier flat = {"", 1, frame, NULL};
    size_t written;
    uint32_t answer = CAPNP_CANONICAL_ALLOCATION_FAILED;
    long n = 0;
    for (; n < 64; n++) {
        blocks = n;
        answer = copied(&flat, to, &written);
        blocks = -1;
        if (answer != CAPNP_CANONICAL_ALLOCATION_FAILED) break;
        expect(is_filled(to) && !written, "a copy without memory is written");
    }
    expect(answer == CAPNP_CANONICAL_DONE && are_same(to.at, written, wanted), "a copy with memory");
    struct bytes digest = block(32);
    for (long i = 0; i <= n; i++) {
        blocks = i;
        answer = digested(frame, NULL, digest);
        blocks = -1;
        if (i < n) expect(answer == CAPNP_CANONICAL_ALLOCATION_FAILED && is_zero(digest), "a digest without memory");
    }
    expect(answer == CAPNP_CANONICAL_DONE && !is_zero(digest), "a digest with memory");
    free(digest.at);
    free(to.at);
    return n;
}

static void put_word(uint8_t *at, uint32_t low, uint32_t high) {
    for (int i = 0; i < 4; i++) at[i] = (uint8_t)(low >> 8 * i), at[4 + i] = (uint8_t)(high >> 8 * i);
}

/* A struct that leads to a list of 200 words, and a word behind it in the frame, so that it isn't canonical. */
static void test_large_memory(void) {
    enum { ELEMENTS = 200, WORDS_OF_VALUE = ELEMENTS + 2 };
    struct bytes frame = block(8 * (WORDS_OF_VALUE + 2)), wanted = {frame.at + 8, 8 * WORDS_OF_VALUE};
    put_word(frame.at, 0, WORDS_OF_VALUE + 1);
    put_word(frame.at + 8, 0, 1 << 16);
    put_word(frame.at + 16, 1, ELEMENTS << 3 | 5);
    place = "a large message";
    expect(blocks_taken(frame, wanted) > 0, "a copy takes no memory");
    put_word(frame.at, 0, WORDS_OF_VALUE);
    expect(blocks_taken(frame, wanted) == 0, "a message that is canonical is copied from where it stands");
    free(frame.at);
}
#endif

static void test_message(const struct message *of) {
    static struct parts parts;
    place = of->name;
    test_copies(of, NULL);
    test_digest(of, NULL);
    test_check(of, NULL);
    test_size(of, NULL);
    if (strcmp(of->copy, "Truncated") == 0 || of->frame.size == 0) return;
    test_frame_size(of);
    test_frame_size_from_prefix(of->frame);
    for (int odd = 0; odd < 2; odd++) {
        take_apart(of->frame, &parts, odd);
        test_copies(of, &parts);
        test_digest(of, &parts);
        test_check(of, &parts);
        test_size(of, &parts);
        test_parts_of_words(&parts);
        let_go(&parts, odd);
    }
    test_cuts(of->frame);
    test_bits(of->frame);
#ifdef WRAP
    /* of fewer than 64 words, and a word for the table */
    if (of->flat.size && of->frame.size <= 8 * 64) expect(blocks_taken(of->frame, of->flat) == 0, "a small message takes no memory");
#endif
}

/* A text is written as snprintf writes it, in a buffer of each length. */
static void test_text(size_t (*text)(uint32_t, char *, size_t), uint32_t number, const char *wanted) {
    size_t length = strlen(wanted);
    for (size_t room = 0; room <= length + 3; room++) {
        struct bytes to = block(room);
        size_t fits = length < room ? length : room - 1;
        expect(text(number, (char *)to.at, room) == length, "the length of a text");
        if (room) expect(memcmp(to.at, wanted, fits) == 0 && to.at[fits] == 0, "a text");
        if (room > fits + 1) expect(to.at[fits + 1] == FILL, "what stands behind a text is written");
        free(to.at);
    }
}

static size_t version_text(uint32_t number, char *to, size_t room) {
    (void)number;
    return capnp_canonical_version_text(to, room);
}

static void test_texts(void) {
    place = "texts";
    test_text(capnp_canonical_name, CAPNP_CANONICAL_NO_ROOM, "NoRoom");
    test_text(capnp_canonical_name, CAPNP_CANONICAL_TRUNCATED, "Truncated");
    test_text(capnp_canonical_name, CAPNP_CANONICAL_UNKNOWN_POINTER_TYPE, "UnknownPointerType");
    test_text(capnp_canonical_name, CAPNP_CANONICAL_DONE, "");
    test_text(capnp_canonical_name, 15, "");
    test_text(capnp_canonical_name, UINT32_MAX, "");
    test_text(capnp_canonical_reason_text, CAPNP_CANONICAL_REASON_PADDING, "a list whose padding isn't zero");
    test_text(capnp_canonical_reason_text, CAPNP_CANONICAL_REASON_WORDS_BEHIND, "words after the value");
    test_text(capnp_canonical_reason_text, CAPNP_CANONICAL_REASON_NONE, "");
    test_text(capnp_canonical_reason_text, 15, "");
    test_text(version_text, 0, CAPNP_CANONICAL_VERSION_TEXT);
    expect(capnp_canonical_version() == CAPNP_CANONICAL_VERSION, "the version");
    for (uint32_t number = 0; number < 100; number++) expect(capnp_canonical_name(number, NULL, 0) < CAPNP_CANONICAL_TEXT_ROOM, "the room for texts");
}

/* No segments; and limits that are exceeded. */
static void test_limits(void) {
    place = "limits";
    static const uint8_t message[] = {0, 0, 0, 0, 2, 0, 0, 0, 0, 0, 0, 0, 1, 0, 0, 0, 5, 0, 0, 0, 0, 0, 0, 0};
    struct parts none = {.count = 0};
    struct bytes no_bytes = {NULL, 0}, frame = copy_of(message, sizeof message);
    size_t size;
    struct copier empty = {"", 0, no_bytes, &none};
    expect(copied(&empty, no_bytes, &size) == CAPNP_CANONICAL_INVALID_SEGMENT_ID, "no segments");
    expect(capnp_canonical_segments_copy(NULL, 0, NESTING, WORDS, NULL, 0, &size) == CAPNP_CANONICAL_INVALID_SEGMENT_ID, "no array");
    expect(capnp_canonical_frame_size(frame.at, frame.size, 1, &size) == CAPNP_CANONICAL_MESSAGE_TOO_LONG && !size, "a frame beyond the limit");
    size = SIZE_MAX;
    expect(capnp_canonical_frame_size_from_prefix(frame.at, 8, 1, &size) == CAPNP_CANONICAL_MESSAGE_TOO_LONG && !size, "a table beyond the limit");
    size = SIZE_MAX;
    static const uint8_t many[4] = {0, 2, 0, 0};
    expect(capnp_canonical_frame_size_from_prefix(many, 4, 1, &size) == CAPNP_CANONICAL_TOO_MANY_SEGMENTS && !size, "a table of 513 segments");
    expect(capnp_canonical_copy(frame.at, frame.size, 0, WORDS, NULL, 0, &size) == CAPNP_CANONICAL_MESSAGE_IS_TOO_DEEPLY_NESTED_OR_CONTAINS_CYCLES, "no level");
    expect(capnp_canonical_copy(frame.at, frame.size, -1, WORDS, NULL, 0, &size) == CAPNP_CANONICAL_MESSAGE_IS_TOO_DEEPLY_NESTED_OR_CONTAINS_CYCLES, "less than no level");
    expect(capnp_canonical_copy(frame.at, frame.size, 1, 2, NULL, 0, &size) == CAPNP_CANONICAL_NO_ROOM && size == 24, "limits that are enough");
    struct capnp_canonical_segment segment = {frame.at + 8, 16};
    expect(capnp_canonical_segments_copy(&segment, 1, 1, 1, NULL, 0, &size) == CAPNP_CANONICAL_READ_LIMIT_EXCEEDED && !size, "a traversal limit");
    free(frame.at);
}

int main(int count, char **words) {
    static char line[1 << 16], frame[1 << 15], flat[1 << 15];
    struct message of;
    FILE *file = count == 2 ? fopen(words[1], "r") : NULL;
    if (!file) return 2;
    while (fgets(line, sizeof line, file)) {
        if (*line == '#') continue;
        if (sscanf(line, "%63s %32767s %95s %32767s %95s %95s %95s", of.name, frame, of.copy, flat, of.check, of.size, of.digest) != 7) return 2;
        of.frame = from_hex(frame);
        of.flat = from_hex(flat);
        test_message(&of);
        free(of.frame.at);
        free(of.flat.at);
    }
    fclose(file);
    test_texts();
    test_limits();
#ifdef WRAP
    test_large_memory();
#endif
    printf("%lu passed, %lu failed\n", passed, failed);
    return failed ? 1 : 0;
}
