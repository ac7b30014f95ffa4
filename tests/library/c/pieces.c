/* Unpacks packed streams piece by piece: the messages of a file (see its top) with capnp_canonical_unpack_frame, in pieces of each
 * length, cut short everywhere; and random bytes with capnp_canonical_unpack_piece, in pieces and to rooms of random lengths, compared
 * with what the words of the specification say.
 *
 *     pieces FILE
 *
 * Each buffer is a block of the heap of its very size, so that the address sanitizer sees any byte too many. The last line is `N
 * passed, M failed`: a count is one comparison. */
#include "capnp_canonical.h"
#include "blocks.h"
#include "counted.h"

enum { MOST = 1 << 15, PARTS = 20, RANDOM = 20000 };

static size_t least(size_t a, size_t b) {
    return a < b ? a : b;
}

/* A block with a copy of `size` bytes of another one. */
static struct bytes part_of(struct bytes whole, size_t at, size_t size) {
    return size ? copy_of(whole.at + at, size) : block(0);
}

/* Parts of hex digits with commas between them. */
static size_t parts_of(char *digits, struct bytes parts[PARTS]) {
    size_t count = 0;
    if (strcmp(digits, "-") == 0) return 0;
    for (char *part = digits, *next; part && count < PARTS; part = next) {
        next = strchr(part, ',');
        if (next) *next++ = 0;
        parts[count++] = from_hex(part);
    }
    return count;
}

/* A stream that comes piece by piece. */
struct stream {
    struct bytes bytes;
    size_t at, piece;
    struct capnp_canonical_unpacking unpacking;
};

/* The next frame of a stream, in a block of its very size; nothing and Truncated at the end of the stream. */
static uint32_t next_frame(struct stream *of, struct bytes *frame) {
    size_t held = 0, taken = 0, wanted = 0;
    *frame = block(0);
    for (;;) {
        struct bytes piece = part_of(of->bytes, of->at, least(of->piece, of->bytes.size - of->at));
        unsigned long before = blocks;
        uint32_t answer = capnp_canonical_unpack_frame(&of->unpacking, piece.at, piece.size, CAPNP_CANONICAL_WORDS, frame->at, frame->size, &held, &taken, &wanted);
        expect(blocks == before, "it takes memory");
        expect(taken <= piece.size && held <= frame->size, "more than there is");
        free(piece.at);
        of->at += taken;
        if (answer == CAPNP_CANONICAL_NO_ROOM) {
            struct bytes larger = block(wanted);
            expect(wanted > frame->size, "the room that is wanted");
            if (held) memcpy(larger.at, frame->at, held);
            free(frame->at);
            *frame = larger;
        } else if (answer != CAPNP_CANONICAL_TRUNCATED || of->at == of->bytes.size) {
            if (answer == CAPNP_CANONICAL_DONE) expect(held == frame->size && held == wanted, "the size");
            frame->size = held;
            return answer;
        }
    }
}

struct row {
    struct bytes packed[PARTS], frames[PARTS], stream;
    size_t parts, count;
    const char *end;
};

/* All frames of the first `size` packed bytes, which come `piece` at a time. Those that are whole are the row's. */
static void test_pieces(const struct row *of, size_t size, size_t piece) {
    struct stream stream = {{of->stream.at, size}, 0, piece, {0, 0, 0, 0}};
    size_t number = 0, end = 0;
    for (;;) {
        struct bytes frame;
        uint32_t answer = next_frame(&stream, &frame);
        if (answer == CAPNP_CANONICAL_DONE) {
            expect(number < of->count && frame.size == of->frames[number].size && memcmp(frame.at, of->frames[number].at, frame.size) == 0, "a frame");
            if (number < of->count) end += of->packed[number++].size;
            if (piece >= size && end <= size) expect(stream.at == end, "the packed bytes of a frame");
            free(frame.at);
            continue;
        }
        const char *said = answer == CAPNP_CANONICAL_TRUNCATED && frame.size == 0 && capnp_canonical_is_unpacked(&stream.unpacking) ? "Done" : capnp_canonical_error_name(answer);
        if (size == of->stream.size) expect(number == of->count && strcmp(said, of->end) == 0, "the end");
        else expect(number == of->count || (end + of->packed[number].size >= size && (strcmp(said, "Truncated") == 0 || strcmp(said, "Done") == 0)), "a cut");
        free(frame.at);
        return;
    }
}

static void test_row(struct row *of) {
    of->stream = block(0);
    for (size_t i = 0; i < of->parts; i++) {
        struct bytes longer = block(of->stream.size + of->packed[i].size);
        if (of->stream.size) memcpy(longer.at, of->stream.at, of->stream.size);
        if (of->packed[i].size) memcpy(longer.at + of->stream.size, of->packed[i].at, of->packed[i].size);
        free(of->stream.at);
        of->stream = longer;
    }
    for (size_t piece = 1; piece < least(of->stream.size, 40); piece++) test_pieces(of, of->stream.size, piece);
    for (size_t size = 0; size <= of->stream.size; size++) test_pieces(of, size, SIZE_MAX);
}

/* What the first packed bytes stand for, by the words of the specification, though the last may be cut. */
struct unpacked {
    /* All bytes, how many the first n packed bytes stand for, and whether the next one is a count. */
    struct bytes bytes;
    size_t *given;
    uint8_t *is_count;
    int is_whole;
};

static struct unpacked unpacked_of(struct bytes packed) {
    struct unpacked to = {{calloc(2048, packed.size + 1), 0}, calloc(packed.size + 1, sizeof(size_t)), calloc(packed.size + 1, 1), 1};
    size_t at = 0;
    if (!to.bytes.at || !to.given || !to.is_count) abort();
    while (at < packed.size) {
        uint8_t tag = packed.at[at++];
        for (int i = 0; i < 8; i++) {
            if (tag >> i & 1) {
                to.given[at] = to.bytes.size;
                if (at == packed.size) return to.is_whole = 0, to;
                to.bytes.at[to.bytes.size] = packed.at[at++];
            }
            to.bytes.size++;
        }
        to.given[at] = to.bytes.size;
        if (tag != 0 && tag != 255) continue;
        to.is_count[at] = 1;
        if (at == packed.size) return to.is_whole = 0, to;
        size_t more = 8 * (size_t)packed.at[at++];
        if (tag == 0) to.bytes.size += more;
        for (size_t i = 0; tag == 255 && i < more; i++) {
            to.given[at] = to.bytes.size;
            if (at == packed.size) return to.is_whole = 0, to;
            to.bytes.at[to.bytes.size++] = packed.at[at++];
        }
        to.given[at] = to.bytes.size;
    }
    return to;
}

/* A generator of numbers. */
static uint64_t next_number(uint64_t *state) {
    return *state = *state * UINT64_C(6364136223846793005) + UINT64_C(1442695040888963407);
}

static size_t below(size_t end, uint64_t *state) {
    return (size_t)(next_number(state) >> 33) % end;
}

/* One call: what it takes, what it writes, and that nothing behind that is written. */
static void test_call(struct capnp_canonical_unpacking *unpacking, struct bytes packed, const struct unpacked *wanted, size_t *at, size_t *done, size_t size, size_t room) {
    struct bytes piece = part_of(packed, *at, size), to = block(room);
    size_t most = *at + size, next = *at, end = *done + room, taken = 7;
    while (next < most && wanted->given[next] < end) next++;
    if (next < most && wanted->given[next] == end && wanted->is_count[next]) next++;
    size_t bytes = least(wanted->given[next] - *done, room);
    size_t written = capnp_canonical_unpack_piece(unpacking, piece.at, piece.size, to.at, to.size, &taken);
    expect(taken == next - *at && written == bytes, "how many are taken and written");
    expect(written <= room && (written == 0 || memcmp(to.at, wanted->bytes.at + *done, written) == 0), "the bytes");
    expect(written >= room || is_filled((struct bytes){to.at + written, room - written}), "what stands behind them is written");
    *at += taken;
    *done += written;
    free(piece.at);
    free(to.at);
}

static void test_bytes(struct bytes packed, uint64_t *state) {
    struct capnp_canonical_unpacking unpacking = {0, 0, 0, 0};
    struct unpacked wanted = unpacked_of(packed);
    unsigned long before = failed;
    size_t at = 0, done = 0, rooms[] = {1, 9, 24, 300}, room = rooms[below(4, state)], most = 1 + below(packed.size + 1, state);
    while ((at < packed.size || done < wanted.bytes.size) && failed == before) {
        if (at == packed.size && done == wanted.given[at]) break;
        test_call(&unpacking, packed, &wanted, &at, &done, least(packed.size - at, below(most + 1, state)), below(room + 1, state));
    }
    expect(at == packed.size && done == wanted.given[at], "the end of the stream");
    /* the zeros after a byte in the model come when the next byte does */
    expect(capnp_canonical_is_unpacked(&unpacking) == wanted.is_whole, "whether it may end there");
    free(wanted.bytes.at);
    free(wanted.given);
    free(wanted.is_count);
}

/* More than half of the bytes are such as begin runs and end them. */
static void test_random(void) {
    static const uint8_t often[] = {0, 0, 255, 255, 1, 2, 0x81, 0x10};
    uint64_t state = 1;
    place = "random bytes";
    for (int round = 0; round < RANDOM; round++) {
        struct bytes packed = block((size_t)round % 61);
        for (size_t i = 0; i < packed.size; i++) {
            uint64_t number = next_number(&state);
            packed.at[i] = number >> 63 ? often[number >> 33 & 7] : (uint8_t)(number >> 40);
        }
        test_bytes(packed, &state);
        free(packed.at);
    }
}

/* Any numbers in the state are a state: nothing outside of the buffers is read or written. */
static void test_states(void) {
    uint64_t state = 2;
    place = "any state";
    for (int round = 0; round < RANDOM; round++) {
        struct capnp_canonical_unpacking unpacking = {(uint16_t)next_number(&state), (uint16_t)(next_number(&state) >> 40), (uint8_t)(next_number(&state) >> 40 & 7), (uint8_t)(next_number(&state) >> 40)};
        struct bytes packed = block(below(40, &state)), to = block(below(600, &state));
        size_t taken = 0;
        if (round % 2) unpacking.zeros %= 64;
        size_t written = capnp_canonical_unpack_piece(&unpacking, packed.at, packed.size, to.at, to.size, &taken);
        expect(taken <= packed.size && written <= to.size, "more than there is");
        free(packed.at);
        free(to.at);
    }
}

int main(int count, char **words) {
    static char line[1 << 16], name[64], packed[MOST], frames[MOST], end[64];
    FILE *file = count == 2 ? fopen(words[1], "r") : NULL;
    if (!file) return 2;
    while (fgets(line, sizeof line, file)) {
        struct row row;
        if (*line == '#') continue;
        if (sscanf(line, "%63s %32767s %32767s %63s", name, packed, frames, end) != 4) return 2;
        place = name;
        row.parts = parts_of(packed, row.packed);
        row.count = parts_of(frames, row.frames);
        row.end = end;
        test_row(&row);
        for (size_t i = 0; i < row.parts; i++) free(row.packed[i].at);
        for (size_t i = 0; i < row.count; i++) free(row.frames[i].at);
        free(row.stream.at);
    }
    fclose(file);
    test_random();
    test_states();
    printf("%lu passed, %lu failed\n", passed, failed);
    return failed ? 1 : 0;
}
