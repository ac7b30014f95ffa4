/* Reads framed messages from standard input and writes the canonical words of each to standard output: the bytes to
 * hash or sign. They are the bytes that `capnp convert binary:canonical` writes, if the root is a struct and both
 * accept the message. */
#include "capnp_canonical.h"
#include <stdio.h>
#include <stdlib.h>

struct buffer {
    uint8_t *bytes;
    size_t size;
};

/* All of standard input; no bytes and the size SIZE_MAX if memory or the input fails. */
static struct buffer read_all(void) {
    struct buffer all = {NULL, 0};
    size_t room = 0, count;
    do {
        if (all.size == room) {
            room = room ? 2 * room : 1 << 16;
            uint8_t *more = realloc(all.bytes, room);
            if (!more) break;
            all.bytes = more;
        }
        count = fread(all.bytes + all.size, 1, room - all.size, stdin);
        all.size += count;
    } while (count);
    if (feof(stdin)) return all;
    free(all.bytes);
    return (struct buffer){NULL, SIZE_MAX};
}

/* Writes the canonical words of the frame at the front. Returns the size of the frame in bytes, or 0 if it is
 * refused. */
static size_t write_canonical(const uint8_t *frame, size_t size, uint32_t *answer) {
    const int32_t nesting = CAPNP_CANONICAL_NESTING;
    const uint64_t words = CAPNP_CANONICAL_WORDS;
    size_t taken, written;
    uint64_t word_count;
    uint32_t cap_count;
    *answer = capnp_canonical_frame_size(frame, size, words, &taken);
    if (*answer) return 0;
    *answer = capnp_canonical_size(frame, taken, nesting, words, &word_count, &cap_count);
    if (*answer) return 0;
    size_t room = 8 + 8 * (size_t)word_count;
    uint8_t *to = malloc(room);
    *answer = to ? capnp_canonical_copy_flat(frame, taken, nesting, words, to, room, &written) : CAPNP_CANONICAL_ALLOCATION_FAILED;
    if (!*answer && fwrite(to, 1, written, stdout) != written) *answer = UINT32_MAX;
    free(to);
    return *answer ? 0 : taken;
}

/* Says which message is refused, where it starts and why. */
static void say_refused(unsigned long number, const struct buffer *all, size_t at, uint32_t answer) {
    bool is_no_frame = answer == CAPNP_CANONICAL_TOO_MANY_SEGMENTS || answer == CAPNP_CANONICAL_MESSAGE_TOO_LONG || answer == CAPNP_CANONICAL_TRUNCATED;
    const char *like = is_no_frame ? capnp_canonical_looks_like(all->bytes + at, all->size - at) : NULL;
    fprintf(stderr, "message %lu at byte %zu: refused %s: %s", number, at, capnp_canonical_error_name(answer), capnp_canonical_error_text(answer));
    if (like) fprintf(stderr, "; the bytes look like %s", like);
    fputc('\n', stderr);
}

int main(void) {
    struct buffer all = read_all();
    if (all.size == SIZE_MAX) return perror("standard input"), 2;
    uint32_t answer = CAPNP_CANONICAL_DONE;
    unsigned long number = 0;
    size_t at = 0;
    while (at < all.size && !answer) {
        number++;
        at += write_canonical(all.bytes + at, all.size - at, &answer);
    }
    bool is_written = fflush(stdout) == 0 && answer != UINT32_MAX;
    if (!is_written) perror("standard output");
    if (answer && answer != UINT32_MAX) say_refused(number, &all, at, answer);
    free(all.bytes);
    return is_written && !answer ? 0 : 2;
}
