/* Builds an address book, and passes its frame to the other library, capnp_canonical: packs it, measures and checks it, copies
 * it into canonical form and hashes that.
 *
 *     finished FOLDER
 *
 * Writes the frame to FOLDER/frame, the packed one to FOLDER/packed, and the canonical words to FOLDER/words. Prints the number
 * of words behind the root pointer, whether the frame is canonical, and the digest. */
#include <stdio.h>

#include "capnp_canonical.h"
#include "capnp_layout.h"

static bool write_file(const char *folder, const char *name, const uint8_t *bytes, size_t size) {
    char path[4096];
    FILE *file;
    bool is_written;
    if (snprintf(path, sizeof path, "%s/%s", folder, name) >= (int)sizeof path || !(file = fopen(path, "wb"))) return false;
    is_written = fwrite(bytes, 1, size, file) == size;
    return fclose(file) == 0 && is_written;
}

static const uint8_t *build(struct capnp_builder *message, uint8_t *buffer, size_t room, size_t *size) {
    struct capnp_struct_builder book, person;
    struct capnp_list_builder people;
    capnp_start(message, buffer, room);
    book = capnp_init_root(message, 0, 1);
    people = capnp_init_struct_list(&book, 0, 2, 1, 4);
    person = capnp_builder_element(&people, 0);
    capnp_set_text(&person, 1, "alice@example.com");
    capnp_set_text(&person, 0, "Alice");
    person = capnp_builder_element(&people, 1);
    capnp_set_u32(&person, 0, 2, 0);
    return capnp_finish(message, size);
}

int main(int given, char **words) {
    uint8_t buffer[4096], packed[4096], canonical[4096], digest[32];
    const int32_t nesting = CAPNP_CANONICAL_NESTING;
    const uint64_t limit = CAPNP_CANONICAL_WORDS;
    struct capnp_builder message;
    struct capnp_canonical_fault fault;
    const uint8_t *frame;
    size_t size, packed_size, canonical_size, i;
    uint64_t count;
    uint32_t capabilities, answer;
    bool is_canonical;
    if (given != 2 || !(frame = build(&message, buffer, sizeof buffer, &size))) return 1;
    answer = capnp_canonical_pack(frame, size, packed, sizeof packed, &packed_size);
    if (answer == CAPNP_CANONICAL_DONE) answer = capnp_canonical_size(frame, size, nesting, limit, &count, &capabilities);
    if (answer == CAPNP_CANONICAL_DONE) answer = capnp_canonical_check(frame, size, nesting, limit, &is_canonical, &fault);
    if (answer == CAPNP_CANONICAL_DONE) answer = capnp_canonical_copy_flat(frame, size, nesting, limit, canonical, sizeof canonical, &canonical_size);
    if (answer == CAPNP_CANONICAL_DONE) answer = capnp_canonical_digest(frame, size, nesting, limit, digest);
    if (answer != CAPNP_CANONICAL_DONE) return 1;
    if (!write_file(words[1], "frame", frame, size) || !write_file(words[1], "packed", packed, packed_size)) return 1;
    if (!write_file(words[1], "words", canonical, canonical_size)) return 1;
    printf("%u words\n%s\n", (unsigned)count, is_canonical ? "canonical" : "not canonical");
    for (i = 0; i < sizeof digest; i++) printf("%02x", digest[i]);
    printf("\n");
    return 0;
}
