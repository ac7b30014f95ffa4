/* Builds an address book in a buffer, and writes its frame to standard output, as `capnp decode` reads it.
 *
 * AddressBook has the people in pointer 0. Person has 1 data word and 4 pointers: `id` in byte 0 of its data, `name` in
 * pointer 0, and `email` in pointer 1. */
#include <stdio.h>

#include "capnp_layout.h"

int main(void) {
    uint8_t buffer[4096];
    struct capnp_builder message;
    struct capnp_struct_builder book, person;
    struct capnp_list_builder people;
    const uint8_t *frame;
    size_t size;
    capnp_start(&message, buffer, sizeof buffer);
    book = capnp_init_root(&message, 0, 1);
    people = capnp_init_struct_list(&book, 0, 2, 1, 4);
    person = capnp_builder_element(&people, 0);
    capnp_set_u32(&person, 0, 1, 0);
    capnp_set_text(&person, 0, "Alice");
    capnp_set_text(&person, 1, "alice@example.com");
    person = capnp_builder_element(&people, 1);
    capnp_set_u32(&person, 0, 2, 0);
    capnp_set_text(&person, 0, "Bob");
    frame = capnp_finish(&message, &size);
    if (!frame) fprintf(stderr, "refusal %u, %u bytes wanted\n", (unsigned)message.refusal, (unsigned)message.wanted);
    return !frame || fwrite(frame, 1, size, stdout) != size;
}
