/* Reads an address book from a frame on standard input, as `capnp encode` writes it, and prints who is in it.
 *
 * AddressBook has the people in pointer 0. Person has `id` in byte 0 of its data, `name` in pointer 0, and `email` in
 * pointer 1. */
#include <stdio.h>

#include "capnp_layout.h"

int main(void) {
    static uint8_t frame[1 << 20];
    struct capnp_segment room[512];
    struct capnp_message message;
    struct capnp_struct book;
    struct capnp_list people;
    uint32_t i;
    capnp_open_frame(&message, frame, fread(frame, 1, sizeof frame, stdin), room, 512, NULL);
    book = capnp_root(&message);
    people = capnp_get_list(&book, 0, CAPNP_STRUCT);
    for (i = 0; i < capnp_count(&people) && message.refusal == 0; i++) {
        struct capnp_struct person = capnp_get_element(&people, i);
        printf("%u: %s <%s>\n", (unsigned)capnp_get_u32(&person, 0, 0), capnp_get_text(&person, 0).text, capnp_get_text(&person, 1).text);
    }
    if (message.refusal != 0) fprintf(stderr, "refusal %u at word %u\n", (unsigned)message.refusal, (unsigned)message.refused_word);
    return message.refusal != 0;
}
