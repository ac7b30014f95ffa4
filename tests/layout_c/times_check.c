/* The part of times.cc that is compiled as C, over generated code: opens an address book, and checks it against its schema. */
#include "../typed/c/addressbook.capnp.h"

bool c_check(const uint8_t *frame, size_t size);

bool c_check(const uint8_t *frame, size_t size) {
    struct capnp_segment room[1];
    struct capnp_message message;
    return AddressBook_open(&message, frame, size, room, 1, NULL) == 0;
}
