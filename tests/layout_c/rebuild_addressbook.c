/* Reads an address book from standard input, as `capnp encode` writes it, builds another one with the same values, and
 * writes that to standard output: the same bytes.
 *
 *     rebuild_addressbook SIZE [copy]
 *
 * Starts in a buffer of SIZE bytes, which isn't zero, and makes it larger as the message wants. Builds field by field, or
 * copies the root. */
#include <stdio.h>
#include <stdlib.h>

#include "addressbook_building.capnp.h"

/* A buffer that is exactly as large as it has to be, at another address each time, so that the sanitizer sees a write outside
 * of it. */
static bool grow(struct capnp_builder *message, size_t wanted) {
    uint8_t *larger = (uint8_t *)malloc(wanted + 8);
    if (!larger) return false;
    memset(larger, 0xaa, wanted + 8);
    memcpy(larger, message->bytes - 8, 8 + 8 * (size_t)message->used);
    free(message->bytes - 8);
    message->bytes = larger + 8;
    message->room = wanted;
    return true;
}

static void copy_phones(const addressbook_Person *from, const addressbook_Person_builder *to) {
    addressbook_Person_PhoneNumber_list phones = addressbook_Person_phones(from);
    uint32_t i, count = addressbook_Person_PhoneNumber_list_count(&phones);
    addressbook_Person_PhoneNumber_list_builder made = addressbook_Person_init_phones(to, count);
    for (i = 0; i < count; i++) {
        addressbook_Person_PhoneNumber phone = addressbook_Person_PhoneNumber_list_at(&phones, i);
        addressbook_Person_PhoneNumber_builder it = addressbook_Person_PhoneNumber_list_builder_at(&made, i);
        if (addressbook_Person_PhoneNumber_has_number(&phone)) {
            addressbook_Person_PhoneNumber_set_number(&it, addressbook_Person_PhoneNumber_number(&phone));
        }
        addressbook_Person_PhoneNumber_set_type(&it, addressbook_Person_PhoneNumber_type(&phone));
    }
}

static void copy_employment(const addressbook_Person *from, const addressbook_Person_builder *to) {
    addressbook_Person_employment of = addressbook_Person_get_employment(from);
    addressbook_Person_employment_builder it = addressbook_Person_build_employment(to);
    switch (addressbook_Person_employment_get_which(&of)) {
    case addressbook_Person_employment_employer:
        addressbook_Person_employment_set_employer(&it, addressbook_Person_employment_get_employer(&of));
        break;
    case addressbook_Person_employment_school:
        addressbook_Person_employment_set_school(&it, addressbook_Person_employment_get_school(&of));
        break;
    case addressbook_Person_employment_selfEmployed: addressbook_Person_employment_set_selfEmployed(&it); break;
    default: addressbook_Person_employment_set_unemployed(&it); break;
    }
}

static void copy_person(const addressbook_Person *from, const addressbook_Person_builder *to) {
    addressbook_Person_set_id(to, addressbook_Person_id(from));
    if (addressbook_Person_has_name(from)) addressbook_Person_set_name(to, addressbook_Person_name(from));
    if (addressbook_Person_has_email(from)) addressbook_Person_set_email(to, addressbook_Person_email(from));
    if (addressbook_Person_has_phones(from)) copy_phones(from, to);
    copy_employment(from, to);
}

static void copy_book(struct capnp_message *from, struct capnp_builder *to) {
    addressbook_AddressBook book = addressbook_AddressBook_root(from);
    addressbook_Person_list people = addressbook_AddressBook_people(&book);
    uint32_t i, count = addressbook_Person_list_count(&people);
    addressbook_AddressBook_builder made = addressbook_AddressBook_init_root(to);
    addressbook_Person_list_builder persons = addressbook_AddressBook_init_people(&made, count);
    for (i = 0; i < count; i++) {
        addressbook_Person person = addressbook_Person_list_at(&people, i);
        addressbook_Person_builder it = addressbook_Person_list_builder_at(&persons, i);
        copy_person(&person, &it);
    }
}

int main(int argc, char **argv) {
    static uint8_t input[1 << 20];
    static struct capnp_segment room[512];
    struct capnp_message from;
    struct capnp_builder to;
    size_t size = argc > 1 ? (size_t)atol(argv[1]) : 0, written;
    uint8_t *buffer = (uint8_t *)malloc(size ? size : 1);
    const uint8_t *frame;
    if (!buffer) return 2;
    memset(buffer, 0xaa, size);
    capnp_open_frame(&from, input, fread(input, 1, sizeof input, stdin), room, 512, NULL);
    capnp_start(&to, buffer, size);
    to.grow = grow;
    if (argc > 2 && strcmp(argv[2], "canonical") == 0) {
        capnp_copy_root_canonical(&to, &from);
    } else if (argc > 2) {
        capnp_copy_root(&to, &from);
    } else {
        copy_book(&from, &to);
    }
    frame = capnp_finish(&to, &written);
    if (!frame || from.refusal != 0) {
        fprintf(stderr, "refusals %u and %u\n", (unsigned)from.refusal, (unsigned)to.refusal);
        return 1;
    }
    written = fwrite(frame, 1, written, stdout);
    free(to.bytes - 8);
    return written == 0;
}
