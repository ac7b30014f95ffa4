/* Reads an address book from standard input, as `capnp encode` writes it, builds another one with the same values, and
 * writes that to standard output: the same bytes.
 *
 *     rebuild [SIZE [copy]]
 *
 * Starts in a buffer of SIZE bytes, by default 16, which isn't zero, and makes it larger as the message wants. Builds field by
 * field, or validates the message and copies its root. */
#include <stdio.h>
#include <stdlib.h>

#include "addressbook.capnp.h"

/* A buffer that is exactly as large as it has to be, at another address each time, so that the sanitizer sees a write outside
 * of it. */
static bool grow(struct capnp_builder *message, size_t wanted) {
    uint8_t *larger = (uint8_t *)malloc(wanted + 8);
    if (!larger) return false;
    memset(larger, 0xaa, wanted + 8);
    memcpy(larger, message->bytes - 8, 8 + 8 * (size_t)message->used);
    free(message->bytes - 8);
    message->bytes = larger + 8;
    message->room = wanted;
    return true;
}

static void copy_phones(const Person *from, const Person_builder *to) {
    Person_PhoneNumber_list phones = Person_phones(from);
    uint32_t i, count = Person_PhoneNumber_list_count(&phones);
    Person_PhoneNumber_list_builder made = Person_init_phones(to, count);
    for (i = 0; i < count; i++) {
        Person_PhoneNumber phone = Person_PhoneNumber_list_at(&phones, i);
        Person_PhoneNumber_builder it = Person_PhoneNumber_list_builder_at(&made, i);
        if (Person_PhoneNumber_has_number(&phone)) {
            struct capnp_text number = Person_PhoneNumber_number(&phone);
            Person_PhoneNumber_set_number_n(&it, number.text, number.size);
        }
        Person_PhoneNumber_set_type(&it, Person_PhoneNumber_type(&phone));
    }
}

static void copy_employment(const Person *from, const Person_builder *to) {
    Person_employment of = Person_get_employment(from);
    Person_employment_builder it = Person_build_employment(to);
    struct capnp_text text;
    switch (Person_employment_get_which(&of)) {
    case Person_employment_which_employer:
        text = Person_employment_employer(&of);
        Person_employment_set_employer_n(&it, text.text, text.size);
        break;
    case Person_employment_which_school:
        text = Person_employment_school(&of);
        Person_employment_set_school_n(&it, text.text, text.size);
        break;
    case Person_employment_which_selfEmployed: Person_employment_set_selfEmployed(&it); break;
    default: Person_employment_set_unemployed(&it); break;
    }
}

static void copy_person(const Person *from, const Person_builder *to) {
    Person_set_id(to, Person_id(from));
    if (Person_has_name(from)) {
        struct capnp_text name = Person_name(from);
        Person_set_name_n(to, name.text, name.size);
    }
    if (Person_has_email(from)) {
        struct capnp_text email = Person_email(from);
        Person_set_email_n(to, email.text, email.size);
    }
    if (Person_has_phones(from)) copy_phones(from, to);
    copy_employment(from, to);
}

static void copy_book(struct capnp_message *from, struct capnp_builder *to) {
    AddressBook book = AddressBook_root(from);
    Person_list people = AddressBook_people(&book);
    uint32_t i, count = Person_list_count(&people);
    AddressBook_builder made = AddressBook_init_root(to);
    Person_list_builder persons = AddressBook_init_people(&made, count);
    for (i = 0; i < count; i++) {
        Person person = Person_list_at(&people, i);
        Person_builder it = Person_list_builder_at(&persons, i);
        copy_person(&person, &it);
    }
}

int main(int argc, char **argv) {
    static uint8_t input[1 << 20];
    static struct capnp_segment room[512];
    struct capnp_message from;
    struct capnp_builder to;
    size_t size = argc > 1 ? (size_t)atol(argv[1]) : 16, written;
    uint8_t *buffer = (uint8_t *)malloc(size ? size : 1);
    const uint8_t *frame;
    if (!buffer) return 2;
    memset(buffer, 0xaa, size);
    capnp_open_frame(&from, input, fread(input, 1, sizeof input, stdin), room, 512, NULL);
    capnp_start(&to, buffer, size);
    to.grow = grow;
    if (argc > 2) {
        capnp_validate(&from);
        capnp_copy_root(&to, &from);
    } else {
        copy_book(&from, &to);
    }
    frame = capnp_finish(&to, &written);
    if (!frame || from.refusal != 0) {
        fprintf(stderr, "refusals %u and %u\n", (unsigned)from.refusal, (unsigned)to.refusal);
        return 1;
    }
    written = fwrite(frame, 1, written, stdout);
    free(to.bytes - 8);
    return written == 0;
}
