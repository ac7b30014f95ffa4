/* Reads an address book from standard input, as `capnp encode` writes it, and prints it as `capnp decode --short` does. */
#include <stdio.h>

#include "addressbook.capnp.h"

static void put_text(struct capnp_text text) {
    size_t i;
    putchar('"');
    for (i = 0; i < text.size; i++) {
        unsigned char c = (unsigned char)text.text[i];
        if (c == '"' || c == '\\') printf("\\%c", c);
        else if (c == '\n') fputs("\\n", stdout);
        else putchar(c);
    }
    putchar('"');
}

static void put_phones(const Person *person) {
    static const char *const types[] = {"mobile", "home", "work"};
    Person_PhoneNumber_list phones = Person_phones(person);
    uint32_t i;
    fputs(", phones = [", stdout);
    for (i = 0; i < Person_PhoneNumber_list_count(&phones); i++) {
        Person_PhoneNumber phone = Person_PhoneNumber_list_at(&phones, i);
        uint16_t type = Person_PhoneNumber_type(&phone);
        fputs(i == 0 ? "(" : ", (", stdout);
        if (Person_PhoneNumber_has_number(&phone)) {
            fputs("number = ", stdout);
            put_text(Person_PhoneNumber_number(&phone));
            fputs(", ", stdout);
        }
        if (type < 3) printf("type = %s)", types[type]);
        else printf("type = (%u))", type);
    }
    putchar(']');
}

static void put_employment(const Person *person) {
    Person_employment of = Person_get_employment(person);
    fputs(", employment = (", stdout);
    switch (Person_employment_get_which(&of)) {
    case Person_employment_which_unemployed: fputs("unemployed = void", stdout); break;
    case Person_employment_which_employer:
        fputs("employer = ", stdout);
        put_text(Person_employment_employer(&of));
        break;
    case Person_employment_which_school:
        fputs("school = ", stdout);
        put_text(Person_employment_school(&of));
        break;
    case Person_employment_which_selfEmployed: fputs("selfEmployed = void", stdout); break;
    default: break;
    }
    fputs("))", stdout);
    /* Both are in the same pointer: what isn't set has its default value. */
    if (Person_employment_has_employer(&of) && Person_employment_school(&of).size != 0) fputs("both are read", stdout);
    if (Person_employment_has_school(&of) && Person_employment_employer(&of).size != 0) fputs("both are read", stdout);
}

static void put_person(const Person *person) {
    printf("(id = %u", (unsigned)Person_id(person));
    if (Person_has_name(person)) {
        fputs(", name = ", stdout);
        put_text(Person_name(person));
    }
    if (Person_has_email(person)) {
        fputs(", email = ", stdout);
        put_text(Person_email(person));
    }
    if (Person_has_phones(person)) put_phones(person);
    put_employment(person);
}

static void put_book(const AddressBook *book) {
    putchar('(');
    if (AddressBook_has_people(book)) {
        Person_list people = AddressBook_people(book);
        uint32_t i;
        fputs("people = [", stdout);
        for (i = 0; i < Person_list_count(&people); i++) {
            Person person = Person_list_at(&people, i);
            if (i != 0) fputs(", ", stdout);
            put_person(&person);
        }
        putchar(']');
    }
    puts(")");
}

int main(void) {
    static uint8_t frame[1 << 20];
    static struct capnp_segment room[512];
    struct capnp_message message;
    AddressBook book;
    size_t size = fread(frame, 1, sizeof frame, stdin), used;
    capnp_open_frame(&message, frame, size, room, 512, &used);
    book = AddressBook_root(&message);
    put_book(&book);
    if (message.refusal != 0) {
        fprintf(stderr, "refusal %u at word %u of segment %llu\n", (unsigned)message.refusal, (unsigned)message.refused_word,
                (unsigned long long)message.refused_segment);
        return 2;
    }
    return used == size ? 0 : 3;
}
