/* The part of times.cc that is compiled as C: reads, validates and builds an address book. */
#include "addressbook_building.capnp.h"
#include "times.h"

uint64_t c_read(const uint8_t *bytes, size_t size, bool limited);
bool c_validate(const uint8_t *bytes, size_t size);
const uint8_t *c_build(const struct times_person *people, uint8_t *buffer, size_t size, size_t *built);

static void open(struct capnp_message *message, struct capnp_segment *segment, const uint8_t *bytes, size_t size) {
    segment->bytes = bytes + 8;
    segment->size = size - 8;
    capnp_open(message, segment, 1);
}

static uint64_t text(struct capnp_text it) { return it.size + (unsigned char)it.text[0]; }

static uint64_t person(const addressbook_Person *it) {
    addressbook_Person_PhoneNumber_list phones = addressbook_Person_phones(it);
    uint64_t sum = addressbook_Person_id(it) + text(addressbook_Person_name(it)) + text(addressbook_Person_email(it));
    for (uint32_t i = 0, n = addressbook_Person_PhoneNumber_list_count(&phones); i < n; i++) {
        addressbook_Person_PhoneNumber phone = addressbook_Person_PhoneNumber_list_at(&phones, i);
        sum += text(addressbook_Person_PhoneNumber_number(&phone)) + addressbook_Person_PhoneNumber_type(&phone);
    }
    addressbook_Person_employment employment = addressbook_Person_get_employment(it);
    switch (addressbook_Person_employment_get_which(&employment)) {
    case addressbook_Person_employment_employer: return sum + addressbook_Person_employment_get_employer(&employment).size;
    case addressbook_Person_employment_school: return sum + addressbook_Person_employment_get_school(&employment).size;
    default: return sum + 1;
    }
}

/* Reads all fields, within the default limits or without a traversal limit. */
uint64_t c_read(const uint8_t *bytes, size_t size, bool limited) {
    struct capnp_segment segment;
    struct capnp_message message;
    uint64_t sum = 0;
    open(&message, &segment, bytes, size);
    if (!limited) message.left = CAPNP_NO_LIMIT;
    addressbook_AddressBook book = addressbook_AddressBook_root(&message);
    addressbook_Person_list people = addressbook_AddressBook_people(&book);
    for (uint32_t i = 0, n = addressbook_Person_list_count(&people); i < n; i++) {
        addressbook_Person it = addressbook_Person_list_at(&people, i);
        sum += person(&it);
    }
    return message.refusal == 0 ? sum : 0;
}

bool c_validate(const uint8_t *bytes, size_t size) {
    struct capnp_segment segment;
    struct capnp_message message;
    open(&message, &segment, bytes, size);
    return capnp_validate(&message) == 0;
}

static struct capnp_text of(struct times_text it) {
    struct capnp_text text;
    text.text = it.text;
    text.size = it.size;
    return text;
}

static void build_person(const struct times_person *from, const addressbook_Person_builder *it) {
    addressbook_Person_set_id(it, from->id);
    addressbook_Person_set_name(it, of(from->name));
    addressbook_Person_set_email(it, of(from->email));
    addressbook_Person_PhoneNumber_list_builder phones = addressbook_Person_init_phones(it, from->phones);
    for (uint32_t i = 0; i < from->phones; i++) {
        addressbook_Person_PhoneNumber_builder phone = addressbook_Person_PhoneNumber_list_builder_at(&phones, i);
        addressbook_Person_PhoneNumber_set_number(&phone, of(from->numbers[i]));
        addressbook_Person_PhoneNumber_set_type(&phone, from->types[i]);
    }
    addressbook_Person_employment_builder employment = addressbook_Person_build_employment(it);
    switch (from->employment) {
    case addressbook_Person_employment_employer: addressbook_Person_employment_set_employer(&employment, of(from->place)); break;
    case addressbook_Person_employment_school: addressbook_Person_employment_set_school(&employment, of(from->place)); break;
    case addressbook_Person_employment_selfEmployed: addressbook_Person_employment_set_selfEmployed(&employment); break;
    default: addressbook_Person_employment_set_unemployed(&employment);
    }
}

/* Builds a frame. */
const uint8_t *c_build(const struct times_person *people, uint8_t *buffer, size_t size, size_t *built) {
    struct capnp_builder message;
    capnp_start(&message, buffer, size);
    addressbook_AddressBook_builder book = addressbook_AddressBook_init_root(&message);
    addressbook_Person_list_builder list = addressbook_AddressBook_init_people(&book, TIMES_PEOPLE);
    for (uint32_t i = 0; i < TIMES_PEOPLE; i++) {
        addressbook_Person_builder it = addressbook_Person_list_builder_at(&list, i);
        build_person(&people[i], &it);
    }
    return capnp_finish(&message, built);
}
