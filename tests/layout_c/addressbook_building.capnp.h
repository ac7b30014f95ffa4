/* Builders of addressbook.capnp. Written by hand, in the form that a plug-in would write. */
#ifndef CAPNP_C_9eb32e19f86ee174_BUILDING
#define CAPNP_C_9eb32e19f86ee174_BUILDING

#include "addressbook.capnp.h"

#ifdef __cplusplus
extern "C" {
#endif

typedef struct { struct capnp_struct_builder it; } addressbook_Person_builder;
typedef struct { struct capnp_struct_builder it; } addressbook_Person_employment_builder;
typedef struct { struct capnp_struct_builder it; } addressbook_Person_PhoneNumber_builder;
typedef struct { struct capnp_struct_builder it; } addressbook_AddressBook_builder;
typedef struct { struct capnp_list_builder it; } addressbook_Person_list_builder;
typedef struct { struct capnp_list_builder it; } addressbook_Person_PhoneNumber_list_builder;

/* struct AddressBook: 0 data words, 1 pointer. */
CAPNP_INLINE addressbook_AddressBook_builder addressbook_AddressBook_init_root(struct capnp_builder *message) {
    addressbook_AddressBook_builder made;
    made.it = capnp_init_root(message, 0, 1);
    return made;
}

/* people @0 :List(Person) */
CAPNP_INLINE addressbook_Person_list_builder addressbook_AddressBook_init_people(const addressbook_AddressBook_builder *of, uint32_t count) {
    addressbook_Person_list_builder made;
    made.it = capnp_init_struct_list(&of->it, 0, count, 1, 4);
    return made;
}

CAPNP_INLINE addressbook_Person_builder addressbook_Person_list_builder_at(const addressbook_Person_list_builder *of, uint32_t index) {
    addressbook_Person_builder element;
    element.it = capnp_builder_element(&of->it, index);
    return element;
}

/* struct Person: 1 data word, 4 pointers. */

/* id @0 :UInt32 */
CAPNP_INLINE void addressbook_Person_set_id(const addressbook_Person_builder *of, uint32_t value) { capnp_set_u32(&of->it, 0, value, 0); }

/* name @1 :Text */
CAPNP_INLINE void addressbook_Person_set_name(const addressbook_Person_builder *of, struct capnp_text text) {
    capnp_set_text_n(&of->it, 0, text.text, text.size);
}

/* email @2 :Text */
CAPNP_INLINE void addressbook_Person_set_email(const addressbook_Person_builder *of, struct capnp_text text) {
    capnp_set_text_n(&of->it, 1, text.text, text.size);
}

/* phones @3 :List(Person.PhoneNumber) */
CAPNP_INLINE addressbook_Person_PhoneNumber_list_builder addressbook_Person_init_phones(const addressbook_Person_builder *of, uint32_t count) {
    addressbook_Person_PhoneNumber_list_builder made;
    made.it = capnp_init_struct_list(&of->it, 2, count, 1, 1);
    return made;
}

CAPNP_INLINE addressbook_Person_PhoneNumber_builder addressbook_Person_PhoneNumber_list_builder_at(
    const addressbook_Person_PhoneNumber_list_builder *of, uint32_t index) {
    addressbook_Person_PhoneNumber_builder element;
    element.it = capnp_builder_element(&of->it, index);
    return element;
}

/* employment :union. A setter writes the tag, and then the member. */
CAPNP_INLINE addressbook_Person_employment_builder addressbook_Person_build_employment(const addressbook_Person_builder *of) {
    addressbook_Person_employment_builder group;
    group.it = of->it;
    return group;
}
CAPNP_INLINE void addressbook_Person_employment_set_unemployed(const addressbook_Person_employment_builder *of) {
    capnp_set_u16(&of->it, 4, addressbook_Person_employment_unemployed, 0);
}
CAPNP_INLINE void addressbook_Person_employment_set_employer(const addressbook_Person_employment_builder *of, struct capnp_text text) {
    capnp_set_u16(&of->it, 4, addressbook_Person_employment_employer, 0);
    capnp_set_text_n(&of->it, 3, text.text, text.size);
}
CAPNP_INLINE void addressbook_Person_employment_set_school(const addressbook_Person_employment_builder *of, struct capnp_text text) {
    capnp_set_u16(&of->it, 4, addressbook_Person_employment_school, 0);
    capnp_set_text_n(&of->it, 3, text.text, text.size);
}
CAPNP_INLINE void addressbook_Person_employment_set_selfEmployed(const addressbook_Person_employment_builder *of) {
    capnp_set_u16(&of->it, 4, addressbook_Person_employment_selfEmployed, 0);
}

/* struct Person.PhoneNumber: 1 data word, 1 pointer. */

/* number @0 :Text */
CAPNP_INLINE void addressbook_Person_PhoneNumber_set_number(const addressbook_Person_PhoneNumber_builder *of, struct capnp_text text) {
    capnp_set_text_n(&of->it, 0, text.text, text.size);
}

/* type @1 :Type */
CAPNP_INLINE void addressbook_Person_PhoneNumber_set_type(const addressbook_Person_PhoneNumber_builder *of, uint16_t value) {
    capnp_set_u16(&of->it, 0, value, 0);
}

#ifdef __cplusplus
}
#endif

#endif
