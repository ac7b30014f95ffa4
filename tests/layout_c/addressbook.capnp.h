/* Readers of addressbook.capnp. Written by hand, in the form that a plug-in would write.
 * Each name starts with a prefix and its scopes. */
#ifndef CAPNP_C_9eb32e19f86ee174
#define CAPNP_C_9eb32e19f86ee174

#include "capnp_layout.h"

#ifdef __cplusplus
extern "C" {
#endif

/* One type for each struct, group and list of structs, so that the compiler tells them apart. */
typedef struct { struct capnp_struct reader; } addressbook_Person;
typedef struct { struct capnp_struct reader; } addressbook_Person_employment;
typedef struct { struct capnp_struct reader; } addressbook_Person_PhoneNumber;
typedef struct { struct capnp_struct reader; } addressbook_AddressBook;
typedef struct { struct capnp_list reader; } addressbook_Person_list;
typedef struct { struct capnp_list reader; } addressbook_Person_PhoneNumber_list;

/* enum Person.PhoneNumber.Type. A reader returns the number as it is; numbers beyond are of a newer schema. */
enum addressbook_Person_PhoneNumber_Type {
    addressbook_Person_PhoneNumber_Type_mobile = 0,
    addressbook_Person_PhoneNumber_Type_home = 1,
    addressbook_Person_PhoneNumber_Type_work = 2
};

/* The members of the union Person.employment. */
enum addressbook_Person_employment_which {
    addressbook_Person_employment_unemployed = 0,
    addressbook_Person_employment_employer = 1,
    addressbook_Person_employment_school = 2,
    addressbook_Person_employment_selfEmployed = 3
};

/* struct AddressBook: 0 data words, 1 pointer. */
CAPNP_INLINE addressbook_AddressBook addressbook_AddressBook_root(struct capnp_message *message) {
    addressbook_AddressBook it;
    it.reader = capnp_root(message);
    return it;
}

/* people @0 :List(Person) */
CAPNP_INLINE addressbook_Person_list addressbook_AddressBook_people(const addressbook_AddressBook *of) {
    addressbook_Person_list it;
    it.reader = capnp_get_list(&of->reader, 0, CAPNP_STRUCT);
    return it;
}

CAPNP_INLINE bool addressbook_AddressBook_has_people(const addressbook_AddressBook *of) { return capnp_has(&of->reader, 0); }

CAPNP_INLINE uint32_t addressbook_Person_list_count(const addressbook_Person_list *of) { return of->reader.at.count; }

CAPNP_INLINE addressbook_Person addressbook_Person_list_at(const addressbook_Person_list *of, uint32_t index) {
    addressbook_Person it;
    it.reader = capnp_get_element(&of->reader, index);
    return it;
}

/* struct Person: 1 data word, 4 pointers. */

/* id @0 :UInt32 */
CAPNP_INLINE uint32_t addressbook_Person_id(const addressbook_Person *of) { return capnp_get_u32(&of->reader, 0, 0); }

/* name @1 :Text */
CAPNP_INLINE struct capnp_text addressbook_Person_name(const addressbook_Person *of) { return capnp_get_text(&of->reader, 0); }
CAPNP_INLINE bool addressbook_Person_has_name(const addressbook_Person *of) { return capnp_has(&of->reader, 0); }

/* email @2 :Text */
CAPNP_INLINE struct capnp_text addressbook_Person_email(const addressbook_Person *of) { return capnp_get_text(&of->reader, 1); }
CAPNP_INLINE bool addressbook_Person_has_email(const addressbook_Person *of) { return capnp_has(&of->reader, 1); }

/* phones @3 :List(Person.PhoneNumber) */
CAPNP_INLINE addressbook_Person_PhoneNumber_list addressbook_Person_phones(const addressbook_Person *of) {
    addressbook_Person_PhoneNumber_list it;
    it.reader = capnp_get_list(&of->reader, 2, CAPNP_STRUCT);
    return it;
}
CAPNP_INLINE bool addressbook_Person_has_phones(const addressbook_Person *of) { return capnp_has(&of->reader, 2); }

/* employment :union. A group is the same struct under another type. */
CAPNP_INLINE addressbook_Person_employment addressbook_Person_get_employment(const addressbook_Person *of) {
    addressbook_Person_employment it;
    it.reader = of->reader;
    return it;
}
CAPNP_INLINE uint16_t addressbook_Person_employment_get_which(const addressbook_Person_employment *of) {
    return capnp_get_u16(&of->reader, 4, 0);
}

/* employer @5 :Text. Empty if another member is set. */
CAPNP_INLINE struct capnp_text addressbook_Person_employment_get_employer(const addressbook_Person_employment *of) {
    struct capnp_text none = {"", 0};
    if (addressbook_Person_employment_get_which(of) != addressbook_Person_employment_employer) return none;
    return capnp_get_text(&of->reader, 3);
}

/* school @6 :Text. Empty if another member is set. */
CAPNP_INLINE struct capnp_text addressbook_Person_employment_get_school(const addressbook_Person_employment *of) {
    struct capnp_text none = {"", 0};
    if (addressbook_Person_employment_get_which(of) != addressbook_Person_employment_school) return none;
    return capnp_get_text(&of->reader, 3);
}

/* struct Person.PhoneNumber: 1 data word, 1 pointer. */
CAPNP_INLINE uint32_t addressbook_Person_PhoneNumber_list_count(const addressbook_Person_PhoneNumber_list *of) {
    return of->reader.at.count;
}
CAPNP_INLINE addressbook_Person_PhoneNumber addressbook_Person_PhoneNumber_list_at(
    const addressbook_Person_PhoneNumber_list *of, uint32_t index) {
    addressbook_Person_PhoneNumber it;
    it.reader = capnp_get_element(&of->reader, index);
    return it;
}

/* number @0 :Text */
CAPNP_INLINE struct capnp_text addressbook_Person_PhoneNumber_number(const addressbook_Person_PhoneNumber *of) {
    return capnp_get_text(&of->reader, 0);
}
CAPNP_INLINE bool addressbook_Person_PhoneNumber_has_number(const addressbook_Person_PhoneNumber *of) {
    return capnp_has(&of->reader, 0);
}

/* type @1 :Type */
CAPNP_INLINE uint16_t addressbook_Person_PhoneNumber_type(const addressbook_Person_PhoneNumber *of) {
    return capnp_get_u16(&of->reader, 0, 0);
}

#ifdef __cplusplus
}
#endif

#endif
