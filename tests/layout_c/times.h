/* The people of the address book that times.c and times.cc build. */
#ifndef TIMES_H
#define TIMES_H

#include <stddef.h>
#include <stdint.h>

struct times_text {
    const char *text;
    size_t size;
};

struct times_person {
    uint32_t id;
    struct times_text name, email;
    uint32_t phones;
    struct times_text numbers[2];
    uint16_t types[2];
    uint16_t employment;
    struct times_text place;
};

enum { TIMES_PEOPLE = 1000 };

#endif
