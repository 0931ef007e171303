/* A plain access of an atomic object, which the compiler puts between two fences. */
#ifndef PLAIN_ACCESS_H
#define PLAIN_ACCESS_H

#include <stdbool.h>
#include <stdint.h>
#include "../names.h"

struct plain_access {
    /* The instruction, the object's address and its bytes. */
    const void *place;
    const void *object;
    uint32_t size;
    bool is_store;
};

/* The access between a fence and the one after it, by the instructions there; false if there is none. `registers` are those of the
 * program, and in the place of x0 the address to which the fence returns. */
bool plain_access_find(const uint32_t *registers, struct plain_access *access);

#endif
