/* Octets that grow, and numbers in them. */
#ifndef OAB_OCTETS_H
#define OAB_OCTETS_H

#include <stddef.h>
#include <stdint.h>

struct octets {
    uint8_t *at;
    size_t length, room;
};

/* Room for `more` octets behind the length; at is never null then. 0: there is no memory, and errno says so. */
int grow(struct octets *o, size_t more);
int add(struct octets *o, const void *from, size_t n);
void drop(struct octets *o);

/* A number of four octets, the least first. */
uint32_t number_at(const uint8_t *s);

#endif
