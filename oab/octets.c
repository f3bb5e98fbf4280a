/* Octets that grow: a book takes memory by its size. */
#include "octets.h"
#include <errno.h>
#include <stdlib.h>
#include <string.h>

/* As much as is asked for, and half as much again as there was, so that many small asks cost little. */
int grow(struct octets *o, size_t more)
{
    size_t room = o->room + o->room / 2;
    uint8_t *at;
    if (o->at && more <= o->room - o->length) return 1;
    if (more > SIZE_MAX - o->length) {
        errno = ENOMEM;
        return 0;
    }
    if (room < o->length + more) room = o->length + more;
    if (room < 64) room = 64;
    at = realloc(o->at, room);
    if (!at) return 0;
    o->at = at;
    o->room = room;
    return 1;
}

int add(struct octets *o, const void *from, size_t n)
{
    if (!grow(o, n)) return 0;
    if (n) memcpy(o->at + o->length, from, n);
    o->length += n;
    return 1;
}

void drop(struct octets *o)
{
    free(o->at);
    o->at = NULL;
    o->length = o->room = 0;
}

uint32_t number_at(const uint8_t *s)
{
    return s[0] | (uint32_t)s[1] << 8 | (uint32_t)s[2] << 16 | (uint32_t)s[3] << 24;
}
