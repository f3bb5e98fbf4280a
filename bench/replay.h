/* A book's table as the calls that write it, made on the library or on the plain writer. */
#ifndef REPLAY_H
#define REPLAY_H
#include "books.h"

struct step {
    uint32_t what, tag;
    uint32_t at, n; /* octets of the book; n alone where a number or a count is given */
};

struct replay {
    const uint8_t *book;
    struct step *steps;
    size_t count;
    size_t columns[2];
    uint32_t tags[2][128], flags[2][128];
};

/* of a good book */
struct replay replay_of(const struct book *b);
/* each writes the whole book and answers the first refusal, 0: none */
uint32_t replay_library(const struct replay *r, uint8_t *buf, size_t room);
uint32_t replay_plain(const struct replay *r, uint8_t *buf, size_t room);

#endif
