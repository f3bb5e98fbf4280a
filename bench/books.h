/* Books of the shapes that are measured; the same octets in every run. */
#ifndef BOOKS_H
#define BOOKS_H
#include <stddef.h>
#include <stdint.h>

/* COUNTS and QUOTES are made to be exported, and timed so alone; the SHAPES before them are timed for every work */
enum shape {
    REALISTIC, NARROW, ASCII, MIXED, OCTETS, NUMBERS, BOOLEANS, EMPTY, COUNTS, QUOTES, ALL_SHAPES, SHAPES = COUNTS
};

struct book {
    uint8_t *octets;
    size_t length;
    size_t records;
    uint32_t tag; /* of the last column with a value in the last record; 0: there is none */
};

extern const char *shape_names[ALL_SHAPES];

/* a good book of about `length` octets, at most that many */
struct book make_book(enum shape shape, size_t length);
#endif
