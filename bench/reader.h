/* A plain, careful reader of version 4 books in C, written for the comparison alone. */
#ifndef READER_H
#define READER_H
#include <stddef.h>
#include <stdint.h>

struct refusal {
    uint32_t number; /* 0: none */
    size_t place;
};

uint32_t plain_serial_bits(const uint8_t *s, size_t n);
uint32_t plain_serial_table(const uint8_t *s, size_t n);
struct refusal plain_judge(const uint8_t *book, size_t n);
/* where the value of address record k with a tag starts and ends, 0 where there is none */
struct stretch {
    size_t start, end;
};

struct stretch plain_lookup(const uint8_t *book, size_t n, size_t k, uint32_t tag);
#endif
