/* What the plain reader, the plain corrector and the plain writer share: the format in C, octet by octet. */
#ifndef PLAIN_H
#define PLAIN_H

#include "reader.h"

#define MOST_OCTETS 268435456u
#define MOST_RECORDS 65535u
#define MOST_COLUMNS 128u

struct columns {
    size_t count;
    uint32_t tags[MOST_COLUMNS];
    uint8_t keys[MOST_COLUMNS];
    uint8_t forms[MOST_COLUMNS];
};

struct tables {
    struct columns header, address;
    size_t at; /* of the header record */
};

static inline uint32_t word32(const uint8_t *s) {
    return (uint32_t)s[0] | (uint32_t)s[1] << 8 | (uint32_t)s[2] << 16 | (uint32_t)s[3] << 24;
}

static inline void put_word32(uint8_t *s, size_t x) {
    for (int k = 0; k < 4; k++) s[k] = (uint8_t)(x >> 8 * k);
}

static inline int present(const uint8_t *p, size_t i) { return p[i / 8] >> (7 - i % 8) & 1; }

/* 0 to 5 and 9 to 13; 255 where the type isn't among the ten */
uint8_t form_of(uint32_t tag);
/* how many octets a value takes, 0 where it is broken (no value is empty) */
size_t value(uint8_t form, const uint8_t *s, size_t n);
size_t read_number(const uint8_t *s, size_t n, uint32_t *value);
/* strings without their 00 */
int is_narrow(const uint8_t *s, size_t n);
int is_utf8(const uint8_t *s, size_t n);
struct refusal judge_record(const uint8_t *book, size_t n, size_t at, const struct columns *t, int keys, size_t *size);
struct refusal judge_with(const uint8_t *book, size_t n, struct tables *t);
struct refusal read_tables(const uint8_t *book, size_t n, struct tables *t);
/* the column with a tag; the count where there is none */
size_t find_column(const struct columns *t, uint32_t tag);
/* the value of a column in the record at `at`, which is judged */
struct stretch seek(const uint8_t *book, size_t at, const struct columns *t, size_t column);

#endif
