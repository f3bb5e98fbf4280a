/* Plain corrections where a book stands, and a plain writer that goes call by call: written for the comparison alone. */
#ifndef CORRECTOR_H
#define CORRECTOR_H
#include "plain.h"

/* the header record, where a record is named */
#define HEADER_RECORD SIZE_MAX

struct corrected {
    uint32_t number; /* 0: done */
    size_t answer;   /* the new length, or the refusal's place */
};

/* a book of n octets stands at the front of the buffer; v is 0 where the value is cleared */
struct corrected plain_set(uint8_t *buf, size_t room, size_t n, size_t k, uint32_t tag, const uint8_t *v, size_t size);
struct corrected plain_insert(uint8_t *buf, size_t room, size_t n, size_t k, const uint8_t *record, size_t size);
struct corrected plain_delete(uint8_t *buf, size_t room, size_t n, size_t k);

struct writing {
    uint8_t *buf;
    size_t room, written, opened, start, next, left;
    uint8_t form;
    int idle; /* nothing is being written */
    struct columns header, address;
};

/* each answers 0 or the refusal's number */
uint32_t plain_begin(struct writing *w, uint8_t *buf, size_t room, const uint32_t *htags, const uint32_t *hflags, size_t h, const uint32_t *tags, const uint32_t *flags, size_t a);
uint32_t plain_open(struct writing *w);
uint32_t plain_give_number(struct writing *w, uint32_t tag, uint32_t x);
uint32_t plain_give_truth(struct writing *w, uint32_t tag, int yes);
uint32_t plain_give_octets(struct writing *w, uint32_t tag, const uint8_t *s, size_t n);
uint32_t plain_give_list(struct writing *w, uint32_t tag, uint32_t count);
uint32_t plain_add_number(struct writing *w, uint32_t x);
uint32_t plain_add_octets(struct writing *w, const uint8_t *s, size_t n);
uint32_t plain_close(struct writing *w);
uint32_t plain_finish(struct writing *w);

#endif
