/* A plain saved index in C, written for the comparison alone. Offset 20, width 4; an old one, offset 16 and width 3, is
 * read beside a book of at most OLD_MOST octets. */
#ifndef INDEXER_H
#define INDEXER_H
#include "reader.h"

enum { OFFSET = 20, WIDTH = 4, OLD_OFFSET = 16, OLD_WIDTH = 3, OLD_MOST = 16777216 };

struct refusal plain_index(const uint8_t *book, size_t n, uint8_t *index, size_t room, size_t *length);
struct refusal plain_lookup_indexed(const uint8_t *book, size_t n, const uint8_t *index, size_t m, size_t k,
    uint32_t tag, struct stretch *found);
#endif
