/* A plain sheet of chosen columns in C, written for the comparison alone. */
#ifndef EXPORTER_H
#define EXPORTER_H
#include "reader.h"

enum { MOST_CHOSEN = 16 };

/* up to sixteen columns of a good book that can be exported, spread over the table; how many */
size_t spread_tags(const uint8_t *book, uint32_t *tags);

struct refusal plain_sheet_length(const uint8_t *book, size_t n, const uint32_t *tags, size_t count, size_t *length);
struct refusal plain_sheet(const uint8_t *book, size_t n, const uint32_t *tags, size_t count, uint8_t *text,
    size_t room, size_t *length);
#endif
