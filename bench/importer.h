/* A plain book from a sheet in C, written for the comparison alone. */
#ifndef IMPORTER_H
#define IMPORTER_H
#include "reader.h"

/* all that a book takes beside its sheet */
struct front {
    const uint32_t *flags, *header_tags, *header_flags;
    size_t flag_count, header_tag_count, header_flag_count;
    const uint8_t *record;
    size_t record_octets;
};

struct refusal plain_from_sheet(const uint8_t *text, size_t n, const struct front *f, uint8_t *buf, size_t room,
    size_t *length);
#endif
