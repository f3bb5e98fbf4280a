/* The index: judged, then one walk by the size fields. The lookup: the tables, the index, one record. */
#include "indexer.h"
#include "plain.h"

static struct refusal refuse(uint32_t number, size_t place) {
    struct refusal r = {number, place};
    return r;
}

struct refusal plain_index(const uint8_t *book, size_t n, uint8_t *index, size_t room, size_t *length) {
    struct tables t;
    struct refusal r = judge_with(book, n, &t);
    *length = 0;
    if (r.number) return r;
    size_t count = word32(book + 8), at = t.at + word32(book + t.at);
    if (room < OFFSET + WIDTH * count) return refuse(17, 0);
    put_word32(index, count);
    put_word32(index + 4, n);
    put_word32(index + 8, word32(book + 4));
    put_word32(index + 12, OFFSET);
    put_word32(index + 16, WIDTH);
    for (uint8_t *to = index + OFFSET; to < index + OFFSET + WIDTH * count; to += WIDTH) {
        put_word32(to, at);
        at += word32(book + at);
    }
    *length = OFFSET + WIDTH * count;
    return refuse(0, 0);
}

/* the width of an entry, 0 where the index isn't the book's */
static size_t width_of(const uint8_t *book, size_t n, const uint8_t *index, size_t m, size_t count) {
    size_t width = 0;
    if (m < OLD_OFFSET || word32(index) != count || word32(index + 4) != n || word32(index + 8) != word32(book + 4))
        return 0;
    if (word32(index + 12) == OLD_OFFSET && n <= OLD_MOST) width = OLD_WIDTH;
    if (word32(index + 12) == OFFSET && OFFSET <= m && word32(index + 16) == WIDTH) width = WIDTH;
    return m == word32(index + 12) + width * count ? width : 0;
}

struct refusal plain_lookup_indexed(const uint8_t *book, size_t n, const uint8_t *index, size_t m, size_t k,
    uint32_t tag, struct stretch *found) {
    struct tables t;
    struct refusal r = read_tables(book, n, &t);
    size_t count, width, column, size, at;
    found->start = found->end = 0;
    if (r.number) return r;
    count = word32(book + 8);
    width = width_of(book, n, index, m, count);
    if (width == 0) return refuse(19, 0);
    column = find_column(&t.address, tag);
    if (count <= k || column == t.address.count) return refuse(15, 0);
    index += word32(index + 12) + width * k;
    at = index[0] | (size_t)index[1] << 8 | (size_t)index[2] << 16;
    if (width == WIDTH) at |= (size_t)index[3] << 24;
    if (n <= at) return refuse(19, 0);
    r = judge_record(book, n, at, &t.address, 1, &size);
    if (r.number) return r;
    *found = seek(book, at, &t.address, column);
    return r;
}
