/* Plain corrections: the book judged, the place found, one memmove, then count and serial; in the order of refusals that the library's contracts state. */
#include "corrector.h"
#include <string.h>

static struct corrected refused(uint32_t number, size_t place) {
    struct corrected c = {number, place};
    return c;
}

/* the octets from `at` up to `end` become `size` new ones; `record` is the record whose size goes with them, 0: none */
static struct corrected replace(uint8_t *buf, size_t n, size_t at, size_t end, const uint8_t *new, size_t size, size_t record, size_t count) {
    size_t longer = n - (end - at) + size;
    memmove(buf + at + size, buf + end, n - end);
    if (size) memcpy(buf + at, new, size);
    if (longer < n) memset(buf + longer, 0, n - longer);
    if (record) put_word32(buf + record, word32(buf + record) - (end - at) + size);
    put_word32(buf + 8, count);
    put_word32(buf + 4, plain_serial_table(buf + 12, longer - 12));
    struct corrected c = {0, longer};
    return c;
}

static uint32_t judge_room(size_t n, size_t room) { return MOST_OCTETS < n ? 16 : room < n ? 17 : 0; }

struct corrected plain_set(uint8_t *buf, size_t room, size_t n, size_t k, uint32_t tag, const uint8_t *v, size_t size) {
    if (room < n) return refused(15, 0);
    struct tables t;
    struct refusal r = judge_with(buf, n, &t);
    if (r.number) return refused(r.number, r.place);
    size_t count = word32(buf + 8);
    const struct columns *c = k == HEADER_RECORD ? &t.header : &t.address;
    if (k != HEADER_RECORD && count <= k) return refused(15, 0);
    size_t column = 0;
    while (column < c->count && c->tags[column] != tag) column++;
    if (column == c->count) return refused(15, 0);
    if (v && (size == 0 || value(c->forms[column], v, size) != size)) return refused(18, 0);
    if (!v && k != HEADER_RECORD && c->keys[column]) return refused(16, 0);
    size_t at = t.at;
    if (k != HEADER_RECORD) {
        at += word32(buf + at);
        for (; 0 < k; k--) at += word32(buf + at);
    }
    uint8_t *p = buf + at + 4;
    size_t end = at + word32(buf + at), i = at + 4 + (c->count + 7) / 8, old = 0;
    for (size_t j = 0; j < column; j++)
        if (present(p, j)) i += value(c->forms[j], buf + i, end - i);
    if (present(p, column)) old = value(c->forms[column], buf + i, end - i);
    uint32_t number = judge_room(n - old + size, room);
    if (number) return refused(number, 0);
    uint8_t bit = (uint8_t)(0x80 >> column % 8);
    if (v) p[column / 8] |= bit;
    else p[column / 8] &= (uint8_t)~bit;
    return replace(buf, n, i, i + old, v, size, at, count);
}

static size_t place_of(const uint8_t *buf, const struct tables *t, size_t k) {
    size_t at = t->at + word32(buf + t->at);
    for (; 0 < k; k--) at += word32(buf + at);
    return at;
}

struct corrected plain_insert(uint8_t *buf, size_t room, size_t n, size_t k, const uint8_t *record, size_t size) {
    if (room < n) return refused(15, 0);
    struct tables t;
    struct refusal r = judge_with(buf, n, &t);
    if (r.number) return refused(r.number, r.place);
    size_t count = word32(buf + 8), whole;
    if (count < k) return refused(15, 0);
    if (judge_record(record, size, 0, &t.address, 0, &whole).number || whole != size) return refused(18, 0);
    if (judge_record(record, size, 0, &t.address, 1, &whole).number || MOST_RECORDS <= count) return refused(16, 0);
    uint32_t number = judge_room(n + size, room);
    if (number) return refused(number, 0);
    size_t at = place_of(buf, &t, k);
    return replace(buf, n, at, at, record, size, 0, count + 1);
}

struct corrected plain_delete(uint8_t *buf, size_t room, size_t n, size_t k) {
    if (room < n) return refused(15, 0);
    struct tables t;
    struct refusal r = judge_with(buf, n, &t);
    if (r.number) return refused(r.number, r.place);
    size_t count = word32(buf + 8);
    if (count <= k) return refused(15, 0);
    if (count < 2) return refused(16, 0);
    size_t at = place_of(buf, &t, k);
    return replace(buf, n, at, at + word32(buf + at), 0, 0, 0, count - 1);
}
