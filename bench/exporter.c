/* The sheet: the book judged, then the choice, then one walk that measures and one that writes. In a judged book a
   value is passed over by its length alone. */
#include "exporter.h"
#include "plain.h"
#include <string.h>

struct choice {
    size_t count, last, columns[MOST_CHOSEN];
};

static struct refusal refuse(uint32_t number, size_t place) {
    struct refusal r = {number, place};
    return r;
}

static int exported(uint32_t tag) {
    uint32_t type = tag & 0xFFFF;
    return type == 0x0003 || type == 0x000B || type == 0x001E || type == 0x001F;
}

size_t spread_tags(const uint8_t *book, uint32_t *tags) {
    size_t h = word32(book + 16), a = word32(book + 20 + 8 * h), fit = 0, count;
    uint32_t every[MOST_COLUMNS];
    for (size_t i = 0; i < a; i++) {
        uint32_t tag = word32(book + 24 + 8 * (h + i));
        if (exported(tag)) every[fit++] = tag;
    }
    count = fit < MOST_CHOSEN ? fit : MOST_CHOSEN;
    for (size_t i = 0; i < count; i++) tags[i] = every[i * (fit / count)];
    return count;
}

/* 15 for any tag before every 18 */
static struct refusal choose(const struct columns *t, const uint32_t *tags, size_t count, struct choice *c) {
    for (size_t i = 0; i < count; i++)
        if (find_column(t, tags[i]) == t->count) return refuse(15, 0);
    if (count < 1 || MOST_CHOSEN < count) return refuse(18, 0);
    c->count = count;
    c->last = 0;
    for (size_t i = 0; i < count; i++) {
        size_t column = c->columns[i] = find_column(t, tags[i]);
        if (!exported(tags[i])) return refuse(18, 0);
        for (size_t j = 0; j < i; j++)
            if (c->columns[j] == column) return refuse(18, 0);
        if (c->last < column) c->last = column;
    }
    return refuse(0, 0);
}

/* ---- values of a judged book */

static size_t pass_single(uint8_t form, const uint8_t *s) {
    uint32_t v;
    size_t w;
    switch (form) {
    case 1: return s[0] < 128 ? 1 : s[0] - 127u;
    case 2: return 1;
    case 5:
        w = read_number(s, 5, &v);
        return w + v;
    default: return strlen((const char *)s) + 1;
    }
}

static size_t pass(uint8_t form, const uint8_t *s) {
    uint32_t count;
    if (form < 8) return pass_single(form, s);
    size_t i = read_number(s, 5, &count);
    for (; 0 < count; count--) i += pass_single(form - 8, s + i);
    return i;
}

/* where each value stands, up to the last column chosen; 0: it is absent */
static void find_values(const uint8_t *record, const struct columns *t, size_t last, const uint8_t **values) {
    const uint8_t *s = record + 4 + (t->count + 7) / 8;
    for (size_t j = 0; j <= last; j++) {
        values[j] = 0;
        if (!present(record + 4, j)) continue;
        values[j] = s;
        if (j < last) s += pass(t->forms[j], s);
    }
}

/* ---- fields: how many octets they have, and then the octets; `to` is behind what was written */

static size_t digits_of(uint32_t v) {
    size_t n = 1;
    for (uint64_t least = 10; least <= v; least *= 10) n++;
    return n;
}

static size_t measure(uint8_t form, const uint8_t *s) {
    uint32_t v;
    size_t n, quotes = 0, marked = 0;
    if (form == 2) return 1;
    if (form == 1) return read_number(s, 5, &v), digits_of(v);
    for (n = 0; s[n] != 0; n++) {
        quotes += s[n] == '"';
        marked |= s[n] == '"' || s[n] == ',' || s[n] == '\r' || s[n] == '\n';
    }
    return marked ? n + quotes + 2 : n;
}

static uint8_t *write_string(uint8_t *to, const uint8_t *s) {
    size_t n = strlen((const char *)s);
    if (strcspn((const char *)s, ",\"\r\n") == n) return memcpy(to, s, n), to + n;
    *to++ = '"';
    for (size_t i = 0; i < n; i++) {
        if (s[i] == '"') *to++ = '"';
        *to++ = s[i];
    }
    *to++ = '"';
    return to;
}

static uint8_t *write_field(uint8_t *to, uint8_t form, const uint8_t *s) {
    uint32_t v;
    if (form == 2) return *to = (uint8_t)('0' + s[0]), to + 1;
    if (form != 1) return write_string(to, s);
    read_number(s, 5, &v);
    size_t n = digits_of(v);
    for (size_t i = n; 0 < i; v /= 10) to[--i] = (uint8_t)('0' + v % 10);
    return to + n;
}

/* ---- the whole */

static size_t measure_all(const uint8_t *book, const struct tables *t, const struct choice *c) {
    const uint8_t *values[MOST_COLUMNS];
    size_t length = 9 * c->count + 1, at = t->at + word32(book + t->at);
    for (uint32_t left = word32(book + 8); 0 < left; left--) {
        find_values(book + at, &t->address, c->last, values);
        length += c->count + 1;
        for (size_t i = 0; i < c->count; i++) {
            size_t column = c->columns[i];
            if (values[column]) length += measure(t->address.forms[column], values[column]);
        }
        at += word32(book + at);
    }
    return length;
}

static uint8_t *end_field(uint8_t *to, int last) {
    if (!last) return *to = ',', to + 1;
    to[0] = '\r';
    to[1] = '\n';
    return to + 2;
}

static void write_all(const uint8_t *book, const struct tables *t, const struct choice *c, uint8_t *to) {
    const uint8_t *values[MOST_COLUMNS];
    size_t at = t->at + word32(book + t->at);
    for (size_t i = 0; i < c->count; i++) {
        uint32_t tag = t->address.tags[c->columns[i]];
        for (int k = 28; 0 <= k; k -= 4) *to++ = (uint8_t)("0123456789ABCDEF"[tag >> k & 15]);
        to = end_field(to, i + 1 == c->count);
    }
    for (uint32_t left = word32(book + 8); 0 < left; left--) {
        find_values(book + at, &t->address, c->last, values);
        for (size_t i = 0; i < c->count; i++) {
            size_t column = c->columns[i];
            if (values[column]) to = write_field(to, t->address.forms[column], values[column]);
            to = end_field(to, i + 1 == c->count);
        }
        at += word32(book + at);
    }
}

static struct refusal prepare(const uint8_t *book, size_t n, const uint32_t *tags, size_t count, struct tables *t,
    struct choice *c, size_t *length) {
    struct refusal r = judge_with(book, n, t);
    *length = 0;
    if (r.number == 0) r = choose(&t->address, tags, count, c);
    if (r.number == 0) *length = measure_all(book, t, c);
    return r;
}

struct refusal plain_sheet_length(const uint8_t *book, size_t n, const uint32_t *tags, size_t count, size_t *length) {
    struct tables t;
    struct choice c;
    return prepare(book, n, tags, count, &t, &c, length);
}

struct refusal plain_sheet(const uint8_t *book, size_t n, const uint32_t *tags, size_t count, uint8_t *text,
    size_t room, size_t *length) {
    struct tables t;
    struct choice c;
    struct refusal r = prepare(book, n, tags, count, &t, &c, length);
    if (r.number) return r;
    if (room < *length) {
        *length = 0;
        return refuse(17, 0);
    }
    write_all(book, &t, &c, text);
    return r;
}
