/* The plain reader: one pass, octet by octet, every length tested before a read; the serial by bit steps and by a table of 256 words.
   Refusals, their order and their places are those that the library's contracts state. */
#include "plain.h"

static const struct refusal none = {0, 0};

static struct refusal refuse(uint32_t number, size_t place) {
    struct refusal r = {number, place};
    return r;
}

/* ---- the serial */

uint32_t plain_serial_bits(const uint8_t *s, size_t n) {
    uint32_t c = 0xFFFFFFFFu;
    for (size_t i = 0; i < n; i++) {
        c ^= s[i];
        for (int k = 0; k < 8; k++) c = (c >> 1) ^ (0xEDB88320u & (0u - (c & 1)));
    }
    return c;
}

static uint32_t steps[256];

static void fill_steps(void) {
    for (uint32_t i = 0; i < 256; i++) {
        uint32_t c = i;
        for (int k = 0; k < 8; k++) c = (c >> 1) ^ (0xEDB88320u & (0u - (c & 1)));
        steps[i] = c;
    }
}

uint32_t plain_serial_table(const uint8_t *s, size_t n) {
    if (steps[1] == 0) fill_steps();
    uint32_t c = 0xFFFFFFFFu;
    for (size_t i = 0; i < n; i++) c = steps[(c ^ s[i]) & 255] ^ (c >> 8);
    return c;
}

/* ---- values: how many octets one takes, 0 where it is broken (no value is empty) */

size_t read_number(const uint8_t *s, size_t n, uint32_t *value) {
    if (n < 1) return 0;
    if (s[0] < 128) {
        *value = s[0];
        return 1;
    }
    size_t k = s[0] - 128u;
    if (k < 1 || 4 < k || n <= k) return 0;
    uint32_t v = 0;
    for (size_t i = k; 0 < i; i--) v = v << 8 | s[i];
    uint32_t least = k == 1 ? 128u : 1u << 8 * (k - 1);
    if (v < least) return 0;
    *value = v;
    return 1 + k;
}

static size_t narrow(const uint8_t *s, size_t n) {
    size_t i = 0;
    while (i < n && s[i] != 0) i++;
    return i < n && 0 < i ? i + 1 : 0;
}

/* a character that isn't ASCII, 0 where it is broken */
static inline size_t character(const uint8_t *s, size_t n) {
    uint8_t a = s[0];
    if (a < 0xC2 || 0xF4 < a) return 0;
    size_t k = a < 0xE0 ? 2 : a < 0xF0 ? 3 : 4;
    if (n < k) return 0;
    uint8_t lo = a == 0xE0 ? 0xA0 : a == 0xF0 ? 0x90 : 0x80;
    uint8_t hi = a == 0xED ? 0x9F : a == 0xF4 ? 0x8F : 0xBF;
    if (s[1] < lo || hi < s[1]) return 0;
    for (size_t j = 2; j < k; j++)
        if (s[j] < 0x80 || 0xBF < s[j]) return 0;
    return k;
}

static size_t utf8(const uint8_t *s, size_t n) {
    size_t i = 0;
    while (i < n) {
        if (s[i] == 0) return 0 < i ? i + 1 : 0;
        size_t k = s[i] < 0x80 ? 1 : character(s + i, n - i);
        if (k == 0) return 0;
        i += k;
    }
    return 0;
}

int is_narrow(const uint8_t *s, size_t n) {
    for (size_t i = 0; i < n; i++)
        if (s[i] == 0) return 0;
    return 0 < n;
}

int is_utf8(const uint8_t *s, size_t n) {
    for (size_t i = 0; i < n;) {
        if (s[i] == 0) return 0;
        size_t k = s[i] < 0x80 ? 1 : character(s + i, n - i);
        if (k == 0) return 0;
        i += k;
    }
    return 0 < n;
}

static size_t element(uint8_t kind, const uint8_t *s, size_t n) {
    uint32_t v;
    size_t w;
    switch (kind) {
    case 1:
        return read_number(s, n, &v);
    case 2:
        return 0 < n && s[0] < 2 ? 1 : 0;
    case 3:
        return narrow(s, n);
    case 4:
        return utf8(s, n);
    case 5:
        w = read_number(s, n, &v);
        return 0 < w && 0 < v && v <= n - w ? w + v : 0;
    default:
        return 0;
    }
}

size_t value(uint8_t form, const uint8_t *s, size_t n) {
    if (form < 8) return element(form, s, n);
    uint32_t count;
    size_t i = read_number(s, n, &count);
    if (i == 0 || count == 0) return 0;
    for (; 0 < count; count--) {
        size_t w = element(form - 8, s + i, n - i);
        if (w == 0) return 0;
        i += w;
    }
    return i;
}

/* where a value that breaks is at fault: a list with a count at its first element that breaks */
static size_t fault(uint8_t form, const uint8_t *s, size_t n) {
    uint32_t count;
    size_t i = form < 8 ? 0 : read_number(s, n, &count);
    if (i == 0 || count == 0) return 0;
    for (size_t w; (w = element(form - 8, s + i, n - i)) != 0;) i += w;
    return i;
}

/* ---- tables */

uint8_t form_of(uint32_t tag) {
    switch (tag & 0xFFFF) {
    case 0x0003: return 1;
    case 0x000B: return 2;
    case 0x000D:
    case 0x001E: return 3;
    case 0x001F: return 4;
    case 0x0102: return 5;
    case 0x1003: return 9;
    case 0x101E: return 11;
    case 0x101F: return 12;
    case 0x1102: return 13;
    default: return 255;
    }
}

static struct refusal read_table(const uint8_t *book, size_t n, size_t at, struct columns *t) {
    t->count = 0;
    if (n < at || n - at < 4) return refuse(2, at);
    uint32_t count = word32(book + at);
    if (MOST_COLUMNS < count) return refuse(5, at);
    struct refusal r = none;
    at += 4;
    for (uint32_t i = 0; i < count; i++) {
        size_t p = at + 8 * (size_t)i;
        if (n - p < 4) {
            r = refuse(2, p);
            break;
        }
        if (n - p < 8) {
            r = refuse(2, p + 4);
            break;
        }
        uint32_t tag = word32(book + p);
        uint8_t form = form_of(tag);
        if (form == 255) {
            r = refuse(6, p);
            break;
        }
        t->tags[i] = tag;
        t->keys[i] = word32(book + p + 4) >> 1 & 1;
        t->forms[i] = form;
        t->count = i + 1;
    }
    for (size_t i = 0; i < t->count; i++)
        for (size_t j = 0; j < i; j++)
            if (t->tags[i] == t->tags[j]) return refuse(7, at + 8 * i);
    return r;
}

struct refusal read_tables(const uint8_t *book, size_t n, struct tables *t) {
    if (MOST_OCTETS < n) return refuse(1, 0);
    if (n < 12) return refuse(2, 0);
    if (word32(book) != 0x20) return refuse(3, 0);
    uint32_t count = word32(book + 8);
    if (count < 1 || MOST_RECORDS < count) return refuse(13, 8);
    if (n < 16) return refuse(2, 12);
    struct refusal r = read_table(book, n, 16, &t->header);
    if (r.number) return r;
    r = read_table(book, n, 20 + 8 * t->header.count, &t->address);
    if (r.number) return r;
    size_t columns = t->header.count + t->address.count;
    if (word32(book + 12) != 12 + 8 * columns) return refuse(4, 12);
    t->at = 24 + 8 * columns;
    return none;
}

/* ---- records */

struct refusal judge_record(const uint8_t *book, size_t n, size_t at, const struct columns *t, int keys, size_t *size) {
    if (n <= at) return refuse(13, 8);
    if (n - at < 4) return refuse(2, at);
    size_t end = word32(book + at);
    size_t room = (t->count + 7) / 8;
    if (end < 4 + room || n - at < end) return refuse(8, at);
    *size = end;
    end += at;
    const uint8_t *p = book + at + 4;
    if (t->count % 8 != 0 && (p[room - 1] & 0xFF >> t->count % 8) != 0) return refuse(9, at + 4 + room - 1);
    if (keys)
        for (size_t j = 0; j < t->count; j++)
            if (t->keys[j] && !present(p, j)) return refuse(10, at + 4 + j / 8);
    size_t i = at + 4 + room;
    for (size_t j = 0; j < t->count; j++) {
        if (!present(p, j)) continue;
        size_t w = value(t->forms[j], book + i, end - i);
        if (w == 0) return refuse(11, i + fault(t->forms[j], book + i, end - i));
        i += w;
    }
    return i < end ? refuse(12, i) : none;
}

struct refusal judge_with(const uint8_t *book, size_t n, struct tables *t) {
    struct refusal r = read_tables(book, n, t);
    if (r.number) return r;
    size_t at = t->at, size;
    r = judge_record(book, n, at, &t->header, 0, &size);
    if (r.number) return r;
    at += size;
    for (uint32_t left = word32(book + 8); 0 < left; left--) {
        r = judge_record(book, n, at, &t->address, 1, &size);
        if (r.number) return r;
        at += size;
    }
    if (at < n) return refuse(13, at);
    return plain_serial_table(book + 12, n - 12) != word32(book + 4) ? refuse(14, 4) : none;
}

struct refusal plain_judge(const uint8_t *book, size_t n) {
    struct tables t;
    return judge_with(book, n, &t);
}

size_t find_column(const struct columns *t, uint32_t tag) {
    size_t column = 0;
    while (column < t->count && t->tags[column] != tag) column++;
    return column;
}

struct stretch seek(const uint8_t *book, size_t at, const struct columns *t, size_t column) {
    struct stretch found = {0, 0};
    const uint8_t *p = book + at + 4;
    if (!present(p, column)) return found;
    size_t end = at + word32(book + at);
    size_t i = at + 4 + (t->count + 7) / 8;
    for (size_t j = 0; j < column; j++)
        if (present(p, j)) i += value(t->forms[j], book + i, end - i);
    found.start = i;
    found.end = i + value(t->forms[column], book + i, end - i);
    return found;
}

struct stretch plain_lookup(const uint8_t *book, size_t n, size_t k, uint32_t tag) {
    struct stretch nothing = {0, 0};
    struct tables t;
    if (judge_with(book, n, &t).number) return nothing;
    if (word32(book + 8) <= k) return nothing;
    size_t column = find_column(&t.address, tag);
    if (column == t.address.count) return nothing;
    size_t at = t.at + word32(book + t.at);
    for (; 0 < k; k--) at += word32(book + at);
    return seek(book, at, &t.address, column);
}
