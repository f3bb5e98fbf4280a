/* The book from a sheet: one pass that judges the text, one that measures the records and asks for keys and room, and
   one that writes. In a judged text a field ends where its marks say. */
#include "importer.h"
#include "exporter.h"
#include "plain.h"
#include <string.h>

static const struct refusal none = {0, 0};

static struct refusal refuse(uint32_t number, size_t place) {
    struct refusal r = {number, place};
    return r;
}

/* ---- the first line */

static int digit_of(uint8_t o) {
    if ('0' <= o && o <= '9') return o - '0';
    return 'A' <= o && o <= 'F' ? o - 'A' + 10 : -1;
}

/* the octet at `at` is this one, or it is at fault */
static int stands(const uint8_t *s, size_t n, size_t at, uint8_t octet) { return at < n && s[at] == octet; }

static struct refusal read_tags(const uint8_t *s, size_t n, struct columns *t, size_t *end) {
    size_t i = 0;
    t->count = 0;
    for (;;) {
        int quoted = stands(s, n, i, '"');
        uint32_t tag = 0;
        i += (size_t)quoted;
        for (int k = 0; k < 8; k++, i++) {
            if (i == n || digit_of(s[i]) < 0) return refuse(20, i);
            tag = tag << 4 | (uint32_t)digit_of(s[i]);
        }
        if (quoted && !stands(s, n, i, '"')) return refuse(20, i);
        i += (size_t)quoted;
        t->tags[t->count++] = tag;
        if (t->count == MOST_CHOSEN || !stands(s, n, i, ',')) break;
        i++;
    }
    if (!stands(s, n, i, '\r')) return refuse(20, i);
    if (!stands(s, n, i + 1, '\n')) return refuse(20, i + 1);
    *end = i + 2;
    return none;
}

/* ---- judging the lines: where a field ends, or where it is at fault */

enum { PLAIN_END = 1, QUOTED_END = 2 };
static uint8_t marks[256];

static void fill_marks(void) {
    marks[0] = PLAIN_END | QUOTED_END;
    marks['"'] = PLAIN_END | QUOTED_END;
    marks[','] = marks['\r'] = marks['\n'] = PLAIN_END;
}

static size_t digits_end(const uint8_t *s, size_t n, size_t i, int *large) {
    uint64_t v = 0;
    if (stands(s, n, i, '0')) return i + 1;
    for (; i < n && '0' <= s[i] && s[i] <= '9'; i++) v = v < 1u << 30 ? v * 10 + (s[i] - '0') : (uint64_t)1 << 32;
    *large = UINT32_MAX < v;
    return i;
}

static size_t quoted_end(const uint8_t *s, size_t n, size_t i) {
    for (;;) {
        while (i < n && !(marks[s[i]] & QUOTED_END)) i++;
        if (!stands(s, n, i, '"') || !stands(s, n, i + 1, '"')) return i;
        i += 2;
    }
}

static size_t content_end(uint8_t form, const uint8_t *s, size_t n, size_t i, int quoted, int *large) {
    if (form == 1) return digits_end(s, n, i, large);
    if (form == 2) return i < n && (s[i] == '0' || s[i] == '1') ? i + 1 : i;
    if (quoted) return quoted_end(s, n, i);
    while (i < n && !(marks[s[i]] & PLAIN_END)) i++;
    return i;
}

/* the place of what ends the field; text in quotes is UTF-8 with its quotes doubled exactly where it is without */
static struct refusal judge_field(uint8_t form, const uint8_t *s, size_t n, size_t at, uint8_t ends, size_t *end) {
    int quoted = stands(s, n, at, '"'), large = 0;
    size_t from = at + (size_t)quoted, i = content_end(form, s, n, from, quoted, &large);
    if (quoted && !stands(s, n, i, '"')) return refuse(20, i);
    *end = i + (size_t)quoted;
    if (!stands(s, n, *end, ends)) return refuse(20, *end);
    if (large || (form == 4 && from < i && !is_utf8(s + from, i - from))) return refuse(20, at);
    return none;
}

static struct refusal judge_lines(const uint8_t *s, size_t n, size_t at, const struct columns *t) {
    if (!marks[0]) fill_marks();
    while (at < n) {
        for (size_t j = 0; j < t->count; j++) {
            struct refusal r = judge_field(t->forms[j], s, n, at, j + 1 < t->count ? ',' : '\r', &at);
            if (r.number) return r;
            at++;
        }
        if (!stands(s, n, at, '\n')) return refuse(20, at);
        at++;
    }
    return none;
}

/* ---- tables */

static struct refusal take_columns(struct columns *t, const uint32_t *tags, const uint32_t *flags, size_t n,
    size_t first) {
    if (MOST_COLUMNS < n) return refuse(5, first + 128);
    t->count = n;
    for (size_t i = 0; i < n; i++) {
        t->tags[i] = tags[i];
        t->keys[i] = flags[i] >> 1 & 1;
        t->forms[i] = form_of(tags[i]);
        if (t->forms[i] == 255) return refuse(6, first + i);
        for (size_t j = 0; j < i; j++)
            if (tags[j] == tags[i]) return refuse(7, first + i);
    }
    return none;
}

static struct refusal take_tables(const struct front *f, struct columns *header, struct columns *address) {
    uint32_t tags[MOST_CHOSEN];
    struct refusal r;
    if (f->header_tag_count != f->header_flag_count) return refuse(15, 0);
    memcpy(tags, address->tags, sizeof tags);
    r = take_columns(header, f->header_tags, f->header_flags, f->header_tag_count, 0);
    return r.number ? r : take_columns(address, tags, f->flags, address->count, 128);
}

static size_t put_columns(uint8_t *buf, size_t at, const struct columns *t, const uint32_t *flags) {
    put_word32(buf + at, t->count);
    for (size_t i = 0; i < t->count; i++) {
        put_word32(buf + at + 4 + 8 * i, t->tags[i]);
        put_word32(buf + at + 8 + 8 * i, flags[i] & 3);
    }
    return at + 4 + 8 * t->count;
}

/* ---- fields of a judged text */

struct field {
    const uint8_t *from;
    size_t n, next; /* next: behind what ends it */
    int quoted;
};

static struct field field_at(uint8_t form, const uint8_t *s, size_t n, size_t at) {
    struct field f = {s + at, 0, at, s[at] == '"'};
    int large;
    f.from += f.quoted;
    f.n = content_end(form, s, n, at + (size_t)f.quoted, f.quoted, &large) - at - (size_t)f.quoted;
    f.next = at + f.n + 2 * (size_t)f.quoted + 1;
    return f;
}

static uint32_t number_of(const struct field *f) {
    uint32_t v = 0;
    for (size_t i = 0; i < f->n; i++) v = v * 10 + (f->from[i] - '0');
    return v;
}

static size_t number_width(uint32_t x) {
    return x < 128 ? 1 : x < 1u << 8 ? 2 : x < 1u << 16 ? 3 : x < 1u << 24 ? 4 : 5;
}

static size_t doubled(const struct field *f) {
    size_t count = 0;
    const uint8_t *s = f->from, *end = s + f->n;
    if (!f->quoted) return 0;
    while (s < end && (s = memchr(s, '"', (size_t)(end - s))) != 0) count++, s += 2;
    return count;
}

static size_t size_of(uint8_t form, const struct field *f) {
    if (form == 1) return number_width(number_of(f));
    return form == 2 ? 1 : f->n - doubled(f) + 1;
}

/* ---- measuring: what the writer would refuse, call by call */

static uint32_t judge_room(size_t end, size_t room) { return MOST_OCTETS < end ? 16 : room < end ? 17 : 0; }

static struct refusal measure(const uint8_t *s, size_t n, size_t at, const struct columns *t, size_t room,
    size_t *length, size_t *records) {
    uint32_t number;
    for (*records = 0; at < n; at++, ++*records) {
        int keys = 1;
        if (*records == MOST_RECORDS) return refuse(16, 0);
        *length += 4 + (t->count + 7) / 8;
        if ((number = judge_room(*length, room)) != 0) return refuse(number, 0);
        for (size_t j = 0; j < t->count; j++) {
            struct field f = field_at(t->forms[j], s, n, at);
            at = f.next;
            keys &= f.n != 0 || !t->keys[j];
            if (f.n == 0) continue;
            *length += size_of(t->forms[j], &f);
            if ((number = judge_room(*length, room)) != 0) return refuse(number, 0);
        }
        if (!keys) return refuse(16, 0);
    }
    return *records ? none : refuse(16, 0);
}

/* ---- writing */

static uint8_t *put_number(uint8_t *to, uint32_t x) {
    size_t k = number_width(x);
    if (k == 1) return *to = (uint8_t)x, to + 1;
    *to++ = (uint8_t)(127 + k);
    for (size_t i = 1; i < k; i++) *to++ = (uint8_t)(x >> 8 * (i - 1));
    return to;
}

static uint8_t *put_string(uint8_t *to, const struct field *f) {
    const uint8_t *s = f->from, *end = s + f->n, *quote;
    while (f->quoted && (quote = memchr(s, '"', (size_t)(end - s))) != 0) {
        size_t k = (size_t)(quote - s) + 1;
        memcpy(to, s, k);
        to += k;
        s = quote + 2;
    }
    memcpy(to, s, (size_t)(end - s));
    to += end - s;
    *to++ = 0;
    return to;
}

static void write_lines(const uint8_t *s, size_t n, size_t at, const struct columns *t, uint8_t *to) {
    for (; at < n; at++) {
        uint8_t *record = to;
        memset(to, 0, 4 + (t->count + 7) / 8);
        to += 4 + (t->count + 7) / 8;
        for (size_t j = 0; j < t->count; j++) {
            struct field f = field_at(t->forms[j], s, n, at);
            at = f.next;
            if (f.n == 0) continue;
            record[4 + j / 8] |= (uint8_t)(0x80 >> j % 8);
            if (t->forms[j] == 1) to = put_number(to, number_of(&f));
            else if (t->forms[j] == 2) *to++ = f.from[0] == '1';
            else to = put_string(to, &f);
        }
        put_word32(record, (size_t)(to - record));
    }
}

/* ---- the whole */

static struct refusal judge_text(const uint8_t *text, size_t n, const struct front *f, struct columns *t, size_t *at) {
    struct refusal r = read_tags(text, n, t, at);
    if (r.number) return r;
    if (f->flag_count != t->count) return refuse(15, 0);
    for (size_t i = 0; i < t->count; i++) {
        uint32_t type = t->tags[i] & 0xFFFF;
        t->forms[i] = form_of(t->tags[i]);
        if (type != 0x0003 && type != 0x000B && type != 0x001E && type != 0x001F) return refuse(18, 0);
    }
    return judge_lines(text, n, *at, t);
}

/* the header record is asked for as a whole: 16 and 17 differ from the writer's where one that long passes both */
static struct refusal judge_front(const struct front *f, const struct columns *header, size_t tables, size_t room) {
    size_t size;
    uint32_t number;
    if (room < tables) return refuse(17, 0);
    if (judge_record(f->record, f->record_octets, 0, header, 0, &size).number || size != f->record_octets)
        return refuse(18, 0);
    number = judge_room(tables + size, room);
    return number ? refuse(number, 0) : none;
}

struct refusal plain_from_sheet(const uint8_t *text, size_t n, const struct front *f, uint8_t *buf, size_t room,
    size_t *length) {
    struct columns header, address;
    size_t at = 0, records, tables, end;
    struct refusal r = judge_text(text, n, f, &address, &at);
    *length = 0;
    if (r.number == 0) r = take_tables(f, &header, &address);
    if (r.number) return r;
    tables = 24 + 8 * (header.count + address.count);
    r = judge_front(f, &header, tables, room);
    if (r.number) return r;
    end = tables + f->record_octets;
    r = measure(text, n, at, &address, room, &end, &records);
    if (r.number) return r;
    put_word32(buf, 0x20);
    put_word32(buf + 8, records);
    put_word32(buf + 12, tables - 12);
    put_columns(buf, put_columns(buf, 16, &header, f->header_flags), &address, f->flags);
    memcpy(buf + tables, f->record, f->record_octets);
    write_lines(text, n, at, &address, buf + tables + f->record_octets);
    put_word32(buf + 4, plain_serial_table(buf + 12, end - 12));
    *length = end;
    return none;
}
