/* A plain writer, call by call into one buffer; both tables are kept beside it, and each call is refused for what the library refuses it for. */
#include "corrector.h"
#include <string.h>

static const struct columns *columns_now(const struct writing *w) { return w->opened == 1 ? &w->header : &w->address; }

static uint32_t judge_room(const struct writing *w, size_t n) {
    if (MOST_OCTETS - w->written < n) return 16;
    return w->room - w->written < n ? 17 : 0;
}

static uint32_t take_table(struct columns *c, const uint32_t *tags, const uint32_t *flags, size_t n) {
    if (MOST_COLUMNS < n) return 5;
    c->count = n;
    size_t known = 0;
    for (; known < n; known++) {
        c->tags[known] = tags[known];
        c->keys[known] = flags[known] >> 1 & 1;
        c->forms[known] = form_of(tags[known]);
        if (c->forms[known] == 255) break;
    }
    for (size_t i = 0; i < known; i++)
        for (size_t j = 0; j < i; j++)
            if (tags[i] == tags[j]) return 7;
    return known < n ? 6 : 0;
}

static size_t put_table(uint8_t *buf, size_t at, const uint32_t *tags, const uint32_t *flags, size_t n) {
    put_word32(buf + at, n);
    for (size_t i = 0; i < n; i++) {
        put_word32(buf + at + 4 + 8 * i, tags[i]);
        put_word32(buf + at + 8 + 8 * i, flags[i] & 3);
    }
    return at + 4 + 8 * n;
}

uint32_t plain_begin(struct writing *w, uint8_t *buf, size_t room, const uint32_t *htags, const uint32_t *hflags, size_t h, const uint32_t *tags, const uint32_t *flags, size_t a) {
    struct writing new = {0};
    uint32_t number = take_table(&new.header, htags, hflags, h);
    if (!number) number = take_table(&new.address, tags, flags, a);
    if (number) return number;
    if (room < 24 + 8 * (h + a)) return 17;
    put_word32(buf, 0x20);
    put_word32(buf + 4, 0);
    put_word32(buf + 8, 0);
    put_word32(buf + 12, 12 + 8 * (h + a));
    new.written = put_table(buf, put_table(buf, 16, htags, hflags, h), tags, flags, a);
    new.buf = buf;
    new.room = room;
    *w = new;
    return 0;
}

uint32_t plain_open(struct writing *w) {
    if (w->idle || w->start) return 15;
    if (MOST_RECORDS < w->opened) return 16;
    size_t n = 4 + ((w->opened == 0 ? w->header.count : w->address.count) + 7) / 8;
    uint32_t number = judge_room(w, n);
    if (number) return number;
    memset(w->buf + w->written, 0, n);
    w->start = w->written;
    w->written += n;
    w->opened++;
    w->next = 0;
    return 0;
}

/* the column that a value may be given to, or the count of columns */
static size_t find(const struct writing *w, uint32_t tag) {
    const struct columns *c = columns_now(w);
    if (w->idle || !w->start || w->left) return c->count;
    size_t i = w->next;
    while (i < c->count && c->tags[i] != tag) i++;
    return i;
}

static void mark(struct writing *w, size_t i) {
    w->buf[w->start + 4 + i / 8] |= (uint8_t)(0x80 >> i % 8);
    w->next = i + 1;
}

static size_t number_width(uint32_t x) { return x < 128 ? 1 : x < 1u << 8 ? 2 : x < 1u << 16 ? 3 : x < 1u << 24 ? 4 : 5; }

static void put_number(struct writing *w, uint32_t x) {
    size_t k = number_width(x);
    uint8_t *s = w->buf + w->written;
    w->written += k;
    if (k == 1) {
        s[0] = (uint8_t)x;
        return;
    }
    s[0] = (uint8_t)(127 + k);
    for (size_t i = 1; i < k; i++) s[i] = (uint8_t)(x >> 8 * (i - 1));
}

static size_t octets_size(uint8_t form, const uint8_t *s, size_t n) {
    switch (form) {
    case 3: return is_narrow(s, n) ? n + 1 : 0;
    case 4: return is_utf8(s, n) ? n + 1 : 0;
    case 5: return n == 0 || UINT32_MAX < n ? 0 : number_width((uint32_t)n) + n;
    default: return 0;
    }
}

static void put_octets(struct writing *w, uint8_t form, const uint8_t *s, size_t n) {
    if (form == 5) put_number(w, (uint32_t)n);
    memcpy(w->buf + w->written, s, n);
    w->written += n;
    if (form != 5) w->buf[w->written++] = 0;
}

uint32_t plain_give_number(struct writing *w, uint32_t tag, uint32_t x) {
    size_t i = find(w, tag);
    if (i == columns_now(w)->count) return 15;
    if (columns_now(w)->forms[i] != 1) return 18;
    uint32_t number = judge_room(w, number_width(x));
    if (number) return number;
    mark(w, i);
    put_number(w, x);
    return 0;
}

uint32_t plain_give_truth(struct writing *w, uint32_t tag, int yes) {
    size_t i = find(w, tag);
    if (i == columns_now(w)->count) return 15;
    if (columns_now(w)->forms[i] != 2) return 18;
    uint32_t number = judge_room(w, 1);
    if (number) return number;
    mark(w, i);
    w->buf[w->written++] = yes != 0;
    return 0;
}

uint32_t plain_give_octets(struct writing *w, uint32_t tag, const uint8_t *s, size_t n) {
    size_t i = find(w, tag);
    if (i == columns_now(w)->count) return 15;
    uint8_t form = columns_now(w)->forms[i];
    size_t size = octets_size(form, s, n);
    if (size == 0) return 18;
    uint32_t number = judge_room(w, size);
    if (number) return number;
    mark(w, i);
    put_octets(w, form, s, n);
    return 0;
}

uint32_t plain_give_list(struct writing *w, uint32_t tag, uint32_t count) {
    size_t i = find(w, tag);
    if (i == columns_now(w)->count) return 15;
    uint8_t form = columns_now(w)->forms[i];
    if (form < 8 || count == 0) return 18;
    uint32_t number = judge_room(w, number_width(count));
    if (number) return number;
    mark(w, i);
    put_number(w, count);
    w->left = count;
    w->form = form;
    return 0;
}

uint32_t plain_add_number(struct writing *w, uint32_t x) {
    if (w->idle || !w->start || !w->left) return 15;
    if (w->form != 9) return 18;
    uint32_t number = judge_room(w, number_width(x));
    if (number) return number;
    put_number(w, x);
    w->left--;
    return 0;
}

uint32_t plain_add_octets(struct writing *w, const uint8_t *s, size_t n) {
    if (w->idle || !w->start || !w->left) return 15;
    size_t size = octets_size(w->form - 8, s, n);
    if (size == 0) return 18;
    uint32_t number = judge_room(w, size);
    if (number) return number;
    put_octets(w, w->form - 8, s, n);
    w->left--;
    return 0;
}

uint32_t plain_close(struct writing *w) {
    if (w->idle || !w->start || w->left) return 15;
    const struct columns *c = columns_now(w);
    if (w->opened != 1)
        for (size_t i = 0; i < c->count; i++)
            if (c->keys[i] && !present(w->buf + w->start + 4, i)) return 16;
    put_word32(w->buf + w->start, w->written - w->start);
    w->start = 0;
    return 0;
}

uint32_t plain_finish(struct writing *w) {
    if (w->idle || w->start || w->opened == 0) return 15;
    if (w->opened == 1) return 16;
    put_word32(w->buf + 8, w->opened - 1);
    put_word32(w->buf + 4, plain_serial_table(w->buf + 12, w->written - 12));
    w->idle = 1;
    return 0;
}
