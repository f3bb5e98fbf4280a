/* The calls are laid down once; both sides then go through the same list, and no step looks at the book again but for its octets. */
#include "replay.h"
#include "../include/windtrellis.h"
#include "corrector.h"
#include <stdlib.h>

enum { OPEN, NUMBER, TRUTH, OCTETS_OF, LIST, ADD_NUMBER, ADD_OCTETS, CLOSE, FINISH };

static void put(struct replay *r, uint32_t what, uint32_t tag, size_t at, size_t n) {
    if ((r->count & (r->count + 1)) == 0) r->steps = realloc(r->steps, (2 * r->count + 2) * sizeof *r->steps);
    r->steps[r->count++] = (struct step){what, tag, (uint32_t)at, (uint32_t)n};
}

/* one value or element at `at`; where it ends */
static size_t put_element(struct replay *r, uint8_t kind, int element, uint32_t tag, size_t at, size_t n) {
    const uint8_t *s = r->book + at;
    size_t size = value(kind, s, n - at);
    uint32_t x;
    switch (kind) {
    case 1:
        read_number(s, n - at, &x);
        put(r, element ? ADD_NUMBER : NUMBER, tag, 0, x);
        break;
    case 2:
        put(r, TRUTH, tag, 0, s[0]);
        break;
    case 5: {
        size_t w = read_number(s, n - at, &x);
        put(r, element ? ADD_OCTETS : OCTETS_OF, tag, at + w, x);
        break;
    }
    default:
        put(r, element ? ADD_OCTETS : OCTETS_OF, tag, at, size - 1);
    }
    return at + size;
}

static size_t put_record(struct replay *r, const struct columns *c, size_t at) {
    const uint8_t *p = r->book + at + 4;
    size_t end = at + word32(r->book + at), i = at + 4 + (c->count + 7) / 8;
    put(r, OPEN, 0, 0, 0);
    for (size_t j = 0; j < c->count; j++) {
        if (!present(p, j)) continue;
        if (c->forms[j] < 8) {
            i = put_element(r, c->forms[j], 0, c->tags[j], i, end);
            continue;
        }
        uint32_t count;
        i += read_number(r->book + i, end - i, &count);
        put(r, LIST, c->tags[j], 0, count);
        for (; 0 < count; count--) i = put_element(r, c->forms[j] - 8, 1, 0, i, end);
    }
    put(r, CLOSE, 0, 0, 0);
    return end;
}

static void take_table(struct replay *r, int which, const struct columns *c, size_t at) {
    r->columns[which] = c->count;
    for (size_t i = 0; i < c->count; i++) {
        r->tags[which][i] = c->tags[i];
        r->flags[which][i] = word32(r->book + at + 4 + 8 * i);
    }
}

struct replay replay_of(const struct book *b) {
    struct replay r = {0};
    struct tables t;
    r.book = b->octets;
    if (judge_with(b->octets, b->length, &t).number) abort();
    take_table(&r, 0, &t.header, 20);
    take_table(&r, 1, &t.address, 24 + 8 * t.header.count);
    size_t at = put_record(&r, &t.header, t.at);
    while (at < b->length) at = put_record(&r, &t.address, at);
    put(&r, FINISH, 0, 0, 0);
    return r;
}

uint32_t replay_library(const struct replay *r, uint8_t *buf, size_t room) {
    wt_writing st;
    uint32_t number = wt_begin(&st, r->tags[0], r->columns[0], r->flags[0], r->columns[0], r->tags[1], r->columns[1],
        r->flags[1], r->columns[1], buf, room);
    for (size_t i = 0; number == 0 && i < r->count; i++) {
        const struct step *s = &r->steps[i];
        switch (s->what) {
        case OPEN: number = wt_open(&st, buf, room); break;
        case NUMBER: number = wt_give_number(&st, buf, room, s->tag, s->n); break;
        case TRUTH: number = wt_give_truth(&st, buf, room, s->tag, s->n); break;
        case OCTETS_OF: number = wt_give_octets(&st, buf, room, s->tag, r->book + s->at, s->n); break;
        case LIST: number = wt_give_list(&st, buf, room, s->tag, s->n); break;
        case ADD_NUMBER: number = wt_add_number(&st, buf, room, s->n); break;
        case ADD_OCTETS: number = wt_add_octets(&st, buf, room, r->book + s->at, s->n); break;
        case CLOSE: number = wt_close(&st, buf, room); break;
        default: number = wt_finish(&st, buf, room);
        }
    }
    return number;
}

uint32_t replay_plain(const struct replay *r, uint8_t *buf, size_t room) {
    struct writing w;
    uint32_t number = plain_begin(&w, buf, room, r->tags[0], r->flags[0], r->columns[0], r->tags[1], r->flags[1], r->columns[1]);
    for (size_t i = 0; number == 0 && i < r->count; i++) {
        const struct step *s = &r->steps[i];
        switch (s->what) {
        case OPEN: number = plain_open(&w); break;
        case NUMBER: number = plain_give_number(&w, s->tag, s->n); break;
        case TRUTH: number = plain_give_truth(&w, s->tag, s->n != 0); break;
        case OCTETS_OF: number = plain_give_octets(&w, s->tag, r->book + s->at, s->n); break;
        case LIST: number = plain_give_list(&w, s->tag, s->n); break;
        case ADD_NUMBER: number = plain_add_number(&w, s->n); break;
        case ADD_OCTETS: number = plain_add_octets(&w, r->book + s->at, s->n); break;
        case CLOSE: number = plain_close(&w); break;
        default: number = plain_finish(&w);
        }
    }
    return number;
}
