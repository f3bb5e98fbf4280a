/* The library beside plain C on the same octets, in one run: agreement first, then the best of several times of each, as ratios. */
#include "../include/windtrellis.h"
#include "agree.h"
#include "books.h"
#include "corrector.h"
#include "exported.h"
#include "imported.h"
#include "indexed.h"
#include "replay.h"
#include <stdio.h>
#include <stdlib.h>
#include <string.h>
#include <time.h>
#ifdef WITH_ZLIB
#include <zlib.h>
#endif

enum work { SERIAL, JUDGE, LOOKUP, GROW, SHRINK, INSERT, DELETE, WRITE, WORKS };
static const char *work_names[WORKS] = {"serial", "judge", "lookup", "grow", "shrink", "insert", "delete", "write"};
enum { LIBRARY, PLAIN, SIDES };

/* a book, a copy of it for each side to correct and to write, and what is offered to it */
struct subject {
    struct book book;
    size_t room;
    uint8_t *copy[SIDES], *written[SIDES];
    size_t length[SIDES];
    uint32_t tag;
    uint8_t *small, *large, *record; /* small: 0 where the value is cleared */
    size_t small_size, large_size, record_size;
    struct replay replay;
};

static volatile size_t sink;

static void done(uint32_t number) {
    if (number == 0) return;
    printf("a work that is timed was refused: %u\n", number);
    exit(1);
}

static void set(struct subject *s, int side, const uint8_t *v, size_t n) {
    wt_length out;
    if (side == PLAIN) {
        struct corrected c = plain_set(s->copy[side], s->room, s->length[side], 0, s->tag, v, n);
        done(c.number);
        s->length[side] = c.answer;
        return;
    }
    if (v) done(wt_set(s->copy[side], s->room, s->length[side], 0, s->tag, v, n, &out));
    else done(wt_clear(s->copy[side], s->room, s->length[side], 0, s->tag, &out));
    s->length[side] = out.length;
}

static void insert(struct subject *s, int side) {
    wt_length out;
    struct corrected c = {0, 0};
    if (side == PLAIN) c = plain_insert(s->copy[side], s->room, s->length[side], 0, s->record, s->record_size);
    else {
        c.number = wt_insert(s->copy[side], s->room, s->length[side], 0, s->record, s->record_size, &out);
        c.answer = out.length;
    }
    done(c.number);
    s->length[side] = c.answer;
}

static void take_out(struct subject *s, int side) {
    wt_length out;
    struct corrected c = {0, 0};
    if (side == PLAIN) c = plain_delete(s->copy[side], s->room, s->length[side], 0);
    else {
        c.number = wt_delete(s->copy[side], s->room, s->length[side], 0, &out);
        c.answer = out.length;
    }
    done(c.number);
    s->length[side] = c.answer;
}

static void perform(struct subject *s, enum work w, int side) {
    const struct book *b = &s->book;
    wt_judged out;
    wt_found found;
    switch (w) {
    case SERIAL: sink = side == PLAIN ? plain_serial_table(b->octets, b->length) : wt_serial(b->octets, b->length); break;
    case JUDGE:
        sink = side == PLAIN ? plain_judge(b->octets, b->length).number : wt_judge(b->octets, b->length, &out);
        break;
    case LOOKUP:
        if (side == PLAIN) sink = plain_lookup(b->octets, b->length, b->records - 1, b->tag).end;
        else sink = wt_lookup(b->octets, b->length, b->records - 1, b->tag, &found);
        break;
    case GROW: set(s, side, s->large, s->large_size); break;
    case SHRINK: set(s, side, s->small, s->small_size); break;
    case INSERT: insert(s, side); break;
    case DELETE: take_out(s, side); break;
    default: done(side == PLAIN ? replay_plain(&s->replay, s->written[side], s->room) : replay_library(&s->replay, s->written[side], s->room));
    }
}

static double now(void) {
    struct timespec t;
    clock_gettime(CLOCK_THREAD_CPUTIME_ID, &t);
    return (double)t.tv_sec + 1e-9 * (double)t.tv_nsec;
}

static int turns = 15;

/* the sides take turns; a correction is made once a turn, since it changes the book, and undone by the next */
static void best(struct subject *s, double times[WORKS][SIDES]) {
    enum work order[WORKS] = {SERIAL, JUDGE, LOOKUP, GROW, SHRINK, INSERT, DELETE, WRITE};
    if (1 < s->book.records) order[5] = DELETE, order[6] = INSERT;
    int again = 1;
    while (again * (s->book.length + 1000) < 1u << 20) again *= 2;
    for (int w = 0; w < WORKS; w++) times[w][LIBRARY] = times[w][PLAIN] = 1e9;
    for (int t = 0; t < turns; t++)
        for (int i = 0; i < WORKS; i++) {
            enum work w = order[i];
            if ((w == GROW || w == SHRINK) && s->large == 0) continue;
            int n = w < GROW || w == WRITE ? again : 1;
            for (int side = 0; side < SIDES; side++) {
                double start = now();
                for (int k = 0; k < n; k++) perform(s, w, side);
                double time = (now() - start) / n;
                if (time < times[w][side]) times[w][side] = time;
            }
        }
}

/* ---- what is offered: the value of the first record one octet longer, and a record for the front */

static void offers(struct subject *s, enum shape shape) {
    const struct book *b = &s->book;
    const uint8_t *o = b->octets;
    size_t h = word32(o + 16), a = word32(o + 20 + 8 * h), r = 24 + 8 * (h + a);
    r += word32(o + r);
    s->record_size = 1 < b->records ? word32(o + r) : 7;
    s->record = malloc(s->record_size);
    if (1 < b->records) memcpy(s->record, o + r, s->record_size);
    else {
        uint8_t text[2] = {'x', 0}, counted[2] = {1, 5};
        put_word32(s->record, 7);
        s->record[4] = 0x80;
        memcpy(s->record + 5, shape == OCTETS || shape == NUMBERS ? counted : text, 2);
    }
    if (a == 0) return;
    s->tag = word32(o + 24 + 8 * h);
    struct stretch v = plain_lookup(o, b->length, 0, s->tag);
    s->small_size = v.end - v.start;
    s->large_size = s->small_size + 1;
    s->small = malloc(s->small_size);
    s->large = malloc(s->large_size);
    memcpy(s->small, o + v.start, s->small_size);
    s->large[0] = 'x';
    memcpy(s->large + 1, s->small, s->small_size);
    if (shape == OCTETS || shape == NUMBERS) {
        /* its length or count, of four octets behind the first, is one more; a last octet of 5 */
        memcpy(s->large, s->small, s->small_size);
        size_t k = s->small[0] - 128u;
        for (size_t i = 1; i <= k && ++s->large[i] == 0; i++) continue;
        s->large[s->small_size] = 5;
    }
    if (shape == BOOLEANS) {
        /* set where it is absent, and cleared */
        free(s->large);
        s->large = s->small;
        s->large_size = 1;
        s->small = 0;
        s->small_size = 0;
    }
}

static struct subject subject_of(enum shape shape, size_t length) {
    struct subject s = {make_book(shape, length), 0, {0, 0}, {0, 0}, {0, 0}, 0, 0, 0, 0, 0, 0, 0, {0}};
    s.room = s.book.length + 64;
    offers(&s, shape);
    s.replay = replay_of(&s.book);
    for (int side = 0; side < SIDES; side++) {
        s.copy[side] = calloc(s.room, 1);
        s.written[side] = calloc(s.room, 1);
        s.length[side] = s.book.length;
        memcpy(s.copy[side], s.book.octets, s.book.length);
        if (s.large) set(&s, side, s.small, s.small_size);
    }
    return s;
}

/* both sides have the same octets at the end, too */
static void dismiss(struct subject *s) {
    if (s->length[0] != s->length[1] || memcmp(s->copy[0], s->copy[1], s->length[0])) done(1000);
    if (memcmp(s->written[0], s->book.octets, s->book.length) || memcmp(s->written[1], s->book.octets, s->book.length)) done(1001);
    for (int side = 0; side < SIDES; side++) {
        free(s->copy[side]);
        free(s->written[side]);
    }
    free(s->book.octets);
    free(s->record);
    free(s->small);
    free(s->large);
    free(s->replay.steps);
}

/* ---- the tables */

static void ratio(double a, double b) {
    if (a < 1e8) printf(" %7.2f", a / b);
    else printf(" %7s", "-");
}

static void times_of(enum shape shape) {
    double small[WORKS][SIDES], t[WORKS][SIDES];
    size_t length = 0;
    for (int k = 0; k < 3; k++) {
        struct subject s = subject_of(shape, shape == EMPTY ? 62 + (4u * 65535 >> (4 - 2 * k)) : ((size_t)1 << (20 + 2 * k)) - 64);
        size_t octets = s.book.length;
        if (octets == length) {
            dismiss(&s);
            break;
        }
        best(&s, t);
        printf("%-24s %7.2f %8zu", shape_names[shape], (double)octets / (1 << 20), s.book.records);
        for (int w = JUDGE; w < WORKS; w++) ratio(t[w][LIBRARY], t[w][PLAIN]);
        /* without the serial on both sides; where a walk is next to nothing there is nothing to divide */
        double walk[SIDES] = {t[JUDGE][LIBRARY] - t[SERIAL][LIBRARY], t[JUDGE][PLAIN] - t[SERIAL][PLAIN]};
        ratio(t[SERIAL][PLAIN] / 20 < walk[PLAIN] ? walk[LIBRARY] : 1e9, walk[PLAIN]);
        printf(" %9.2f\n", t[JUDGE][LIBRARY] * 1e9 / (double)octets);
        if (k == 0) memcpy(small, t, sizeof small), length = octets;
        if (k == 2) {
            printf("%-24s %7.1f %8s", "  grown, times as long", (double)octets / (double)length, "library");
            for (int w = JUDGE; w < WORKS; w++) ratio(t[w][LIBRARY], small[w][LIBRARY]);
            printf("\n%-24s %7s %8s", "", "", "C");
            for (int w = JUDGE; w < WORKS; w++) ratio(t[w][PLAIN], small[w][PLAIN]);
            printf("\n");
        }
        fflush(stdout);
        dismiss(&s);
    }
}

#ifdef WITH_ZLIB
static uint32_t zlib_serial(const uint8_t *s, size_t n) { return (uint32_t)~crc32(0, s, (uInt)n); }
#endif

/* the library's first; they take turns */
static uint32_t (*const serial_ways[])(const uint8_t *, size_t) = {
    wt_serial, plain_serial_table, plain_serial_bits,
#ifdef WITH_ZLIB
    zlib_serial,
#endif
};
enum { WAYS = sizeof serial_ways / sizeof *serial_ways };

static void serials(void) {
    double first = 0;
    printf("\nserial: library / C by table, by bits, zlib; best of %d\n", turns);
    for (int k = 0; k < 3; k++) {
        struct book b = make_book(REALISTIC, (size_t)1 << (20 + 2 * k));
        double t[WAYS];
        for (int w = 0; w < WAYS; w++) t[w] = 1e9;
        for (int turn = 0; turn < turns; turn++)
            for (int w = 0; w < WAYS; w++) {
                double start = now();
                sink = serial_ways[w](b.octets, b.length);
                double time = now() - start;
                if (time < t[w]) t[w] = time;
            }
        printf("%6.2f MiB", (double)b.length / (1 << 20));
        for (int w = 1; w < WAYS; w++) ratio(t[0], t[w]);
        printf("   %.2f ns/octet\n", t[0] * 1e9 / (double)b.length);
        if (k == 0) first = t[0];
        if (k == 2) printf("%10s grown 16 times: takes %.1f times as long\n", "", t[0] / first);
        free(b.octets);
    }
}

int main(int argc, char **argv) {
    if (1 < argc) turns = atoi(argv[1]);
    const char *only = 2 < argc ? argv[2] : "";
    if (agree()) return 1;
    if (strcmp(only, "imports") != 0) exported(turns);
    if (strcmp(only, "sheets") == 0) return 0;
    imported(turns);
    if (strcmp(only, "imports") == 0) return 0;
    serials();
    indexed(turns);
    printf("\nlibrary / plain C with a table-driven serial; walks: judge without the serial, on both sides\n%-24s %7s %8s", "shape", "MiB", "records");
    for (int w = JUDGE; w < WORKS; w++) printf(" %7s", work_names[w]);
    printf(" %7s %9s\n", "walks", "judge ns/o");
    for (enum shape s = 0; s < SHAPES; s++) times_of(s);
    return 0;
}
