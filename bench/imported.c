/* Books of up to sixteen columns from their sheets, of 1, 4 and 16 MiB. A shape with other columns gives a book of some
   of its columns first. */
#include "imported.h"
#include "../include/windtrellis.h"
#include "books.h"
#include "exporter.h"
#include "importer.h"
#include "plain.h"
#include <stdio.h>
#include <stdlib.h>
#include <string.h>
#include <time.h>

enum { JUDGING, MAKING, WORKS };
enum { LIBRARY, PLAIN, SIDES };

struct subject {
    uint8_t *text, *book, *made[SIDES];
    size_t text_length, length, records, columns; /* length: of the book */
    uint32_t flags[MOST_CHOSEN], header_tags[MOST_COLUMNS], header_flags[MOST_COLUMNS];
    uint8_t *record;
    struct front front;
};

static volatile size_t sink;

static double now(void) {
    struct timespec t;
    clock_gettime(CLOCK_THREAD_CPUTIME_ID, &t);
    return (double)t.tv_sec + 1e-9 * (double)t.tv_nsec;
}

static void give_up(const char *why) {
    printf("%s\n", why);
    exit(1);
}

/* ---- the sheet, and the book that it is to give */

static void take_front(struct subject *s, const uint8_t *o, const uint32_t *tags) {
    size_t h = word32(o + 16), a = word32(o + 20 + 8 * h), at = 24 + 8 * (h + a), n = word32(o + at);
    for (size_t i = 0; i < h; i++) {
        s->header_tags[i] = word32(o + 20 + 8 * i);
        s->header_flags[i] = word32(o + 24 + 8 * i);
    }
    for (size_t i = 0; i < s->columns; i++)
        for (size_t j = 0; j < a; j++)
            if (word32(o + 24 + 8 * (h + j)) == tags[i]) s->flags[i] = word32(o + 28 + 8 * (h + j));
    s->record = malloc(n);
    memcpy(s->record, o + at, n);
}

static void take_lists(struct subject *s) {
    struct front f = {s->flags, s->header_tags, s->header_flags, s->columns, 1, 1, s->record, word32(s->record)};
    s->front = f;
}

/* a shape that has no other columns is its own book; of the others the sheet of the book is the sheet again */
static void check_book(const struct subject *s, const struct book *b, const uint32_t *tags) {
    size_t n;
    uint8_t *again = malloc(s->text_length);
    if (word32(b->octets + 28) == s->columns && (s->length != b->length || memcmp(s->book, b->octets, b->length)))
        give_up("the book doesn't come back");
    if (plain_sheet(s->book, s->length, tags, s->columns, again, s->text_length, &n).number || n != s->text_length ||
        memcmp(again, s->text, n))
        give_up("the book's sheet is another one");
    free(again);
}

/* every shape has one header column; people have more columns than are taken, so they are more octets first */
static struct subject subject_of(enum shape shape, size_t length) {
    struct subject s = {0};
    struct book b = make_book(shape, shape == REALISTIC ? length / 4 * 9 : length);
    uint32_t tags[MOST_CHOSEN];
    s.columns = spread_tags(b.octets, tags);
    s.records = b.records;
    if (s.columns) {
        plain_sheet_length(b.octets, b.length, tags, s.columns, &s.text_length);
        s.text = malloc(s.text_length);
        s.book = malloc(b.length);
        plain_sheet(b.octets, b.length, tags, s.columns, s.text, s.text_length, &s.text_length);
        take_front(&s, b.octets, tags);
        take_lists(&s);
        if (plain_from_sheet(s.text, s.text_length, &s.front, s.book, b.length, &s.length).number)
            give_up("a sheet was refused");
        check_book(&s, &b, tags);
        for (int side = 0; side < SIDES; side++) s.made[side] = calloc(s.length, 1);
    }
    free(b.octets);
    return s;
}

static void dismiss(struct subject *s) {
    for (int side = 0; side < SIDES; side++) free(s->made[side]);
    free(s->text);
    free(s->book);
    free(s->record);
}

/* ---- times */

static void work(struct subject *s, int what, int side) {
    const struct front *f = &s->front;
    wt_judged judged;
    wt_length made;
    size_t n;
    if (what == JUDGING && side == PLAIN) sink = plain_judge(s->book, s->length).number;
    else if (what == JUDGING) sink = wt_judge(s->book, s->length, &judged);
    else if (side == PLAIN) sink = plain_from_sheet(s->text, s->text_length, f, s->made[side], s->length, &n).number;
    else
        sink = wt_from_sheet(s->text, s->text_length, f->flags, f->flag_count, f->header_tags, f->header_tag_count,
            f->header_flags, f->header_flag_count, f->record, f->record_octets, s->made[side], s->length, &made);
    if (sink) give_up("a work that is timed was refused");
}

/* in the end both have made the book, to its last octet */
static void best(struct subject *s, int turns, double t[WORKS][SIDES]) {
    for (int what = 0; what < WORKS; what++) t[what][LIBRARY] = t[what][PLAIN] = 1e9;
    for (int turn = 0; turn < turns; turn++)
        for (int what = 0; what < WORKS; what++)
            for (int side = 0; side < SIDES; side++) {
                double start = now(), time;
                work(s, what, side);
                time = now() - start;
                if (time < t[what][side]) t[what][side] = time;
            }
    for (int side = 0; side < SIDES; side++)
        if (memcmp(s->made[side], s->book, s->length)) give_up("the books differ");
}

static void times_of(enum shape shape, int turns) {
    double small[WORKS][SIDES] = {{0, 0}, {0, 0}}, t[WORKS][SIDES];
    size_t first = 0, last = 0;
    for (int k = 0; k < 3; k++) {
        struct subject s = subject_of(shape, ((size_t)1 << (20 + 2 * k)) - 64);
        if (s.columns && s.length != last) {
            best(&s, turns, t);
            last = s.length;
            printf("%-24s %7.2f %8zu %7zu %7.2f %7.2f %7.2f %7.2f %9.2f\n", shape_names[shape],
                (double)last / (1 << 20), s.records, s.columns, (double)s.text_length / (1 << 20),
                t[MAKING][LIBRARY] / t[MAKING][PLAIN], t[MAKING][LIBRARY] / t[JUDGING][LIBRARY],
                t[MAKING][PLAIN] / t[JUDGING][PLAIN], t[MAKING][LIBRARY] * 1e9 / (double)last);
            if (k == 0) memcpy(small, t, sizeof small), first = last;
        }
        dismiss(&s);
    }
    if (first)
        printf("%-24s %7.1f times the book: library %.1f, C %.1f times as long\n", "  grown",
            (double)last / (double)first, t[MAKING][LIBRARY] / small[MAKING][LIBRARY],
            t[MAKING][PLAIN] / small[MAKING][PLAIN]);
    fflush(stdout);
}

void imported(int turns) {
    printf("\nbooks from sheets: library / C; made / judged, library and C; best of %d\n", turns);
    printf("%-24s %7s %8s %7s %7s %7s %7s %7s %9s\n", "shape", "MiB", "records", "columns", "sheet", "lib / C",
        "library", "C", "ns/octet");
    for (enum shape shape = 0; shape < ALL_SHAPES; shape++) times_of(shape, turns);
}
