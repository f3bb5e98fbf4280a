/* Sheets of up to sixteen columns, spread over the table, of books of 1, 4 and 16 MiB. */
#include "exported.h"
#include "../include/windtrellis.h"
#include "books.h"
#include "exporter.h"
#include "plain.h"
#include <stdio.h>
#include <stdlib.h>
#include <string.h>
#include <time.h>

enum { JUDGING, MAKING, WORKS };
enum { LIBRARY, PLAIN, SIDES };

struct subject {
    struct book book;
    uint32_t tags[MOST_CHOSEN];
    size_t count, length; /* of the tags, of the sheet */
    uint8_t *text[SIDES];
};

static volatile size_t sink;

static double now(void) {
    struct timespec t;
    clock_gettime(CLOCK_THREAD_CPUTIME_ID, &t);
    return (double)t.tv_sec + 1e-9 * (double)t.tv_nsec;
}

static struct subject subject_of(enum shape shape, size_t length) {
    struct subject s = {make_book(shape, length), {0}, 0, 0, {0, 0}};
    s.count = spread_tags(s.book.octets, s.tags);
    if (s.count) plain_sheet_length(s.book.octets, s.book.length, s.tags, s.count, &s.length);
    for (int side = 0; side < SIDES && s.count; side++) s.text[side] = calloc(s.length, 1);
    return s;
}

/* both have made the same text */
static void dismiss(struct subject *s) {
    if (s->count && memcmp(s->text[LIBRARY], s->text[PLAIN], s->length)) {
        printf("the sheets differ\n");
        exit(1);
    }
    for (int side = 0; side < SIDES; side++) free(s->text[side]);
    free(s->book.octets);
}

static void work(struct subject *s, int what, int side) {
    const struct book *b = &s->book;
    uint8_t *text = s->text[side];
    wt_judged judged;
    wt_length made;
    size_t n;
    if (what == JUDGING && side == PLAIN) sink = plain_judge(b->octets, b->length).number;
    else if (what == JUDGING) sink = wt_judge(b->octets, b->length, &judged);
    else if (side == PLAIN) sink = plain_sheet(b->octets, b->length, s->tags, s->count, text, s->length, &n).number;
    else sink = wt_sheet(b->octets, b->length, s->tags, s->count, text, s->length, &made);
    if (sink == 0) return;
    printf("a work that is timed was refused: %zu\n", (size_t)sink);
    exit(1);
}

static void best(struct subject *s, int turns, double t[WORKS][SIDES]) {
    for (int what = 0; what < WORKS; what++) t[what][LIBRARY] = t[what][PLAIN] = 1e9;
    for (int turn = 0; turn < turns; turn++)
        for (int what = 0; what < WORKS; what++)
            for (int side = 0; side < SIDES; side++) {
                double start = now(), time;
                work(s, what, side);
                time = now() - start;
                if (time < t[what][side]) t[what][side] = time;
            }
}

static void times_of(enum shape shape, int turns) {
    double small[WORKS][SIDES] = {{0, 0}, {0, 0}}, t[WORKS][SIDES];
    size_t first = 0, last = 0;
    for (int k = 0; k < 3; k++) {
        struct subject s = subject_of(shape, ((size_t)1 << (20 + 2 * k)) - 64);
        size_t octets = s.book.length;
        if (s.count && octets != last) {
            best(&s, turns, t);
            last = octets;
            printf("%-24s %7.2f %8zu %7zu %7.2f %7.2f %7.2f %7.2f %9.2f\n", shape_names[shape],
                (double)octets / (1 << 20), s.book.records, s.count, (double)s.length / (1 << 20),
                t[MAKING][LIBRARY] / t[MAKING][PLAIN], t[MAKING][LIBRARY] / t[JUDGING][LIBRARY],
                t[MAKING][PLAIN] / t[JUDGING][PLAIN], t[MAKING][LIBRARY] * 1e9 / (double)octets);
            if (k == 0) memcpy(small, t, sizeof small), first = octets;
        }
        dismiss(&s);
    }
    if (first)
        printf("%-24s %7.1f times the book: library %.1f, C %.1f times as long\n", "  grown",
            (double)last / (double)first, t[MAKING][LIBRARY] / small[MAKING][LIBRARY],
            t[MAKING][PLAIN] / small[MAKING][PLAIN]);
    fflush(stdout);
}

void exported(int turns) {
    printf("\nsheets: library / C; made / judged, library and C; best of %d\n", turns);
    printf("%-24s %7s %8s %7s %7s %7s %7s %7s %9s\n", "shape", "MiB", "records", "columns", "sheet", "lib / C",
        "library", "C", "ns/octet");
    for (enum shape shape = 0; shape < ALL_SHAPES; shape++) times_of(shape, turns);
}
