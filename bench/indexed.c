/* Making an index beside judging, on every shape; a lookup through it in the realistic book of 1, 16 and 256 MiB. */
#include "indexed.h"
#include "../include/windtrellis.h"
#include "books.h"
#include "indexer.h"
#include <stdio.h>
#include <stdlib.h>
#include <time.h>

enum { JUDGING, MAKING, WORKS };
enum { LIBRARY, PLAIN, SIDES };
enum { MOST_INDEX = OFFSET + WIDTH * 65535, ASKED = 256, ROUNDS = 20 };

static uint8_t index_of[SIDES][MOST_INDEX];
static volatile size_t sink;

static double now(void) {
    struct timespec t;
    clock_gettime(CLOCK_THREAD_CPUTIME_ID, &t);
    return (double)t.tv_sec + 1e-9 * (double)t.tv_nsec;
}

static size_t work(const struct book *b, int what, int side) {
    wt_judged judged;
    wt_length made;
    size_t length = 0;
    if (what == JUDGING && side == PLAIN) sink = plain_judge(b->octets, b->length).number;
    else if (what == JUDGING) sink = wt_judge(b->octets, b->length, &judged);
    else if (side == PLAIN) sink = plain_index(b->octets, b->length, index_of[side], MOST_INDEX, &length).number;
    else {
        sink = wt_index(b->octets, b->length, index_of[side], MOST_INDEX, &made);
        length = made.length;
    }
    return length;
}

static void making(int turns) {
    printf("\nindex: made / judged, library and C; library / C; best of %d\n", turns);
    for (enum shape shape = 0; shape < SHAPES; shape++) {
        struct book b = make_book(shape, (size_t)1 << 24);
        double t[WORKS][SIDES] = {{1e9, 1e9}, {1e9, 1e9}};
        for (int turn = 0; turn < turns; turn++)
            for (int what = 0; what < WORKS; what++)
                for (int side = 0; side < SIDES; side++) {
                    double start = now(), time;
                    work(&b, what, side);
                    time = now() - start;
                    if (time < t[what][side]) t[what][side] = time;
                }
        printf("%-24s %7.2f %8zu %7.2f %7.2f %7.2f\n", shape_names[shape], (double)b.length / (1 << 20), b.records,
            t[MAKING][LIBRARY] / t[JUDGING][LIBRARY], t[MAKING][PLAIN] / t[JUDGING][PLAIN],
            t[MAKING][LIBRARY] / t[MAKING][PLAIN]);
        free(b.octets);
    }
}

/* the same number of records of each book, spread over all of it but the first, one after the other and again */
static double asking(const struct book *b, size_t m, int side) {
    double start = now();
    for (int r = 0; r < ROUNDS; r++)
        for (size_t i = 0; i < ASKED; i++) {
            size_t k = 1 + i * (b->records - 2) / (ASKED - 1);
            const uint8_t *index = index_of[side];
            struct stretch s;
            wt_found found;
            if (side == PLAIN) sink = plain_lookup_indexed(b->octets, b->length, index, m, k, b->tag, &s).number;
            else sink = wt_lookup_indexed(b->octets, b->length, index, m, k, b->tag, &found);
        }
    return (now() - start) / ROUNDS / ASKED;
}

void indexed(int turns) {
    double first[SIDES] = {0, 0};
    making(turns);
    printf("\nlookup through the index, %d records spread over the book: microseconds, beside the smallest book; "
        "library / C\n", ASKED);
    for (int size = 0; size < 3; size++) {
        struct book b = make_book(REALISTIC, (size_t)1 << (20 + 4 * size));
        double t[SIDES] = {1e9, 1e9};
        size_t m[SIDES];
        for (int side = 0; side < SIDES; side++) m[side] = work(&b, MAKING, side);
        for (int turn = 0; turn < turns; turn++)
            for (int side = 0; side < SIDES; side++) {
                double time = asking(&b, m[side], side);
                if (time < t[side]) t[side] = time;
            }
        for (int side = 0; side < SIDES && size == 0; side++) first[side] = t[side];
        printf("%6.2f MiB %8zu records: library %.3f %5.2f, C %.3f %5.2f; %5.2f\n", (double)b.length / (1 << 20),
            b.records, t[LIBRARY] * 1e6, t[LIBRARY] / first[LIBRARY], t[PLAIN] * 1e6, t[PLAIN] / first[PLAIN],
            t[LIBRARY] / t[PLAIN]);
        free(b.octets);
    }
}
