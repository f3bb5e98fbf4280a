/* A plain listing in C, written for the comparison: judged by the plain reader, then a line for each record. */
#include "../plain.h"
#include <stdio.h>
#include <string.h>

enum { MOST_LISTED = 65536 };

/* The values among n columns: whole octets, then the last without what is behind the columns. */
static int present_of(const uint8_t *p, size_t n) {
    int k = 0;
    for (size_t i = 0; i < n / 8; i++) k += __builtin_popcount(p[i]);
    if (n % 8) k += __builtin_popcount(p[n / 8] >> (8 - n % 8));
    return k;
}

static size_t record(const char *name, const uint8_t *book, size_t at, size_t columns) {
    size_t size = word32(book + at);
    printf("%s %zu %zu %d\n", name, at, size, present_of(book + at + 4, columns));
    return at + size;
}

int main(void) {
    static uint8_t book[MOST_LISTED + 1];
    static struct tables t;
    size_t n = fread(book, 1, sizeof book, stdin);
    struct refusal r = {17, 0};
    if (n <= MOST_LISTED) r = judge_with(book, n, &t);
    if (r.number) {
        printf("refused %u %zu\n", r.number, r.place);
        return 1;
    }
    size_t records = word32(book + 8);
    printf("book %zu %zu %zu %zu\n", n, t.header.count, t.address.count, records);
    size_t at = record("header", book, t.at, t.header.count);
    for (size_t i = 0; i < records; i++) {
        char name[32];
        snprintf(name, sizeof name, "record %zu", i);
        at = record(name, book, at, t.address.count);
    }
    return 0;
}
