/* The commands that read a book as it stands: check, list, columns, extract. Those that look values up: looking.c. */
#include "commands.h"
#include "files.h"
#include "saving.h"
#include "spelling.h"
#include "tags.h"
#include "values.h"
#include "windtrellis.h"
#include "words.h"
#include <inttypes.h>
#include <stdlib.h>
#include <string.h>
#include <unistd.h>

/* ---- a book that is read, and judged where it is to be walked */

static int read_book(const char *name, struct octets *book, wt_judged *judged)
{
    uint32_t answer;
    int result = read_file(name, book);
    if (result != DONE) return result;
    answer = wt_judge(book->at, book->length, judged);
    return answer == WT_DONE ? DONE : refuse(name, answer, judged->place, wt_words(answer));
}

void show_progress(const struct command *c, uint64_t done, uint64_t all, const char *things)
{
    static int known, lines;
    if (!known) lines = c->to == stdout && isatty(1);
    known = 1;
    if (!lines) progress(done, all, things);
}

/* ---- check */

static void print_string(FILE *to, const char *s)
{
    putc('"', to);
    spell(to, (const uint8_t *)s, strlen(s), IN_JSON);
    putc('"', to);
}

static int check_json(const struct command *c, const char *name, uint32_t answer, const wt_judged *judged)
{
    fputs("{\"book\":", c->to);
    print_string(c->to, name);
    if (answer == WT_DONE)
        fprintf(c->to, ",\"good\":true,\"octets\":%" PRIu64 ",\"records\":%" PRIu64 "}\n", judged->length,
            judged->count);
    else
        fprintf(c->to, ",\"good\":false,\"refusal\":%" PRIu32 ",\"place\":%" PRIu64 ",\"words\":\"%s\"}\n", answer,
            judged->place, wt_words(answer));
    return answer == WT_DONE ? DONE : REFUSED;
}

static int check_one(const struct command *c, const char *name)
{
    struct octets book = { 0 };
    wt_judged judged = { 0 };
    uint32_t answer;
    int result = read_file(name, &book);
    if (result == DONE) {
        answer = wt_judge(book.at, book.length, &judged);
        if (c->options & JSON) result = check_json(c, name, answer, &judged);
        else if (answer != WT_DONE) result = refuse(name, answer, judged.place, wt_words(answer));
        else if (!(c->options & QUIET)) {
            spell(c->to, (const uint8_t *)name, strlen(name), IN_WORDS);
            fprintf(c->to, ": good, %" PRIu64 " octets, %" PRIu64 " record%s\n", judged.length, judged.count,
                plural(judged.count));
        }
    }
    drop(&book);
    return result;
}

int run_check(const struct command *c)
{
    size_t i;
    int result = DONE;
    if (c->to == stdout) setvbuf(stdout, NULL, _IOLBF, BUFSIZ);
    for (i = 0; i < c->count; i++) {
        int one = check_one(c, c->words[i]);
        if (one > result) result = one;
        show_progress(c, i + 1, c->count, "books");
    }
    progress_ends();
    return result;
}

/* ---- list */

/* Place, size and number of values of a record of a judged book; its size. */
static uint64_t print_record(const struct command *c, const uint8_t *book, uint64_t at, uint64_t columns)
{
    uint64_t size = number_at(book + at), i, values = 0;
    for (i = 0; i < columns; i++) values += book[at + 4 + i / 8] >> (7 - i % 8) & 1;
    if (c->options & JSON)
        fprintf(c->to, ",\"place\":%" PRIu64 ",\"size\":%" PRIu64 ",\"values\":%" PRIu64 "}\n", at, size, values);
    else
        fprintf(c->to, " %" PRIu64 " %" PRIu64 " %" PRIu64 "\n", at, size, values);
    return size;
}

static void print_measures(const struct command *c, const wt_judged *j)
{
    if (c->options & JSON)
        fprintf(c->to, "{\"octets\":%" PRIu64 ",\"header_columns\":%" PRIu64 ",\"address_columns\":%" PRIu64
            ",\"records\":%" PRIu64 "}\n", j->length, j->header_columns, j->address_columns, j->count);
    else
        fprintf(c->to, "book %" PRIu64 " %" PRIu64 " %" PRIu64 " %" PRIu64 "\n", j->length, j->header_columns,
            j->address_columns, j->count);
}

int run_list(const struct command *c)
{
    struct octets book = { 0 };
    wt_judged j = { 0 };
    uint64_t k, at;
    int json = (c->options & JSON) != 0, result = read_book(c->words[0], &book, &j);
    if (result == DONE) {
        print_measures(c, &j);
        fputs(json ? "{\"record\":\"header\"" : "header", c->to);
        print_record(c, book.at, j.header, j.header_columns);
        for (k = 0, at = j.first; k < j.count; k++) {
            fprintf(c->to, json ? "{\"record\":%" PRIu64 : "record %" PRIu64, k);
            at += print_record(c, book.at, at, j.address_columns);
        }
    }
    drop(&book);
    return result;
}

/* ---- columns */

void print_tag(const struct command *c, uint32_t tag)
{
    const char *name = tag_name(tag);
    if (c->options & JSON) {
        fprintf(c->to, "\"tag\":\"%08" PRIX32 "\",\"name\":", tag);
        fprintf(c->to, name ? "\"%s\"" : "null", name);
    } else if (c->options & NAMES && name) {
        fputs(name, c->to);
    } else {
        fprintf(c->to, "%08" PRIX32, tag);
    }
}

static void print_column(const struct command *c, int address, uint64_t i, uint32_t tag, uint32_t flags)
{
    const char *table = address ? "address" : "header";
    int json = (c->options & JSON) != 0;
    fprintf(c->to, json ? "{\"table\":\"%s\",\"column\":%" PRIu64 "," : "%s %" PRIu64 " ", table, i);
    print_tag(c, tag);
    if (json)
        fprintf(c->to, ",\"type\":\"%s\",\"index\":%s,\"key\":%s}\n", type_words(tag), flags & 1 ? "true" : "false",
            flags & 2 ? "true" : "false");
    else
        fprintf(c->to, " %s%s%s\n", type_words(tag), flags & 1 ? " index" : "", flags & 2 ? " key" : "");
}

int run_columns(const struct command *c)
{
    struct octets book = { 0 };
    uint32_t tags[WT_MOST_COLUMNS], flags[WT_MOST_COLUMNS], address;
    wt_counted counted = { 0 };
    uint64_t i;
    int result = read_file(c->words[0], &book);
    for (address = 0; result == DONE && address < 2; address++) {
        uint32_t answer = wt_columns(book.at, book.length, address, tags, flags, &counted);
        if (answer != WT_DONE) result = refuse(c->words[0], answer, counted.place, wt_words(answer));
        else
            for (i = 0; i < counted.count; i++) print_column(c, (int)address, i, tags[i], flags[i]);
    }
    drop(&book);
    return result;
}

/* ---- extract */

int run_extract(const struct command *c)
{
    struct octets book = { 0 };
    wt_judged j = { 0 };
    uint64_t record, at, k;
    int result = word_record(c->words[1], &record);
    if (result == DONE) result = read_book(c->words[0], &book, &j);
    if (result == DONE && record != WT_HEADER && record >= j.count)
        result = refuse_missing(c->words[0], book.at, book.length, record, 0);
    if (result == DONE) {
        at = record == WT_HEADER ? j.header : j.first;
        for (k = 0; record != WT_HEADER && k < record; k++) at += number_at(book.at + at);
        result = save(c->out ? c->out : "-", book.at + at, number_at(book.at + at));
    }
    drop(&book);
    return result;
}
