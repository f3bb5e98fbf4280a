/* The commands that look values up: show, get, find; and index, which saves what makes that quick. A record is looked
 * up through an index: the one that --index names, or one that is made in memory, which judges the book once. */
#include "commands.h"
#include "files.h"
#include "saving.h"
#include "spelling.h"
#include "tags.h"
#include "values.h"
#include "windtrellis.h"
#include "words.h"
#include <errno.h>
#include <inttypes.h>
#include <stdlib.h>
#include <string.h>

/* ---- a book and its index */

struct indexed {
    const char *name, *index_name; /* index_name: null where the index is made here */
    struct octets book, index;
};

static int refuse_book(const struct indexed *x, uint32_t answer, uint64_t place)
{
    int saved = answer == WT_WRONG_INDEX && x->index_name;
    return refuse(saved ? x->index_name : x->name, answer, place, wt_words(answer));
}

/* Room by the count that the book says it has: more than a good book needs is never asked for. */
static int make_index(struct indexed *x)
{
    uint64_t count = x->book.length < 12 ? 0 : number_at(x->book.at + 8);
    size_t room = WT_INDEX_FRONT + WT_INDEX_ENTRY * (count < WT_MOST_RECORDS ? (size_t)count : WT_MOST_RECORDS);
    wt_length made = { 0 };
    uint32_t answer;
    if (!grow(&x->index, room)) return fail(x->name, "%s", strerror(errno));
    answer = wt_index(x->book.at, x->book.length, x->index.at, room, &made);
    x->index.length = (size_t)made.length;
    return answer == WT_DONE ? DONE : refuse_book(x, answer, made.place);
}

static int read_indexed(struct indexed *x, const char *name, const char *index_name)
{
    int result = read_file(name, &x->book);
    x->name = name;
    x->index_name = index_name;
    if (result != DONE) return result;
    return index_name ? read_file(index_name, &x->index) : make_index(x);
}

static void drop_indexed(struct indexed *x)
{
    drop(&x->book);
    drop(&x->index);
}

/* The table of the address records, once the library has judged the book's tables. */
static const uint8_t *address_table(const struct indexed *x)
{
    return x->book.at + 20 + 8 * (size_t)number_at(x->book.at + 16);
}

static uint32_t column_count(const struct indexed *x)
{
    return number_at(address_table(x));
}

static uint32_t column_tag(const struct indexed *x, uint32_t i)
{
    return number_at(address_table(x) + 4 + 8 * (size_t)i);
}

/* 15 in words: the library has judged the tables and the index, so the count is that of both. */
static int refuse_asked(const struct indexed *x, uint64_t record, uint32_t tag)
{
    uint32_t count = number_at(x->book.at + 8);
    char words[160];
    if (record == WT_HEADER)
        snprintf(words, sizeof words, "the header record isn't offered through an index");
    else if (record >= count)
        snprintf(words, sizeof words, "there is no record %" PRIu64 ": the book has %" PRIu32 " record%s, from 0 on",
            record, count, plural(count));
    else
        snprintf(words, sizeof words, "there is no column %08" PRIX32 " in the address table", tag);
    return refuse(x->name, WT_OUT_OF_TURN, 0, words);
}

static int look(const struct indexed *x, uint64_t record, uint32_t tag, wt_found *found)
{
    uint32_t answer = wt_lookup_indexed(x->book.at, x->book.length, x->index.at, x->index.length, record, tag, found);
    if (answer == WT_OUT_OF_TURN) return refuse_asked(x, record, tag);
    return answer == WT_DONE ? DONE : refuse_book(x, answer, found->place);
}

/* ---- what is printed of a value */

static void print_record(char number[24], uint64_t record)
{
    if (record == WT_HEADER) strcpy(number, "header");
    else snprintf(number, 24, "%" PRIu64, record);
}

/* The front of an object, up to its value. */
static void print_object(const struct command *c, uint64_t record, uint32_t tag)
{
    char number[24];
    print_record(number, record);
    fprintf(c->to, record == WT_HEADER ? "{\"record\":\"%s\"," : "{\"record\":%s,", number);
    print_tag(c, tag);
    fprintf(c->to, ",\"type\":\"%s\",\"value\":", type_words(tag));
}

static void print_found(const struct command *c, uint64_t record, uint32_t tag, const uint8_t *s, size_t n, int fields)
{
    char front[128] = "", number[24]; /* the longest name has 54 letters */
    const char *name = c->options & NAMES ? tag_name(tag) : NULL;
    if (c->options & JSON) {
        print_object(c, record, tag);
        print_json_value(c->to, tag, s, n);
        fputs("}\n", c->to);
        return;
    }
    print_record(number, record);
    if (fields && name) snprintf(front, sizeof front, "%s\t%s\t%s\t", number, name, type_words(tag));
    else if (fields) snprintf(front, sizeof front, "%s\t%08" PRIX32 "\t%s\t", number, tag, type_words(tag));
    print_value(c->to, front, tag, s, n);
}

/* ---- show */

static int show_header(const struct command *c, const struct indexed *x)
{
    uint32_t tags[WT_MOST_COLUMNS], flags[WT_MOST_COLUMNS], answer;
    wt_counted counted = { 0 };
    wt_found found = { 0 };
    uint64_t i;
    answer = wt_columns(x->book.at, x->book.length, 0, tags, flags, &counted);
    if (answer != WT_DONE) return refuse_book(x, answer, counted.place);
    for (i = 0; i < counted.count; i++) {
        answer = wt_lookup(x->book.at, x->book.length, WT_HEADER, tags[i], &found);
        if (answer != WT_DONE) return refuse_book(x, answer, found.place);
        if (found.present)
            print_found(c, WT_HEADER, tags[i], x->book.at + found.start, (size_t)(found.end - found.start), 1);
    }
    return DONE;
}

/* All values of a record, a lookup a column. */
static int show_record(const struct command *c, const struct indexed *x, uint64_t record)
{
    wt_found found = { 0 };
    uint32_t i, count = column_count(x);
    int result = DONE;
    for (i = 0; result == DONE && i < count; i++) {
        result = look(x, record, column_tag(x, i), &found);
        if (result == DONE && found.present)
            print_found(c, record, column_tag(x, i), x->book.at + found.start, (size_t)(found.end - found.start), 1);
    }
    return result;
}

/* Whether the record is there; through a saved index this judges the tables and the index, too. */
static int find_record(const struct indexed *x, uint64_t record)
{
    wt_start at = { 0 };
    uint32_t answer;
    if (record == WT_HEADER && !x->index_name) return DONE;
    answer = wt_index_entry(x->book.at, x->book.length, x->index.at, x->index.length, record, &at);
    if (answer == WT_OUT_OF_TURN) return refuse_asked(x, record, 0);
    return answer == WT_DONE ? DONE : refuse_book(x, answer, at.place);
}

/* Every record is looked for before the first one is printed. */
int run_show(const struct command *c)
{
    struct indexed x = { 0 };
    uint64_t *records = calloc(c->count, sizeof *records);
    size_t i;
    int result = records ? DONE : fail(c->name, "there is no memory");
    for (i = 1; result == DONE && i < c->count; i++) result = word_record(c->words[i], &records[i]);
    if (result == DONE) result = read_indexed(&x, c->words[0], c->index);
    for (i = 1; result == DONE && i < c->count; i++) result = find_record(&x, records[i]);
    for (i = 1; result == DONE && i < c->count; i++) {
        result = records[i] == WT_HEADER ? show_header(c, &x) : show_record(c, &x, records[i]);
        show_progress(c, i, c->count - 1, "records");
    }
    progress_ends();
    drop_indexed(&x);
    free(records);
    return result;
}

/* ---- get: a whole judging and no index, or a saved one */

static int look_whole(const struct indexed *x, uint64_t record, uint32_t tag, wt_found *found)
{
    uint32_t answer = wt_lookup(x->book.at, x->book.length, record, tag, found);
    if (answer == WT_OUT_OF_TURN) return refuse_missing(x->name, x->book.at, x->book.length, record, tag);
    return answer == WT_DONE ? DONE : refuse_book(x, answer, found->place);
}

int run_get(const struct command *c)
{
    struct indexed x = { 0 };
    wt_found found = { 0 };
    uint64_t record;
    uint32_t tag;
    int result = word_record(c->words[1], &record);
    if (result == DONE) result = word_tag(c->words[2], &tag);
    if (result == DONE && c->index) result = read_indexed(&x, c->words[0], c->index);
    else if (result == DONE) result = read_file(x.name = c->words[0], &x.book);
    if (result == DONE) result = c->index ? look(&x, record, tag, &found) : look_whole(&x, record, tag, &found);
    if (result == DONE) {
        const uint8_t *s = x.book.at + found.start;
        size_t n = (size_t)(found.end - found.start);
        if (!found.present) {
            note(c->words[0], "absent");
            result = ABSENT;
        } else if (c->options & RAW) {
            result = save(c->out ? c->out : "-", s, n);
        } else {
            print_found(c, record, tag, s, n, 0);
        }
    }
    drop_indexed(&x);
    return result;
}

/* ---- find */

/* What is looked for; with -i in small letters, as is a copy of the record that is searched. */
struct search {
    const struct command *c;
    struct indexed x;
    struct octets text, copy;
    int alike, tagged;
    uint32_t tag;
    uint64_t found;
};

static void make_small(uint8_t *s, size_t n)
{
    size_t i;
    for (i = 0; i < n; i++) s[i] = (uint8_t)(s[i] + (s[i] >= 'A' && s[i] <= 'Z' ? 'a' - 'A' : 0));
}

/* Where the text starts first from `at` on, in n octets; n + 1 where it doesn't. */
static size_t next_hit(const struct search *f, const uint8_t *s, size_t n, size_t at)
{
    const uint8_t *hit;
    if (f->text.length == 0) return at;
    hit = at < n ? memmem(s + at, n - at, f->text.at, f->text.length) : NULL;
    return hit ? (size_t)(hit - s) : n + 1;
}

static void print_text(const struct command *c, uint64_t record, uint32_t tag, const uint8_t *text, size_t n)
{
    const char *name = c->options & NAMES ? tag_name(tag) : NULL;
    if (c->options & JSON) print_object(c, record, tag);
    else if (name) fprintf(c->to, "%" PRIu64 "\t%s\t", record, name);
    else fprintf(c->to, "%" PRIu64 "\t%08" PRIX32 "\t", record, tag);
    print_words(c->to, tag, text, n, (c->options & JSON) != 0);
    fputs(c->options & JSON ? "}\n" : "\n", c->to);
}

/* The texts of a value that hold the text: `s` as it stands in the book, `searched` as it is searched. */
static void print_texts(struct search *f, uint64_t record, uint32_t tag, const uint8_t *s, size_t n,
    const uint8_t *searched)
{
    const uint8_t *text;
    size_t at = 0;
    long k;
    while ((k = next_text(tag, s, n, &at, &text)) >= 0) {
        if (next_hit(f, searched + (text - s), (size_t)k, 0) > (size_t)k) continue;
        f->found++;
        print_text(f->c, record, tag, text, (size_t)k);
    }
}

/* What is printed is a value that the library has looked up, where it stands; `searched` has the record's octets. */
static int find_value(struct search *f, uint64_t record, uint32_t tag, size_t start, const uint8_t *searched)
{
    wt_found found = { 0 };
    int result = look(&f->x, record, tag, &found);
    if (result == DONE && found.present)
        print_texts(f, record, tag, f->x.book.at + found.start, (size_t)(found.end - found.start),
            searched + (found.start - start));
    return result;
}

/* A record in whose octets the text starts somewhere, first at `hit`: the columns of text that can hold it, by a walk
 * over the values. The book is judged, so each value has its form. */
static int find_in_record(struct search *f, uint64_t record, size_t start, size_t size, const uint8_t *searched,
    size_t hit)
{
    const uint8_t *s = f->x.book.at + start;
    uint32_t i, count = column_count(&f->x);
    size_t at = 4 + (count + 7) / 8;
    int result = DONE;
    for (i = 0; result == DONE && hit <= size && i < count; i++) {
        uint32_t tag = column_tag(&f->x, i);
        size_t n;
        if (!(s[4 + i / 8] >> (7 - i % 8) & 1)) continue;
        n = value_size(tag, s + at, size - at);
        if (hit < at) hit = next_hit(f, searched, size, at);
        if (is_text(tag) && hit + f->text.length <= at + n) result = find_value(f, record, tag, start, searched);
        at += n;
    }
    return result;
}

/* Record by record, through the entries of the index that was made of the book. */
static int find_all(struct search *f)
{
    const struct indexed *x = &f->x;
    uint64_t k, count = number_at(x->book.at + 8);
    int result = DONE;
    for (k = 0; result == DONE && k < count; k++) {
        size_t start = number_at(x->index.at + WT_INDEX_FRONT + WT_INDEX_ENTRY * k);
        size_t size = number_at(x->book.at + start);
        const uint8_t *searched = x->book.at + start;
        size_t hit;
        show_progress(f->c, k, count, "records");
        if (f->alike) {
            f->copy.length = 0;
            if (!add(&f->copy, searched, size)) return fail(x->name, "%s", strerror(errno));
            make_small(f->copy.at, size);
            searched = f->copy.at;
        }
        hit = next_hit(f, searched, size, 0);
        if (hit > size) continue;
        if (f->tagged) result = find_value(f, k, f->tag, start, searched);
        else result = find_in_record(f, k, start, size, searched, hit);
    }
    progress_ends();
    return result;
}

/* The text in the one spelling, and the column, which must be one of text. */
static int read_search(struct search *f)
{
    const char *word = f->c->words[1];
    int spelled = unspell(&f->text, word);
    f->alike = (f->c->options & ALIKE) != 0;
    f->tagged = f->c->tag_count != 0;
    if (spelled < 0) return fail(f->c->name, "%s", strerror(errno));
    if (spelled == 0)
        return fail(word, "is spelled wrong: \\\\ is a backslash, \\xNN is an octet, nothing else starts with one");
    if (f->text.length && memchr(f->text.at, 0, f->text.length)) return fail(word, "has an octet 00, and no text has");
    if (f->alike) make_small(f->text.at, f->text.length);
    if (!f->tagged) return DONE;
    if (word_tag(f->c->tags[0], &f->tag) != DONE) return FAILED;
    return is_text(f->tag) ? DONE : fail(f->c->tags[0], "its values are no text");
}

static int has_column(const struct indexed *x, uint32_t tag)
{
    uint32_t i;
    for (i = 0; i < column_count(x); i++)
        if (column_tag(x, i) == tag) return 1;
    return 0;
}

int run_find(const struct command *c)
{
    struct search f = { 0 };
    int result;
    f.c = c;
    result = read_search(&f);
    if (result == DONE) result = read_indexed(&f.x, c->words[0], NULL);
    if (result == DONE && f.tagged && !has_column(&f.x, f.tag)) result = refuse_asked(&f.x, 0, f.tag);
    if (result == DONE) result = find_all(&f);
    if (result == DONE && f.found == 0) {
        note(c->words[0], "no value holds it");
        result = REFUSED;
    }
    drop_indexed(&f.x);
    drop(&f.text);
    drop(&f.copy);
    return result;
}

/* ---- index */

static int save_index(const struct command *c, const struct indexed *x, const char *to)
{
    if (strcmp(to, "-") != 0 && same_file(to, x->name)) return fail(to, "is the book itself");
    if (c->options & DRY) {
        note(to, "would be saved: %zu octets", x->index.length);
        return DONE;
    }
    return save(to, x->index.at, x->index.length);
}

int run_index(const struct command *c)
{
    static const char behind[] = ".index";
    struct indexed x = { 0 };
    size_t n = strlen(c->words[0]);
    char *beside = malloc(n + sizeof behind);
    int result = beside ? DONE : fail(c->name, "there is no memory");
    if (result == DONE && !c->out && strcmp(c->words[0], "-") == 0)
        result = fail("standard input", "has no name for its index: -o says where that goes");
    if (result == DONE) result = read_indexed(&x, c->words[0], NULL);
    if (result == DONE) {
        memcpy(beside, c->words[0], n);
        memcpy(beside + n, behind, sizeof behind);
        result = save_index(c, &x, c->out ? c->out : beside);
    }
    free(beside);
    drop_indexed(&x);
    return result;
}
