/* The command import: a book from a sheet. The library reads the text and writes the book; here the header table, the
 * header record and the flags are taken from another book, a refusal is put in words, the new book is saved whole. */
#include "commands.h"
#include "faults.h"
#include "files.h"
#include "saving.h"
#include "values.h"
#include "words.h"
#include <errno.h>
#include <inttypes.h>
#include <stdlib.h>
#include <string.h>

/* A book at the limit has a sheet of some 540 million octets at the most: each quote in it is written twice. */
#define MOST_SHEET ((size_t)1 << 30)

struct table {
    uint32_t tags[WT_MOST_COLUMNS], flags[WT_MOST_COLUMNS];
    size_t count;
};

/* All that is handed to the library. */
struct import {
    struct octets text;
    struct table header, address; /* of the book that it is to be like */
    const uint8_t *record;        /* the header record */
    size_t record_octets;
    struct columns columns;       /* of the sheet */
    uint32_t *flags;
    size_t flag_count;
};

/* ---- the book that it is to be like */

static void read_table(const struct octets *book, uint32_t address, struct table *t)
{
    wt_counted counted = { 0 };
    wt_columns(book->at, book->length, address, t->tags, t->flags, &counted);
    t->count = (size_t)counted.count;
}

static int read_like(const char *name, const struct octets *book, struct import *in)
{
    wt_judged j = { 0 };
    uint32_t answer = wt_judge(book->at, book->length, &j);
    if (answer != WT_DONE) return refuse(name, answer, j.place, wt_words(answer));
    read_table(book, 0, &in->header);
    read_table(book, 1, &in->address);
    in->record = book->at + j.header;
    in->record_octets = number_at(in->record);
    return DONE;
}

/* ---- flags */

/* As `columns` prints them, or a number. */
static int word_flags(char *word, uint32_t *flags)
{
    uint64_t number;
    char *blank;
    int good = 1;
    *flags = 0;
    if (read_number(word, UINT32_MAX, &number)) {
        *flags = (uint32_t)number;
        return 1;
    }
    while (good && word) {
        blank = strchr(word, ' ');
        if (blank) *blank = 0;
        if (strcmp(word, "index") == 0) *flags |= 1;
        else if (strcmp(word, "key") == 0) *flags |= 2;
        else good = 0;
        word = blank ? blank + 1 : NULL;
    }
    return good;
}

static int flags_in_words(const char *list, struct import *in)
{
    char *copy = strdup(list), *word = copy, *comma;
    int result = DONE;
    in->flags = copy ? calloc(strlen(list) + 1, sizeof *in->flags) : NULL;
    if (!in->flags) result = fail("--flags", "%s", strerror(errno));
    while (result == DONE && word) {
        comma = strchr(word, ',');
        if (comma) *comma = 0;
        if (!word_flags(word, &in->flags[in->flag_count++]))
            result = fail("--flags", "flags are index, key, 'index key' or a number, a comma between two columns");
        word = comma ? comma + 1 : NULL;
    }
    free(copy);
    return result;
}

/* Those of the other book under the whole tag; none where it hasn't the column. */
static int flags_alike(const struct table *address, struct import *in)
{
    const struct columns *columns = &in->columns;
    size_t i, k;
    in->flag_count = columns->count;
    in->flags = calloc(columns->count + 1, sizeof *in->flags);
    if (!in->flags) return fail("--like", "%s", strerror(errno));
    for (i = 0; i < columns->count; i++)
        for (k = 0; k < address->count; k++)
            if (address->tags[k] == columns->tags[i]) in->flags[i] = address->flags[k];
    return DONE;
}

/* ---- refusals in words */

static int can_be_exported(uint32_t tag)
{
    uint32_t type = tag & 0xffff;
    return type == 0x0003 || type == 0x000b || type == 0x001e || type == 0x001f;
}

static void describe_type(const struct columns *columns, char *words, size_t most)
{
    size_t i = 0;
    while (i + 1 < columns->count && can_be_exported(columns->tags[i])) i++;
    snprintf(words, most, "column %08" PRIX32 " can't come from a sheet: its type is %s", columns->tags[i],
        type_words(columns->tags[i]));
}

/* Room that is always enough: a value takes no more than its field and what ends it, a record six octets more. */
static size_t room_for(const struct import *in)
{
    const uint8_t *s = in->text.at, *end = s + in->text.length;
    size_t lines = 0;
    while (s < end && (s = memchr(s, '\n', (size_t)(end - s))) != NULL) {
        lines++;
        s++;
    }
    return in->text.length + 6 * lines + 24 + 8 * (in->header.count + WT_MOST_CHOSEN) + in->record_octets;
}

static int refuse_import(const char *name, struct import *in, uint32_t answer, uint64_t place)
{
    char words[200];
    const struct columns *columns = &in->columns;
    snprintf(words, sizeof words, "%s", wt_words(answer));
    if (answer == WT_WRONG_SHEET)
        describe_fault(&in->text, columns, (size_t)place, words, sizeof words);
    else if (answer == WT_OUT_OF_TURN)
        snprintf(words, sizeof words, "the sheet has %zu column%s, and --flags has %zu", columns->count,
            plural(columns->count), in->flag_count);
    else if (answer == WT_BREAKS_FORM)
        describe_type(columns, words, sizeof words);
    else if (answer == WT_REPEATED_TAG && place >= WT_MOST_COLUMNS && place - WT_MOST_COLUMNS < columns->count)
        snprintf(words, sizeof words, "column %08" PRIX32 " stands twice in the first line",
            columns->tags[place - WT_MOST_COLUMNS]);
    else if (answer == WT_BREAKS_RULE && room_for(in) <= WT_MOST_OCTETS)
        describe_rule(&in->text, columns, words, sizeof words);
    return refuse(name, answer, place, words);
}

/* ---- the book */

static int make_book(const char *name, struct import *in, struct octets *book)
{
    wt_length made = { 0 };
    size_t room = room_for(in);
    uint32_t answer;
    if (room > WT_MOST_OCTETS) room = WT_MOST_OCTETS;
    if (!grow(book, room)) return fail(name, "%s", strerror(errno));
    answer = wt_from_sheet(in->text.at, in->text.length, in->flags, in->flag_count, in->header.tags, in->header.count,
        in->header.flags, in->header.count, in->record, in->record_octets, book->at, room, &made);
    book->length = (size_t)made.length;
    return answer == WT_DONE ? DONE : refuse_import(name, in, answer, made.place);
}

static int read_sheet(const char *name, struct import *in)
{
    int result = read_up_to(name, &in->text, MOST_SHEET + 1);
    if (result == DONE && in->text.length > MOST_SHEET)
        result = fail(name, "is longer than 1,073,741,824 octets, and no book's sheet is");
    if (result == DONE) read_columns(&in->text, &in->columns);
    return result;
}

static int save_book(const struct command *c, const struct octets *book)
{
    if (!(c->options & DRY)) return save(c->out, book->at, book->length);
    note(c->out, "would be saved: %zu octets", book->length);
    return DONE;
}

/* The other book is locked where the new one takes its place. */
static int import_like(const struct command *c, struct import *in)
{
    struct octets like = { 0 }, book = { 0 };
    struct opened b = { .fd = -1 };
    const char *sheet = c->words[0];
    int result = open_book(&b, c->like, strcmp(c->out, "-") != 0 && same_file(c->out, c->like));
    if (result != DONE) return result;
    result = read_opened(&b, &like);
    if (result == DONE) result = read_like(c->like, &like, in);
    if (result == DONE) result = read_sheet(sheet, in);
    if (result == DONE && !c->flags) result = flags_alike(&in->address, in);
    in->columns.flags = in->flags;
    if (result == DONE) result = make_book(sheet, in, &book);
    if (result == DONE) result = save_book(c, &book);
    close_book(&b);
    drop(&like);
    drop(&book);
    return result;
}

int run_import(const struct command *c)
{
    struct import in = { 0 };
    const char *sheet = c->words[0];
    int result = DONE;
    if (strcmp(c->like, "-") == 0 && strcmp(sheet, "-") == 0)
        return fail(c->name, "standard input can't be both the book and the sheet");
    if (strcmp(c->out, "-") != 0 && same_file(c->out, sheet)) return fail(c->out, "is the sheet itself");
    if (c->flags) result = flags_in_words(c->flags, &in);
    if (result == DONE) result = import_like(c, &in);
    free(in.flags);
    drop(&in.text);
    return result;
}
