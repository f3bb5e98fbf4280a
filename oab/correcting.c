/* The commands that correct a book: set, clear, insert, delete; and what apply shares with them. */
#include "correcting.h"
#include "files.h"
#include "saving.h"
#include "tags.h"
#include "values.h"
#include "windtrellis.h"
#include "words.h"
#include <errno.h>
#include <inttypes.h>
#include <string.h>

/* ---- words that name a record or a column */

/* The greatest number is the header record's name in the library, so it is no number of an address record here. */
int word_record(const char *word, uint64_t *record)
{
    *record = WT_HEADER;
    if (strcmp(word, "header") == 0 || read_number(word, WT_HEADER - 1, record)) return DONE;
    return fail(word, "is neither a record's number nor 'header'");
}

int word_tag(const char *word, uint32_t *tag)
{
    if (read_tag(word, tag)) return DONE;
    return fail(word, "is no tag: neither eight hex digits nor a name of MS-OXOAB's tables");
}

int refuse_missing(const char *what, const uint8_t *book, size_t octets, uint64_t record, uint32_t tag)
{
    char words[160];
    wt_judged j = { 0 };
    if (wt_judge(book, octets, &j) == WT_DONE && record != WT_HEADER && record >= j.count)
        snprintf(words, sizeof words, "there is no record %" PRIu64 ": the book has %" PRIu64 " record%s, from 0 on",
            record, j.count, plural(j.count));
    else
        snprintf(words, sizeof words, "there is no column %08" PRIX32 " in the %s table", tag,
            record == WT_HEADER ? "header" : "address");
    return refuse(what, WT_OUT_OF_TURN, 0, words);
}

/* ---- corrections in memory */

/* The book at the front of the buffer, corrected; its length becomes the new one. */
static uint32_t perform(struct octets *book, const struct correction *r, wt_length *made)
{
    const struct octets *o = &r->offered;
    size_t room = book->length + o->length;
    uint32_t answer;
    switch (r->kind) {
    case SET: answer = wt_set(book->at, room, book->length, r->record, r->tag, o->at, o->length, made); break;
    case CLEAR: answer = wt_clear(book->at, room, book->length, r->record, r->tag, made); break;
    case INSERT: answer = wt_insert(book->at, room, book->length, r->record, o->at, o->length, made); break;
    default: answer = wt_delete(book->at, room, book->length, r->record, made); break;
    }
    if (answer == WT_DONE) book->length = (size_t)made->length;
    return answer;
}

static int refuse_correction(const char *name, const char *from, const struct octets *book, const struct correction *r,
    uint32_t answer, uint64_t place)
{
    const char *what = from ? NULL : name;
    int result;
    at_line(from, r->line);
    if (answer == WT_OUT_OF_TURN) result = refuse_missing(what, book->at, book->length, r->record, r->tag);
    else result = refuse(what, answer, place, wt_words(answer));
    at_line(NULL, 0);
    return result;
}

/* A book that is refused itself is named without a line. */
static int perform_all(const char *name, const char *from, struct octets *book, struct correction *all, size_t count)
{
    wt_judged j = { 0 };
    wt_length made = { 0 };
    size_t i;
    uint32_t answer = wt_judge(book->at, book->length, &j);
    if (answer != WT_DONE) return refuse(name, answer, j.place, wt_words(answer));
    for (i = 0; i < count; i++) {
        if (!grow(book, all[i].offered.length + 1)) return fail(name, "%s", strerror(errno));
        answer = perform(book, &all[i], &made);
        if (answer != WT_DONE) return refuse_correction(name, from, book, &all[i], answer, made.place);
        progress(i + 1, count, "corrections");
    }
    progress_ends();
    return DONE;
}

/* ---- the book in its file */

/* -n: what would be saved, and where. */
static int tell(const struct command *c, const struct octets *old, const struct octets *book, int changed)
{
    if (c->out)
        note(c->out, "would be saved: %zu octets", book->length);
    else if (!changed)
        note(c->words[0], "nothing would change");
    else
        note(c->words[0], "would be saved: %zu octets become %zu", old->length, book->length);
    return DONE;
}

static int finish(const struct command *c, struct opened *b, const struct octets *old, const struct octets *book)
{
    int changed = c->out || old->length != book->length || memcmp(old->at, book->at, old->length) != 0;
    if (c->options & DRY) return tell(c, old, book, changed);
    if (c->out) return save(c->out, book->at, book->length);
    if (!changed) return DONE;
    if (S_ISREG(b->is.st_mode)) return save(b->path, book->at, book->length);
    close_book(b);
    return save(b->name, book->at, book->length);
}

/* The old book is kept beside the new one where it is asked whether anything changed. */
int correct(const struct command *c, const char *from, struct correction *all, size_t count)
{
    struct octets book = { 0 }, old = { 0 };
    struct opened b = { .fd = -1 };
    const char *name = c->words[0];
    int result = open_book(&b, name, !c->out || same_file(c->out, name));
    if (result != DONE) return result;
    result = read_opened(&b, &book);
    if (result == DONE && !c->out && !add(&old, book.at, book.length)) result = fail(name, "%s", strerror(errno));
    if (result == DONE) result = perform_all(name, from, &book, all, count);
    if (result == DONE) result = finish(c, &b, &old, &book);
    close_book(&b);
    drop(&book);
    drop(&old);
    return result;
}

/* ---- the commands */

/* The book and the standard input may not both be wanted from -. */
static int one_reader(const struct command *c, const char *other)
{
    if (strcmp(c->words[0], "-") == 0 && strcmp(other, "-") == 0)
        return fail(c->name, "standard input can't be both the book and what is offered");
    return DONE;
}

static int offered_value(const struct command *c, struct correction *r)
{
    size_t fault;
    const char *why;
    int result = DONE;
    if (c->options & RAW) {
        if (c->count > 3) return fail(c->words[3], "is one word too many: --raw reads the value from standard input");
        result = one_reader(c, "-");
        return result == DONE ? read_file("-", &r->offered) : result;
    }
    if (c->count < 4) return fail(c->name, "the value is missing");
    why = encode(&r->offered, r->tag, c->words + 3, c->count - 3, &fault);
    return why ? fail(c->words[3 + fault], "%s (%s)", why, type_words(r->tag)) : DONE;
}

int run_set(const struct command *c)
{
    struct correction r = { .kind = SET };
    int result = word_record(c->words[1], &r.record);
    if (result == DONE) result = word_tag(c->words[2], &r.tag);
    if (result == DONE) result = offered_value(c, &r);
    if (result == DONE) result = correct(c, NULL, &r, 1);
    drop(&r.offered);
    return result;
}

int run_clear(const struct command *c)
{
    struct correction r = { .kind = CLEAR };
    int result = word_record(c->words[1], &r.record);
    if (result == DONE) result = word_tag(c->words[2], &r.tag);
    return result == DONE ? correct(c, NULL, &r, 1) : result;
}

static int word_place(const char *word, uint64_t *record)
{
    return read_number(word, WT_HEADER - 1, record) ? DONE : fail(word, "is no record's number");
}

int run_insert(const struct command *c)
{
    struct correction r = { .kind = INSERT };
    int result = word_place(c->words[1], &r.record);
    if (result == DONE) result = one_reader(c, c->words[2]);
    if (result == DONE) result = read_file(c->words[2], &r.offered);
    if (result == DONE) result = correct(c, NULL, &r, 1);
    drop(&r.offered);
    return result;
}

int run_delete(const struct command *c)
{
    struct correction r = { .kind = DELETE };
    int result = word_place(c->words[1], &r.record);
    return result == DONE ? correct(c, NULL, &r, 1) : result;
}
