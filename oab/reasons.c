/* The command why: the reason that the library gives for a missing value, as a line for programs, and in words. */
#include "commands.h"
#include "files.h"
#include "tags.h"
#include "windtrellis.h"
#include "words.h"
#include <inttypes.h>

struct question {
    uint64_t record;
    uint32_t tag;
};

enum { TAG_ROOM = 64, RECORD_ROOM = 32 }; /* the longest name has 54 letters */

static const char *reason_word(const wt_reason *r)
{
    switch (r->reason) {
    case WT_OTHER_TYPE: return "other-type";
    case WT_NO_COLUMN: return "no-column";
    case WT_LISTED: return "truncated";
    default: return "absent";
    }
}

/* ---- in words */

static void put_record(char word[RECORD_ROOM], uint64_t record)
{
    if (record == WT_HEADER) snprintf(word, RECORD_ROOM, "the header record");
    else snprintf(word, RECORD_ROOM, "record %" PRIu64, record);
}

static void put_tag(char word[TAG_ROOM], const struct command *c, uint32_t tag)
{
    const char *name = c->options & NAMES ? tag_name(tag) : NULL;
    if (name) snprintf(word, TAG_ROOM, "%s", name);
    else snprintf(word, TAG_ROOM, "%08" PRIX32, tag);
}

static void say_reason(const struct command *c, const struct question *q, const wt_reason *r)
{
    const char *table = q->record == WT_HEADER ? "header" : "address";
    char record[RECORD_ROOM], tag[TAG_ROOM], other[TAG_ROOM];
    put_record(record, q->record);
    put_tag(tag, c, q->tag);
    put_tag(other, c, (uint32_t)r->tag);
    switch (r->reason) {
    case WT_OTHER_TYPE:
        note(c->words[0], "there is no column %s in the %s table, but %s, of another type (row at %" PRIu64 ")", tag,
            table, other, r->shown);
        break;
    case WT_NO_COLUMN:
        note(c->words[0], "there is no column %s in the %s table, nor one of another type", tag, table);
        break;
    case WT_LISTED:
        note(c->words[0], "%s has no value of %s and lists it as truncated (presence octet at %" PRIu64 ")",
            record, tag, r->shown);
        break;
    default:
        note(c->words[0], "%s has no value of %s and doesn't list it as truncated (presence octet at %" PRIu64 ")",
            record, tag, r->shown);
    }
}

/* 18 is the library's number for a value that is there. */
static int refuse_question(const struct command *c, const struct octets *book, const struct question *q,
    uint32_t answer, uint64_t place)
{
    char words[160], record[RECORD_ROOM], tag[TAG_ROOM];
    if (answer == WT_OUT_OF_TURN) return refuse_missing(c->words[0], book->at, book->length, q->record, q->tag);
    if (answer != WT_BREAKS_FORM) return refuse(c->words[0], answer, place, wt_words(answer));
    put_record(record, q->record);
    put_tag(tag, c, q->tag);
    snprintf(words, sizeof words, "%s has a value of %s: nothing is missing", record, tag);
    return refuse(c->words[0], answer, place, words);
}

/* ---- what is printed */

static void print_object(const struct command *c, const struct question *q, const wt_reason *r)
{
    const char *name = r->reason == WT_OTHER_TYPE ? tag_name((uint32_t)r->tag) : NULL;
    fprintf(c->to, q->record == WT_HEADER ? "{\"record\":\"header\"," : "{\"record\":%" PRIu64 ",", q->record);
    print_tag(c, q->tag);
    fprintf(c->to, ",\"reason\":\"%s\",\"place\":%" PRIu64, reason_word(r), r->shown);
    fprintf(c->to, r->reason == WT_OTHER_TYPE ? ",\"other\":\"%08" PRIX64 "\"" : ",\"other\":null", r->tag);
    fprintf(c->to, name ? ",\"other_name\":\"%s\"}\n" : ",\"other_name\":null}\n", name);
}

static void print_line(const struct command *c, const wt_reason *r)
{
    fputs(reason_word(r), c->to);
    if (r->reason == WT_OTHER_TYPE) {
        putc(' ', c->to);
        print_tag(c, (uint32_t)r->tag);
    }
    fprintf(c->to, " %" PRIu64 "\n", r->shown);
}

int run_why(const struct command *c)
{
    struct octets book = { 0 };
    struct question q = { 0 };
    wt_reason r = { 0 };
    int result = word_record(c->words[1], &q.record);
    if (result == DONE) result = word_tag(c->words[2], &q.tag);
    if (result == DONE) result = read_file(c->words[0], &book);
    if (result == DONE) {
        uint32_t answer = wt_why(book.at, book.length, q.record, q.tag, &r);
        if (answer != WT_DONE) result = refuse_question(c, &book, &q, answer, r.place);
    }
    if (result == DONE) {
        say_reason(c, &q, &r);
        if (c->options & JSON) print_object(c, &q, &r);
        else print_line(c, &r);
    }
    drop(&book);
    return result;
}
