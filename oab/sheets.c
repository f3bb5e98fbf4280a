/* The command export: chosen columns of the address records as comma-separated text. The library makes the text and
 * decides what can be chosen; here the tags are read, a refusal is put in words and the text is saved whole. */
#include "commands.h"
#include "files.h"
#include "saving.h"
#include "values.h"
#include "windtrellis.h"
#include "words.h"
#include <errno.h>
#include <inttypes.h>
#include <stdlib.h>
#include <string.h>

struct choice {
    uint32_t *tags;
    size_t count;
};

/* ---- the tags */

/* The tags of one -t, parted by commas. */
static int add_tags(struct choice *chosen, const char *list)
{
    char *copy = strdup(list), *word = copy, *comma;
    int result = copy ? DONE : fail(list, "%s", strerror(errno));
    while (result == DONE && word) {
        comma = strchr(word, ',');
        if (comma) *comma = 0;
        if (*word) result = word_tag(word, &chosen->tags[chosen->count++]);
        else result = fail("-t", "a tag is missing in '%s': tags are parted by one comma each", list);
        word = comma ? comma + 1 : NULL;
    }
    free(copy);
    return result;
}

/* All that are named, those of a second -t behind those of the first; each takes a letter and a comma or more. */
static int read_choice(const struct command *c, struct choice *chosen)
{
    size_t i, most = 0;
    int result = DONE;
    for (i = 0; i < c->tag_count; i++) most += strlen(c->tags[i]) / 2 + 1;
    chosen->tags = calloc(most, sizeof *chosen->tags);
    if (!chosen->tags) return fail(c->name, "%s", strerror(errno));
    for (i = 0; result == DONE && i < c->tag_count; i++) result = add_tags(chosen, c->tags[i]);
    return result;
}

/* ---- refusals in words */

static int can_be_exported(uint32_t tag)
{
    uint32_t type = tag & 0xffff;
    return type == 0x0003 || type == 0x000b || type == 0x001e || type == 0x001f;
}

/* The first tag that stands earlier in the choice. */
static uint32_t chosen_twice(const struct choice *chosen)
{
    size_t i, j;
    for (i = 0; i < chosen->count; i++)
        for (j = 0; j < i; j++)
            if (chosen->tags[j] == chosen->tags[i]) return chosen->tags[i];
    return 0;
}

/* 18 in words: a type, too many, or a tag that is there twice. */
static int refuse_choice(const char *name, const struct choice *chosen)
{
    char words[160];
    size_t i = 0;
    while (i < chosen->count && can_be_exported(chosen->tags[i])) i++;
    if (i < chosen->count)
        snprintf(words, sizeof words, "column %08" PRIX32 " can't be exported: its type is %s", chosen->tags[i],
            type_words(chosen->tags[i]));
    else if (chosen->count > WT_MOST_CHOSEN)
        snprintf(words, sizeof words, "%zu columns are chosen, and at most %u can be", chosen->count, WT_MOST_CHOSEN);
    else
        snprintf(words, sizeof words, "column %08" PRIX32 " is chosen twice", chosen_twice(chosen));
    return refuse(name, WT_BREAKS_FORM, 0, words);
}

/* 15 in words: the first tag that the address table hasn't. */
static int refuse_unknown(const char *name, const struct octets *book, const struct choice *chosen)
{
    uint32_t tags[WT_MOST_COLUMNS], flags[WT_MOST_COLUMNS];
    wt_counted counted = { 0 };
    uint64_t k = 0;
    size_t i;
    wt_columns(book->at, book->length, 1, tags, flags, &counted);
    for (i = 0; i + 1 < chosen->count; i++) {
        for (k = 0; k < counted.count && tags[k] != chosen->tags[i]; k++) continue;
        if (k == counted.count) break;
    }
    return refuse_missing(name, book->at, book->length, 0, chosen->tags[i]);
}

static int refuse_sheet(const char *name, const struct octets *book, const struct choice *chosen, uint32_t answer,
    uint64_t place)
{
    if (answer == WT_OUT_OF_TURN) return refuse_unknown(name, book, chosen);
    if (answer == WT_BREAKS_FORM) return refuse_choice(name, chosen);
    return refuse(name, answer, place, wt_words(answer));
}

/* ---- the sheet */

static int make_sheet(const char *name, const struct octets *book, const struct choice *chosen, struct octets *text)
{
    wt_length made = { 0 };
    uint32_t answer = wt_sheet_length(book->at, book->length, chosen->tags, chosen->count, &made);
    if (answer == WT_DONE && !grow(text, (size_t)made.length)) return fail(name, "%s", strerror(errno));
    if (answer == WT_DONE)
        answer = wt_sheet(book->at, book->length, chosen->tags, chosen->count, text->at, (size_t)made.length, &made);
    text->length = (size_t)made.length;
    return answer == WT_DONE ? DONE : refuse_sheet(name, book, chosen, answer, made.place);
}

int run_export(const struct command *c)
{
    struct octets book = { 0 }, text = { 0 };
    struct choice chosen = { 0 };
    const char *to = c->out ? c->out : "-";
    int result = read_choice(c, &chosen);
    if (result == DONE) result = read_file(c->words[0], &book);
    if (result == DONE) result = make_sheet(c->words[0], &book, &chosen, &text);
    if (result == DONE && strcmp(to, "-") != 0 && same_file(to, c->words[0])) result = fail(to, "is the book itself");
    if (result == DONE) result = save(to, text.at, text.length);
    free(chosen.tags);
    drop(&book);
    drop(&text);
    return result;
}
