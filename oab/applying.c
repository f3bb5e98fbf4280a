/* The command apply: a file of corrections, a line each. The words of a line are parted by blanks, spaces or tabs; what
 * stands behind the one blank that follows the tag is the value, and the elements of a list are parted by tabs. */
#include "correcting.h"
#include "files.h"
#include "values.h"
#include "words.h"
#include <errno.h>
#include <stdlib.h>
#include <string.h>

struct corrections {
    struct correction *at;
    size_t count, room;
};

static int add_correction(struct corrections *all, const struct correction *r)
{
    if (all->count == all->room) {
        size_t room = all->room ? 2 * all->room : 64;
        struct correction *at = realloc(all->at, room * sizeof *at);
        if (!at) return 0;
        all->at = at;
        all->room = room;
    }
    all->at[all->count++] = *r;
    return 1;
}

/* The next word of a line, and what stands behind the one blank that ends it; null where the line has ended. */
static char *next_word(char **rest)
{
    char *word = *rest, *end;
    if (!word) return NULL;
    word += strspn(word, " \t");
    if (!*word) return NULL;
    end = word + strcspn(word, " \t");
    *rest = *end ? end + 1 : NULL;
    *end = 0;
    return word;
}

/* The words of a value: parted by tabs. The array is the caller's to free; null: there is no memory. */
static char **value_words(char *rest, size_t *count)
{
    size_t i, n = 1;
    char **words;
    for (i = 0; rest[i]; i++) n += rest[i] == '\t';
    words = calloc(n, sizeof *words);
    if (!words) return NULL;
    for (*count = 0; *count < n; ++*count) {
        words[*count] = rest;
        rest += strcspn(rest, "\t");
        *rest++ = 0;
    }
    return words;
}

static int read_value(struct correction *r, char *rest)
{
    size_t count = 0, fault = 0;
    char **words;
    const char *why;
    int result = DONE;
    if (!rest) return fail(NULL, "the value is missing");
    words = value_words(rest, &count);
    if (!words) return fail(NULL, "%s", strerror(errno));
    why = encode(&r->offered, r->tag, words, count, &fault);
    if (why) result = fail(words[fault], "%s (%s)", why, type_words(r->tag));
    free(words);
    return result;
}

static int read_names(struct correction *r, char **rest)
{
    char *record = next_word(rest), *tag = r->kind == DELETE ? NULL : next_word(rest);
    int result;
    if (!record || (!tag && r->kind != DELETE)) return fail(NULL, "the %s is missing", record ? "tag" : "record");
    if (r->kind == DELETE)
        return read_number(record, UINT64_MAX - 1, &r->record) ? DONE : fail(record, "is no record's number");
    result = word_record(record, &r->record);
    return result == DONE ? word_tag(tag, &r->tag) : result;
}

static int read_line(struct correction *r, char *line)
{
    char *rest = line, *what = next_word(&rest);
    int result;
    if (strcmp(what, "set") == 0) r->kind = SET;
    else if (strcmp(what, "clear") == 0) r->kind = CLEAR;
    else if (strcmp(what, "delete") == 0) r->kind = DELETE;
    else return fail(what, "is neither set nor clear nor delete");
    result = read_names(r, &rest);
    if (result != DONE) return result;
    if (r->kind == SET) return read_value(r, rest);
    rest = next_word(&rest);
    return rest ? fail(rest, "is one word too many") : DONE;
}

/* One line, its end already a 00. Empty ones and those that start with # say nothing. */
static int take_line(struct corrections *all, char *line, size_t n, size_t number)
{
    struct correction r = { .line = number };
    int result;
    if (memchr(line, 0, n)) return fail(NULL, "has an octet 00");
    if (n && line[n - 1] == '\r') line[n - 1] = 0;
    if (line[0] == '#' || line[strspn(line, " \t")] == 0) return DONE;
    result = read_line(&r, line);
    if (result == DONE && !add_correction(all, &r)) result = fail(NULL, "%s", strerror(errno));
    if (result != DONE) drop(&r.offered);
    return result;
}

static int take_lines(struct corrections *all, const char *from, struct octets *text)
{
    char *at = (char *)text->at, *end = at + text->length;
    size_t number = 0;
    int result = DONE;
    if (end - at >= 3 && memcmp(at, "\xef\xbb\xbf", 3) == 0) at += 3;
    while (result == DONE && at < end) {
        char *stop = memchr(at, '\n', (size_t)(end - at));
        if (!stop) stop = end;
        *stop = 0;
        at_line(from, ++number);
        result = take_line(all, at, (size_t)(stop - at), number);
        at = stop + 1;
    }
    at_line(NULL, 0);
    return result;
}

int run_apply(const struct command *c)
{
    const char *file = c->count > 1 ? c->words[1] : "-", *from = strcmp(file, "-") == 0 ? "standard input" : file;
    struct octets text = { 0 };
    struct corrections all = { 0 };
    size_t i;
    int result = DONE;
    if (strcmp(file, "-") == 0 && strcmp(c->words[0], "-") == 0)
        return fail(c->name, "standard input can't be both the book and the corrections");
    result = read_file(file, &text);
    if (result == DONE && text.length == MOST_READ) result = fail(from, "is longer than 268,435,456 octets");
    if (result == DONE && !grow(&text, 1)) result = fail(from, "%s", strerror(errno));
    if (result == DONE) result = take_lines(&all, from, &text);
    if (result == DONE) result = correct(c, from, all.at, all.count);
    for (i = 0; i < all.count; i++) drop(&all.at[i].offered);
    free(all.at);
    drop(&text);
    return result;
}
