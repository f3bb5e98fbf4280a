/* The commands, and what the command line says to each. */
#ifndef OAB_COMMANDS_H
#define OAB_COMMANDS_H

#include "octets.h"
#include <stdio.h>

/* Options, a bit each. */
enum {
    OUT = 1, QUIET = 2, DRY = 4, JSON = 8, RAW = 16, EXIT = 32, NAMES = 64, INDEX = 128, TAG = 256, ALIKE = 512,
    LIKE = 1024, FLAGS = 2048
};

struct command {
    const char *name;
    size_t count; /* of the words, options taken out */
    char **words;
    unsigned options;
    const char *out;   /* -o: where the result goes, or null */
    const char *index; /* --index: where the saved index is, or null */
    const char *like;  /* --like: the book that a header and flags come from, or null */
    const char *flags; /* --flags: as it was written, or null */
    char **tags;       /* of each -t, as it was written */
    size_t tag_count;
    FILE *to;          /* where lines are printed */
};

/* A record's number or `header`; a tag. Says which word is at fault and answers FAILED, or DONE. */
int word_record(const char *word, uint64_t *record);
int word_tag(const char *word, uint32_t *tag);

/* 15 in words: whether the book lacks the record or the column. */
int refuse_missing(const char *what, const uint8_t *book, size_t octets, uint64_t record, uint32_t tag);

/* A tag as the options say: in hex, by its name, or both in JSON. */
void print_tag(const struct command *c, uint32_t tag);

/* How many of all are done, where lines don't show it: lines on a terminal are progress enough. */
void show_progress(const struct command *c, uint64_t done, uint64_t all, const char *things);

int run_check(const struct command *c);
int run_list(const struct command *c);
int run_columns(const struct command *c);
int run_show(const struct command *c);
int run_get(const struct command *c);
int run_find(const struct command *c);
int run_why(const struct command *c);
int run_export(const struct command *c);
int run_import(const struct command *c);
int run_index(const struct command *c);
int run_extract(const struct command *c);
int run_set(const struct command *c);
int run_clear(const struct command *c);
int run_insert(const struct command *c);
int run_delete(const struct command *c);
int run_apply(const struct command *c);

#endif
