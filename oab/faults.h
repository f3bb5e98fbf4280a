/* What is wrong with a text that isn't a sheet, or that no book comes from, in words. */
#ifndef OAB_FAULTS_H
#define OAB_FAULTS_H

#include "octets.h"
#include "windtrellis.h"

/* The first line's columns, and the flags for them. */
struct columns {
    uint32_t tags[WT_MOST_CHOSEN];
    size_t count;          /* of the tags, up to the first that isn't one */
    const uint32_t *flags; /* as many as there are tags, where the library has taken them */
};

/* The tags of the first line, as far as they are tags. */
void read_columns(const struct octets *text, struct columns *columns);

/* 20 at a place: its line and column, from 1, and behind the first line the field and its tag; then what is wrong. A
 * line ends at its LF, also inside quotes, and a column is an octet of it. */
void describe_fault(const struct octets *text, const struct columns *columns, size_t place, char *words, size_t most);

/* 16, where the book wouldn't be too long: no line, too many, or a key without a value. */
void describe_rule(const struct octets *text, const struct columns *columns, char *words, size_t most);

#endif
