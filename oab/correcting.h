/* Corrections: one or many, all or nothing, saved once. */
#ifndef OAB_CORRECTING_H
#define OAB_CORRECTING_H

#include "commands.h"

enum correction_kind { SET, CLEAR, INSERT, DELETE };

struct correction {
    enum correction_kind kind;
    uint64_t record;
    uint32_t tag;
    struct octets offered; /* a value's encoding, or a record */
    size_t line;           /* of the file that it was read from, or 0 */
};

/* All of them, one after the other, in the book that the command names. `from` is the file that lines were read from,
 * or null. Nothing is saved where one is refused, or where nothing changes. */
int correct(const struct command *c, const char *from, struct correction *all, size_t count);

#endif
