/* Words: what is said on standard error, the exit status beside it, and how far a long run is. */
#ifndef OAB_WORDS_H
#define OAB_WORDS_H

#include <stddef.h>
#include <stdint.h>

/* Exit status: done, or yes; refused, or no; usage or system error; with -e a value is absent. */
enum { DONE = 0, REFUSED = 1, FAILED = 2, ABSENT = 3 };

/* The refusal's words; "refused" for a number that has none. */
const char *wt_words(uint32_t number);

/* -q: notes and progress are not said. */
void be_quiet(void);

/* Each says one whole line, "oab: WHAT: ..", in which nothing can steer a terminal; what may be null. */
#define LIKE_PRINTF(at, rest) __attribute__((format(printf, at, rest)))
int fail(const char *what, const char *format, ...) LIKE_PRINTF(2, 3);
int refuse(const char *what, uint32_t number, uint64_t place, const char *words);
void note(const char *what, const char *format, ...) LIKE_PRINTF(2, 3);

/* While lines of a file are worked off, what is said names the file and the line; 0: no more. */
void at_line(const char *file, size_t number);

/* On a terminal, once a second has passed: how many of all are done. progress_ends wipes it out. */
void progress(uint64_t done, uint64_t all, const char *things);
void progress_ends(void);

/* "1 record", "2 records" */
const char *plural(uint64_t number);

#endif
