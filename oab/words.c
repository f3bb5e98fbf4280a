/* Words: everything that goes to standard error, one whole line at a time, safe for a terminal; and progress. */
#include "words.h"
#include "spelling.h"
#include <inttypes.h>
#include <stdarg.h>
#include <stdio.h>
#include <stdlib.h>
#include <string.h>
#include <time.h>
#include <unistd.h>

static int quiet;
static const char *file;
static size_t line;

const char *wt_words(uint32_t number)
{
    static const char *const words[] = {
        "done",
        "the book is longer than 268,435,456 octets",
        "the book ends inside its header, a metadata field or a record's size",
        "the version isn't 4 (20 in hex)",
        "the metadata's size isn't that of its two tables",
        "a table has more than 128 columns",
        "a tag's type isn't among the ten",
        "a tag stands twice in one table",
        "a record's size is too small or passes the book's end",
        "a spare presence bit is set",
        "a key column has no value",
        "a value breaks its form or passes its record's end",
        "octets are left at a record's end",
        "the count isn't 1 to 65,535, or isn't that of the records",
        "the serial differs",
        "there is no such record or column",
        "the result would break a rule on keys, count or length",
        "there is no room for the result",
        "what is offered breaks its form",
        "the index isn't the book's, or its entry lies outside the book",
        "the text isn't a sheet",
    };
    return number < sizeof words / sizeof *words ? words[number] : "refused";
}

void be_quiet(void)
{
    quiet = 1;
}

void at_line(const char *name, size_t number)
{
    file = name;
    line = number;
}

const char *plural(uint64_t number)
{
    return number == 1 ? "" : "s";
}

static void name_it(FILE *to, const char *name)
{
    spell(to, (const uint8_t *)name, strlen(name), IN_WORDS);
    fputs(": ", to);
}

/* Made in memory and written at once, so that lines of many commands stay whole. */
static void say(const char *what, const char *rest)
{
    char *text = NULL;
    size_t n = 0, at = 0;
    FILE *to = open_memstream(&text, &n);
    if (!to) return;
    progress_ends();
    fputs("oab: ", to);
    if (line) name_it(to, file);
    if (line) fprintf(to, "line %zu: ", line);
    if (what) name_it(to, what);
    spell(to, (const uint8_t *)rest, strlen(rest), IN_WORDS);
    putc('\n', to);
    if (fclose(to) == 0)
        while (at < n) {
            ssize_t k = write(2, text + at, n - at);
            if (k <= 0) break;
            at += (size_t)k;
        }
    free(text);
}

static void say_as(const char *what, const char *format, va_list rest)
{
    char *text = NULL;
    size_t n = 0;
    FILE *to = open_memstream(&text, &n);
    if (!to) return;
    vfprintf(to, format, rest);
    if (fclose(to) == 0) say(what, text);
    free(text);
}

int fail(const char *what, const char *format, ...)
{
    va_list rest;
    va_start(rest, format);
    say_as(what, format, rest);
    va_end(rest);
    return FAILED;
}

void note(const char *what, const char *format, ...)
{
    va_list rest;
    if (quiet) return;
    va_start(rest, format);
    say_as(what, format, rest);
    va_end(rest);
}

int refuse(const char *what, uint32_t number, uint64_t place, const char *words)
{
    fail(what, "refused %" PRIu32 " at %" PRIu64 ": %s", number, place, words);
    return REFUSED;
}

/* ---- progress */

static double started, shown;

static double now(void)
{
    struct timespec t;
    clock_gettime(CLOCK_MONOTONIC, &t);
    return (double)t.tv_sec + (double)t.tv_nsec / 1e9;
}

/* Asked once: it would be asked for every record. */
static int on_terminal(void)
{
    static int known, yes;
    if (!known) yes = isatty(2);
    known = 1;
    return yes;
}

void progress(uint64_t done, uint64_t all, const char *things)
{
    double t;
    if (quiet || !on_terminal()) return;
    t = now();
    if (started == 0) started = t;
    if (t - started < 1 || t - shown < 0.1) return;
    shown = t;
    fprintf(stderr, "\r\033[Koab: %" PRIu64 " of %" PRIu64 " %s", done, all, things);
    fflush(stderr);
}

void progress_ends(void)
{
    if (shown != 0) fputs("\r\033[K", stderr);
    shown = 0;
}
