/* oab: offline address books on the command line. What a book is, what stands in it and what a correction makes of it
 * is decided by the proved library alone (include/windtrellis.h); the files here read and save files, and turn values
 * into words and words into values. This one takes the command line apart, and has the help. */
#include "commands.h"
#include "files.h"
#include "saving.h"
#include "windtrellis.h"
#include "words.h"
#include <errno.h>
#include <stdlib.h>
#include <string.h>

static const struct entry {
    const char *name, *takes, *says;
    int (*run)(const struct command *);
    size_t least, most; /* words */
    unsigned options;
} commands[] = {
    { "check", "BOOK..", "Judge each book: a line a book that is good, a refusal for one that isn't.",
        run_check, 1, SIZE_MAX, OUT | QUIET | JSON },
    { "list", "BOOK",
        "The book's length, header columns, address columns and records; then the header record's place,\n"
        "size and number of values; then each record's number and the same three.",
        run_list, 1, 1, OUT | QUIET | JSON },
    { "columns", "BOOK", "Both tables: a line a column with its number, tag, type and flags.",
        run_columns, 1, 1, OUT | QUIET | JSON | NAMES },
    { "show", "BOOK RECORD..",
        "All values of each record: record, tag, type and value, parted by tabs, a line a value or element.",
        run_show, 2, SIZE_MAX, OUT | QUIET | JSON | NAMES | INDEX },
    { "get", "BOOK RECORD TAG",
        "The value of a record under a whole tag, a line a value or element. Absent: nothing on standard output.\n"
        "--raw writes the octets of its encoding instead.",
        run_get, 3, 3, OUT | QUIET | JSON | RAW | EXIT | INDEX },
    { "find", "BOOK TEXT",
        "Every value of an address record that holds the text: record, tag and value, parted by tabs, a line a value\n"
        "or element. Exit status 1 where there is none. The text is spelled as values of text are.",
        run_find, 2, 2, OUT | QUIET | JSON | NAMES | TAG | ALIKE },
    { "why", "BOOK RECORD TAG",
        "Why a record has no value under a whole tag, in one line, and in words on standard error:\n"
        "    other-type TAG PLACE  there is no such column, but one of the same property under another type\n"
        "    no-column 0           nor that\n"
        "    truncated PLACE       the value is absent, and the record lists the tag as truncated\n"
        "    absent PLACE          the value is absent, and the record doesn't\n"
        "PLACE is that of the column's row, or of the octet with the presence bit. A value that is there: refused, 18.",
        run_why, 3, 3, OUT | QUIET | JSON | NAMES },
    { "export", "-t TAG,.. BOOK",
        "A sheet for a spreadsheet: 1 to 16 columns of the address records as comma-separated text (RFC 4180). The\n"
        "first line has the tags, then each record is a line; lines end in CR LF. Numbers are decimal, booleans 0 or\n"
        "1; strings stand octet by octet, quoted where they hold a comma, a quote, CR or LF; an absent value is an\n"
        "empty field. Only columns of the types number, yes-or-no, narrow and text can be exported.",
        run_export, 1, 1, OUT | QUIET | TAG },
    { "import", "--like BOOK -o NEW SHEET",
        "A book from a sheet, as export makes it and a spreadsheet saves it again: comma-separated text whose first\n"
        "line has 1 to 16 tags and whose lines end in CR LF. The header table and the header record are BOOK's, and\n"
        "so are the flags of each column that BOOK has; other columns have none. Fields may stand in quotes that\n"
        "they don't need; an empty field is an absent value. Where the text isn't a sheet, line and column are said.",
        run_import, 1, 1, OUT | QUIET | DRY | LIKE | FLAGS },
    { "index", "BOOK",
        "The book's index, saved as BOOK.index or where -o says. With it get and show look a record up without\n"
        "judging the others. When the book has changed it is made anew: an index that isn't the book's is refused.",
        run_index, 1, 1, OUT | QUIET | DRY },
    { "set", "BOOK RECORD TAG VALUE..",
        "Set a value; a list takes a word an element. What get prints, set takes back as the same octets.\n"
        "--raw reads the octets of its encoding from standard input instead.",
        run_set, 3, SIZE_MAX, OUT | QUIET | DRY | RAW },
    { "clear", "BOOK RECORD TAG", "Clear a value.", run_clear, 3, 3, OUT | QUIET | DRY },
    { "insert", "BOOK K RECORDFILE", "Put a record, whose octets are in a file, in before record K.",
        run_insert, 3, 3, OUT | QUIET | DRY },
    { "delete", "BOOK K", "Take record K out.", run_delete, 2, 2, OUT | QUIET | DRY },
    { "extract", "BOOK RECORD", "A record's octets, for insert.", run_extract, 2, 2, OUT | QUIET },
    { "apply", "BOOK [FILE]",
        "Many corrections, all of them or none, saved once. A line of the file, or of standard input, is one of\n"
        "    set RECORD TAG VALUE    clear RECORD TAG    delete K\n"
        "and each sees what the lines before it made. Elements of a list are parted by tabs. Empty lines and\n"
        "lines that start with # say nothing.",
        run_apply, 1, 2, OUT | QUIET | DRY },
};

enum { COMMANDS = sizeof commands / sizeof *commands };

static const struct option {
    char letter;
    const char *word, *says;
    unsigned bit;
} options[] = {
    { 'o', "-o FILE", "the result goes to FILE; - is standard output", OUT },
    { 'n', "-n", "say what would be done, and save nothing", DRY },
    { 'q', "-q", "say only what is wrong", QUIET },
    { 'e', "-e", "exit status 3 where the value is absent", EXIT },
    { 'i', "-i", "A to Z are read as a to z", ALIKE },
    { 't', "-t TAG", "values under this tag alone", TAG },
    { 0, "--index FILE", "look up through the index that is saved in FILE", INDEX },
    { 0, "--like BOOK", "the book that header table, header record and flags are taken from", LIKE },
    { 0, "--flags LIST", "the columns' flags instead, parted by commas: index, key, 'index key' or a number", FLAGS },
    { 0, "--json", "one object a line", JSON },
    { 0, "--names", "tags by the names of MS-OXOAB's tables, where they have one", NAMES },
    { 0, "--raw", "the octets of the value's encoding", RAW },
};

enum { OPTIONS = sizeof options / sizeof *options };

/* ---- help */

static void describe(FILE *to, const struct entry *e)
{
    unsigned shown = e->options & ~(e->run == run_export ? (unsigned)TAG : 0u);
    size_t i;
    fprintf(to, "usage: oab %s [OPTION..] %s\n\n%s\n\n", e->name, e->takes, e->says);
    for (i = 0; i < OPTIONS; i++)
        if (shown & options[i].bit) fprintf(to, "  %-12s  %s\n", options[i].word, options[i].says);
    if (e->run == run_export)
        fprintf(to, "  %-12s  %s\n", "-t TAG,..", "the columns, in this order; those of a second -t follow them");
    if (e->options & DRY && e->run != run_index && e->run != run_import)
        fputs("\nThe book is corrected where it stands: a new file beside it is synced and renamed over it. A refusal\n"
              "leaves it as it is.\n", to);
    fputs("\nRECORD is 'header' or a number from 0, TAG eight hex digits or a name such as DisplayName. Values:\n"
          "numbers in decimal, yes or no, binary in hex, text with \\xNN for an octet and \\\\ for a backslash.\n"
          "Options stand anywhere before --; a value that starts with a dash needs -- in front of it.\n"
          "Exit status: 0 done, 1 refused or nothing found, 2 usage or system error, 3 absent, with -e.\n", to);
}

static void describe_all(FILE *to)
{
    size_t i;
    fputs("usage: oab COMMAND [OPTION..] ..\n\n"
          "Offline address books (version 4 full details files): judged, looked up, exported, imported, corrected.\n\n",
        to);
    for (i = 0; i < COMMANDS; i++) fprintf(to, "  oab %s %s\n", commands[i].name, commands[i].takes);
    fputs("\n'oab COMMAND --help' says more, 'oab --version' which one this is.\n"
          "Exit status: 0 done, 1 refused or nothing found, 2 usage or system error, 3 absent, with -e.\n", to);
}

static void say_version(void)
{
    uint32_t own = WT_VERSION, library = wt_version();
    printf("oab %u.%u.%u, ", own / 10000, own / 100 % 100, own % 100);
    printf("library %u.%u.%u\n", library / 10000, library / 100 % 100, library % 100);
}

/* ---- the command line */

enum { HELP = 1 << 16, VERSION = 1 << 17 };

/* Flags that stand alone: their bits, 0 for what is none. Several letters may share a dash. */
static unsigned flags_in(const char *word)
{
    unsigned bits = 0, bit;
    size_t i;
    if (strcmp(word, "--help") == 0) return HELP;
    if (strcmp(word, "--version") == 0) return VERSION;
    for (i = 0; i < OPTIONS; i++)
        if (!strchr(options[i].word, ' ') && strcmp(options[i].word, word) == 0) return options[i].bit;
    for (word++; *word; word++) {
        bit = *word == 'h' ? HELP : 0;
        for (i = 0; i < OPTIONS; i++)
            if (!strchr(options[i].word, ' ') && options[i].letter == *word) bit = options[i].bit;
        if (!bit) return 0;
        bits |= bit;
    }
    return bits;
}

/* Options that the next word belongs to: where it is kept, and their bit. */
static const char **taken_by(struct command *c, const char *word, unsigned *bit)
{
    const struct {
        const char *word, **kept;
        unsigned bit;
    } taking[] = { { "-o", &c->out, OUT }, { "--index", &c->index, INDEX }, { "--like", &c->like, LIKE },
        { "--flags", &c->flags, FLAGS } };
    size_t i;
    for (i = 0; i < sizeof taking / sizeof *taking; i++)
        if (strcmp(word, taking[i].word) == 0) {
            *bit = taking[i].bit;
            return taking[i].kept;
        }
    return NULL;
}

/* Options are taken out of the words, up to --. */
static int take_options(struct command *c, int argc, char **argv)
{
    int i, data = 0;
    for (i = 1; i < argc; i++) {
        unsigned bits;
        const char **word;
        if (data || argv[i][0] != '-' || !argv[i][1]) {
            c->words[c->count++] = argv[i];
        } else if (strcmp(argv[i], "--") == 0) {
            data = 1;
        } else if (strcmp(argv[i], "-t") == 0) {
            if (++i == argc) return fail("-t", "the tag is missing");
            c->tags[c->tag_count++] = argv[i];
            c->options |= TAG;
        } else if ((word = taken_by(c, argv[i], &bits)) != NULL) {
            if (*word) return fail(argv[i], "is given twice");
            if (++i == argc) return fail(argv[i - 1], bits == FLAGS ? "the list is missing" : "the file is missing");
            *word = argv[i];
            c->options |= bits;
        } else if ((bits = flags_in(argv[i])) != 0) {
            c->options |= bits;
        } else {
            return fail(argv[i], "is no option; a value that starts with a dash needs -- in front of it");
        }
    }
    return DONE;
}

/* What a command can't do without, beside its words, in words; null where nothing is missing. */
static const char *option_missing(const struct command *c, const struct entry *e)
{
    if (e->run == run_export && c->tag_count == 0) return "-t is missing: it names the columns";
    if (e->run == run_import && !c->like) return "--like is missing: it names the book that the header is taken from";
    if (e->run == run_import && !c->out) return "-o is missing: it says where the book goes";
    return NULL;
}

static int fits(const struct command *c, const struct entry *e)
{
    const char *missing = option_missing(c, e);
    size_t i;
    for (i = 0; i < OPTIONS; i++)
        if (c->options & options[i].bit & ~e->options) return fail(options[i].word, "is no option of %s", e->name);
    if (c->options & JSON && c->options & RAW) return fail("--raw", "can't be had with --json");
    if (c->options & JSON && c->options & NAMES) return fail("--names", "can't be had with --json, which has both");
    if (c->tag_count > 1 && e->run != run_export) return fail("-t", "is given twice");
    if (c->count < e->least || c->count > e->most || missing) {
        if (c->count > e->most) fail(c->words[e->most], "is one word too many");
        else if (c->count < e->least) fail(e->name, "a word is missing");
        else fail(e->name, "%s", missing);
        describe(stderr, e);
        return FAILED;
    }
    return DONE;
}

/* Lines that are printed go to standard output, or with -o to a file, saved whole; where there is nothing to say, or it
 * is refused, the file stays as it is. The verdict of check is a result, too, where it is a refusal. */
static int run(struct command *c, const struct entry *e)
{
    char *text = NULL;
    size_t n = 0;
    int octets = e->options & DRY || c->options & RAW || e->run == run_extract || e->run == run_export;
    int lines = c->out && strcmp(c->out, "-") != 0 && !octets, result, closed;
    c->to = lines ? open_memstream(&text, &n) : stdout;
    if (!c->to) return fail(e->name, "%s", strerror(errno));
    result = e->run(c);
    if (lines) {
        closed = fclose(c->to);
        if (closed != 0) result = fail(c->out, "%s", strerror(errno));
        else if (result == DONE || (result == REFUSED && e->run == run_check))
            result = save(c->out, (uint8_t *)text, n) == DONE ? result : FAILED;
    }
    free(text);
    return result == ABSENT && !(c->options & EXIT) ? DONE : result;
}

static int choose(struct command *c)
{
    size_t i;
    int result;
    if (c->options & VERSION) {
        say_version();
        return DONE;
    }
    if (c->count == 0) {
        describe_all(c->options & HELP ? stdout : stderr);
        return c->options & HELP ? DONE : FAILED;
    }
    for (i = 0; i < COMMANDS; i++)
        if (strcmp(c->words[0], commands[i].name) == 0) break;
    if (i == COMMANDS) return fail(c->words[0], "is no command; 'oab --help' names them");
    if (c->options & HELP) {
        describe(stdout, &commands[i]);
        return DONE;
    }
    c->name = commands[i].name;
    c->words++;
    c->count--;
    if (c->options & QUIET) be_quiet();
    result = fits(c, &commands[i]);
    return result == DONE ? run(c, &commands[i]) : result;
}

int main(int argc, char **argv)
{
    struct command c = { 0 };
    char **words = calloc((size_t)argc + 1, sizeof *words), **tags = calloc((size_t)argc + 1, sizeof *tags);
    int result;
    keep_standard_files();
    mind_signals();
    result = words && tags ? DONE : fail("oab", "%s", strerror(errno));
    c.words = words;
    c.tags = tags;
    if (result == DONE) result = take_options(&c, argc, argv);
    if (result == DONE) result = choose(&c);
    if (fflush(stdout) != 0 || ferror(stdout))
        result = fail("standard output", "can't be written: %s", strerror(errno));
    free(words);
    free(tags);
    return result;
}
