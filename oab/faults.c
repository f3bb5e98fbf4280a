/* What is wrong with a sheet, in words. The library has refused it already, and says where; here the text is gone
 * through once more, up to there, to say how it came to that place. */
#include "faults.h"
#include <inttypes.h>
#include <stdio.h>
#include <string.h>

/* ---- going through a text */

enum where { AT_START, IN_PLAIN, IN_QUOTES, BEHIND_QUOTES, BEHIND_CR };

struct spot {
    enum where where;
    size_t at, line, column; /* line and column from 1 */
    size_t row, field;       /* from 0; row 0 is the first line */
    size_t start;            /* of the field */
};

static int ends_field(const struct spot *p, uint8_t octet)
{
    return p->where != IN_QUOTES && p->where != BEHIND_CR && (octet == ',' || octet == '\r');
}

static void start_field(struct spot *p, size_t field)
{
    p->where = AT_START;
    p->field = field;
    p->start = p->at + 1;
}

static void step(struct spot *p, uint8_t octet)
{
    if (p->where == BEHIND_CR) {
        start_field(p, 0);
        p->row++;
    } else if (ends_field(p, octet)) {
        if (octet == ',') start_field(p, p->field + 1);
        else p->where = BEHIND_CR;
    } else if (octet == '"') {
        p->where = p->where == IN_QUOTES ? BEHIND_QUOTES : IN_QUOTES;
    } else if (p->where == AT_START) {
        p->where = IN_PLAIN;
    }
    p->at++;
    p->column++;
    if (octet == '\n') {
        p->line++;
        p->column = 1;
    }
}

static struct spot spot_at(const struct octets *text, size_t place)
{
    struct spot p = { .line = 1, .column = 1 };
    while (p.at < place) step(&p, text->at[p.at]);
    return p;
}

/* ---- the first line */

static int upper_digit(uint8_t octet)
{
    if (octet >= '0' && octet <= '9') return octet - '0';
    return octet >= 'A' && octet <= 'F' ? octet - 'A' + 10 : -1;
}

void read_columns(const struct octets *text, struct columns *columns)
{
    const uint8_t *s = text->at, *end = text->at + text->length;
    columns->count = 0;
    while (columns->count < WT_MOST_CHOSEN) {
        uint32_t tag = 0;
        int quoted = s < end && *s == '"', digits = 0;
        for (s += quoted; s < end && digits < 8 && upper_digit(*s) >= 0; s++, digits++)
            tag = tag << 4 | (uint32_t)upper_digit(*s);
        if (digits < 8 || (quoted && (s == end || *s++ != '"'))) return;
        columns->tags[columns->count++] = tag;
        if (s == end || *s++ != ',') return;
    }
}

static const char *first_line_words(const struct spot *p, const struct octets *text)
{
    uint8_t octet = p->at < text->length ? text->at[p->at] : 0;
    if (p->at == text->length) return "the text ends inside the first line";
    if (p->at == 0 && text->length >= 3 && memcmp(text->at, "\xEF\xBB\xBF", 3) == 0)
        return "a sheet has no byte order mark in front";
    if (p->where == BEHIND_CR || octet == '\n') return "a line ends in CR LF";
    if (octet == ',' && p->field + 1 == WT_MOST_CHOSEN) return "a sheet has at most 16 columns";
    if (octet >= 'a' && octet <= 'f' && p->at - p->start < 8u + (p->where == IN_QUOTES))
        return "the hex digits of a tag are upper-case";
    return "the first line has 1 to 16 tags of eight hex digits, parted by commas";
}

/* ---- the lines behind it */

/* What is wrong whatever the column's type is; null where that is the field's own. */
static const char *line_words(const struct spot *p, const struct octets *text, const struct columns *columns)
{
    uint8_t octet = p->at < text->length ? text->at[p->at] : 0;
    int outside = p->where == AT_START || p->where == IN_PLAIN || p->where == BEHIND_QUOTES;
    if (p->where == BEHIND_CR) return p->at == text->length ? "the text ends behind a CR" : "LF is due behind CR";
    if (p->at == text->length)
        return p->where == IN_QUOTES ? "the text ends inside quotes" : "the text ends before its last line's CR LF";
    if (outside && octet == ',' && p->field + 1 == columns->count) return "the line has a field too many";
    if (outside && octet == '\r') return "the line has too few fields";
    if (outside && octet == '\n') return "a line ends in CR LF";
    if (p->where == BEHIND_QUOTES) return "a closing quote isn't the end of its field";
    if (p->where == IN_PLAIN && octet == '"') return "a field with a quote in it stands in quotes, and the quote twice";
    return NULL;
}

static const char *field_words(const struct spot *p, uint8_t octet, uint32_t type)
{
    int digit = octet >= '0' && octet <= '9';
    if (type == 0x000b) return "a boolean is 0 or 1";
    if (type == 0x0003 && p->where == AT_START && (digit || octet == '"')) return "the number is over 4,294,967,295";
    if (type == 0x0003) return digit ? "a number has no leading zero" : "a number is decimal digits alone";
    return octet == 0 ? "text holds no zero octet" : "the text isn't UTF-8";
}

void describe_fault(const struct octets *text, const struct columns *columns, size_t place, char *words, size_t most)
{
    struct spot p = spot_at(text, place);
    const char *why;
    uint32_t tag;
    if (p.row == 0 || p.field >= columns->count) {
        snprintf(words, most, "line %zu, column %zu: %s", p.line, p.column, first_line_words(&p, text));
        return;
    }
    tag = columns->tags[p.field];
    why = line_words(&p, text, columns);
    if (!why) why = field_words(&p, text->at[place], tag & 0xffff);
    snprintf(words, most, "line %zu, column %zu, in field %zu (%08" PRIX32 "): %s", p.line, p.column, p.field + 1, tag,
        why);
}

/* ---- rules */

static int is_empty(const struct spot *p)
{
    return p->at == p->start || (p->where == BEHIND_QUOTES && p->at == p->start + 2);
}

void describe_rule(const struct octets *text, const struct columns *columns, char *words, size_t most)
{
    struct spot p = { .line = 1, .column = 1 };
    for (; p.at < text->length && p.row <= WT_MOST_RECORDS; step(&p, text->at[p.at]))
        if (p.row > 0 && ends_field(&p, text->at[p.at]) && is_empty(&p) && columns->flags[p.field] & 2) {
            snprintf(words, most, "line %zu: the key column %08" PRIX32 " has no value", p.line,
                columns->tags[p.field]);
            return;
        }
    if (p.row == 1) snprintf(words, most, "the sheet has no line behind the first, and a book has a record or more");
    else snprintf(words, most, "line %zu: a book has at most 65,535 records", p.line);
}
