/* Values to words and back. The library has judged a book before a value of it is printed here; an encoding made here
 * is offered to the library, which refuses what breaks its form. */
#include "values.h"
#include "spelling.h"
#include <errno.h>
#include <inttypes.h>
#include <string.h>

enum kind { NUMBER, TRUTH, OBJECT, NARROW, TEXT, BINARY, NO_KIND };

static enum kind kind_of(uint32_t tag)
{
    switch (tag & 0xefff) {
    case 0x0003: return NUMBER;
    case 0x000b: return TRUTH;
    case 0x000d: return OBJECT;
    case 0x001e: return NARROW;
    case 0x001f: return TEXT;
    case 0x0102: return BINARY;
    default: return NO_KIND;
    }
}

static int is_list(uint32_t tag)
{
    return (tag & 0x1000) != 0;
}

const char *type_words(uint32_t tag)
{
    static const char *const one[] = { "number", "yes-or-no", "object", "narrow", "text", "binary", "unknown" };
    static const char *const many[] = { "numbers", "yes-or-nos", "objects", "narrows", "texts", "binaries", "unknown" };
    return (is_list(tag) ? many : one)[kind_of(tag)];
}

/* ---- values as words */

/* A whole number at the front of s: how many octets it has. */
static size_t take_number(const uint8_t *s, size_t n, uint64_t *value)
{
    size_t k, i;
    *value = 0;
    if (n == 0) return 0;
    if (s[0] < 0x80) {
        *value = s[0];
        return 1;
    }
    k = s[0] - 0x80u;
    if (k > 4 || k + 1 > n) return 0;
    for (i = 0; i < k; i++) *value |= (uint64_t)s[1 + i] << (8 * i);
    return k + 1;
}

static size_t print_binary(FILE *to, const uint8_t *s, size_t n, unsigned how)
{
    uint64_t k, i;
    size_t w = take_number(s, n, &k);
    if (w == 0 || k > n - w) return 0;
    if (how & IN_JSON) putc('"', to);
    for (i = 0; i < k; i++) fprintf(to, "%02X", s[w + i]);
    if (how & IN_JSON) putc('"', to);
    return w + (size_t)k;
}

static size_t print_text(FILE *to, const uint8_t *s, size_t n, unsigned how)
{
    size_t w = 0;
    while (w < n && s[w]) w++;
    if (w == n) return 0;
    if (how & IN_JSON) putc('"', to);
    spell(to, s, w, how);
    if (how & IN_JSON) putc('"', to);
    return w + 1;
}

/* One value or element at the front of s: how many octets it has. */
static size_t print_item(FILE *to, enum kind kind, const uint8_t *s, size_t n, unsigned how)
{
    uint64_t number;
    size_t w;
    switch (kind) {
    case NUMBER:
        w = take_number(s, n, &number);
        fprintf(to, "%" PRIu64, number);
        return w;
    case TRUTH:
        if (n == 0) return 0;
        if (how & IN_JSON) fputs(s[0] ? "true" : "false", to);
        else fputs(s[0] ? "yes" : "no", to);
        return 1;
    case OBJECT:
    case NARROW: return print_text(to, s, n, how | AS_NARROW);
    case TEXT: return print_text(to, s, n, how);
    case BINARY: return print_binary(to, s, n, how);
    default: return 0;
    }
}

void print_value(FILE *to, const char *front, uint32_t tag, const uint8_t *s, size_t n)
{
    uint64_t count = 1;
    size_t at = is_list(tag) ? take_number(s, n, &count) : 0;
    while (count-- && at < n) {
        size_t w;
        fputs(front, to);
        w = print_item(to, kind_of(tag), s + at, n - at, 0);
        putc('\n', to);
        if (w == 0) return;
        at += w;
    }
}

void print_json_value(FILE *to, uint32_t tag, const uint8_t *s, size_t n)
{
    uint64_t count = 1, i;
    size_t at = is_list(tag) ? take_number(s, n, &count) : 0;
    if (is_list(tag)) putc('[', to);
    for (i = 0; i < count && at < n; i++) {
        size_t w;
        if (i) putc(',', to);
        w = print_item(to, kind_of(tag), s + at, n - at, IN_JSON);
        if (w == 0) break;
        at += w;
    }
    if (is_list(tag)) putc(']', to);
}

/* ---- values as they stand */

int is_text(uint32_t tag)
{
    enum kind kind = kind_of(tag);
    return kind == OBJECT || kind == NARROW || kind == TEXT;
}

static size_t item_size(enum kind kind, const uint8_t *s, size_t n)
{
    uint64_t k;
    const uint8_t *end;
    size_t w;
    switch (kind) {
    case NUMBER: return take_number(s, n, &k);
    case TRUTH: return n ? 1 : 0;
    case BINARY:
        w = take_number(s, n, &k);
        return w == 0 || k > n - w ? 0 : w + (size_t)k;
    default:
        end = n ? memchr(s, 0, n) : NULL;
        return end ? (size_t)(end - s) + 1 : 0;
    }
}

size_t value_size(uint32_t tag, const uint8_t *s, size_t n)
{
    uint64_t count = 1;
    size_t at = 0, w;
    if (is_list(tag) && (at = take_number(s, n, &count)) == 0) return 0;
    for (; count; count--) {
        if ((w = item_size(kind_of(tag), s + at, n - at)) == 0) return 0;
        at += w;
    }
    return at;
}

long next_text(uint32_t tag, const uint8_t *s, size_t n, size_t *at, const uint8_t **text)
{
    uint64_t count;
    size_t w;
    if (*at == 0 && is_list(tag)) *at = take_number(s, n, &count);
    if (*at >= n || (w = item_size(TEXT, s + *at, n - *at)) == 0) return -1;
    *text = s + *at;
    *at += w;
    return (long)w - 1;
}

void print_words(FILE *to, uint32_t tag, const uint8_t *text, size_t n, int json)
{
    unsigned how = (json ? IN_JSON : 0) | (kind_of(tag) == TEXT ? 0 : AS_NARROW);
    if (json) putc('"', to);
    spell(to, text, n, how);
    if (json) putc('"', to);
}

/* ---- words as values */

int read_number(const char *s, uint64_t most, uint64_t *value)
{
    uint64_t n = 0;
    unsigned base = 10;
    if (s[0] == '0' && (s[1] == 'x' || s[1] == 'X')) {
        base = 16;
        s += 2;
    }
    if (!*s) return 0;
    for (; *s; s++) {
        int d = hex_digit((unsigned char)*s);
        if (d < 0 || (unsigned)d >= base) return 0;
        if (n > (most - (unsigned)d) / base) return 0;
        n = n * base + (unsigned)d;
    }
    *value = n;
    return 1;
}

static int add_number(struct octets *o, uint64_t value)
{
    uint8_t s[9];
    size_t k = 0;
    if (value < 0x80) {
        s[0] = (uint8_t)value;
        return add(o, s, 1);
    }
    while (value) {
        s[++k] = (uint8_t)value;
        value >>= 8;
    }
    s[0] = (uint8_t)(0x80 + k);
    return add(o, s, k + 1);
}

static const char *add_hex(struct octets *o, const char *word)
{
    size_t n = strlen(word), i;
    if (!add_number(o, n / 2)) return strerror(errno);
    for (i = 0; i < n; i += 2) {
        int high = hex_digit((unsigned char)word[i]), low = high < 0 ? -1 : hex_digit((unsigned char)word[i + 1]);
        uint8_t octet;
        if (low < 0) return "is no binary value: pairs of hex digits";
        octet = (uint8_t)(high << 4 | low);
        if (!add(o, &octet, 1)) return strerror(errno);
    }
    return NULL;
}

static const char *add_text(struct octets *o, const char *word)
{
    size_t before = o->length;
    int spelled = unspell(o, word);
    if (spelled < 0) return strerror(errno);
    if (spelled == 0) return "is spelled wrong: \\\\ is a backslash, \\xNN is an octet, nothing else starts with one";
    if (o->length > before && memchr(o->at + before, 0, o->length - before)) return "has an octet 00, and no text has";
    return add(o, "", 1) ? NULL : strerror(errno);
}

static const char *add_item(struct octets *o, enum kind kind, const char *word)
{
    uint64_t n;
    uint8_t yes;
    switch (kind) {
    case NUMBER:
        if (!read_number(word, UINT32_MAX, &n)) return "is no whole number from 0 to 4294967295";
        return add_number(o, n) ? NULL : strerror(errno);
    case TRUTH:
        yes = strcmp(word, "yes") == 0 || strcmp(word, "true") == 0 || strcmp(word, "1") == 0;
        if (!yes && strcmp(word, "no") && strcmp(word, "false") && strcmp(word, "0")) return "is neither yes nor no";
        return add(o, &yes, 1) ? NULL : strerror(errno);
    case BINARY: return add_hex(o, word);
    default: return add_text(o, word);
    }
}

const char *encode(struct octets *o, uint32_t tag, char **words, size_t count, size_t *fault)
{
    *fault = 0;
    if (is_list(tag)) {
        if (!add_number(o, count)) return strerror(errno);
    } else if (count != 1) {
        *fault = 1;
        return "is one word too many: the tag takes one value";
    }
    for (; *fault < count; ++*fault) {
        const char *why = add_item(o, kind_of(tag), words[*fault]);
        if (why) return why;
    }
    return NULL;
}
