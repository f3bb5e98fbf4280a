/* The one spelling of text. Letters stand as they are; \\ is a backslash; \xNN is an octet. Spelled by \xNN is whatever
 * could steer a terminal or hide in one: control characters, Unicode's format characters, the line and paragraph
 * separators, and octets that are no UTF-8. */
#include "spelling.h"

/* Controls, Unicode's general category Cf (version 15) and U+2028, U+2029: first and last of each run. */
static const uint32_t unsafe[][2] = {
    { 0x0000, 0x001f }, { 0x007f, 0x009f }, { 0x00ad, 0x00ad }, { 0x0600, 0x0605 }, { 0x061c, 0x061c },
    { 0x06dd, 0x06dd }, { 0x070f, 0x070f }, { 0x0890, 0x0891 }, { 0x08e2, 0x08e2 }, { 0x180e, 0x180e },
    { 0x200b, 0x200f }, { 0x2028, 0x202e }, { 0x2060, 0x2064 }, { 0x2066, 0x206f }, { 0xfeff, 0xfeff },
    { 0xfff9, 0xfffb }, { 0x110bd, 0x110bd }, { 0x110cd, 0x110cd }, { 0x13430, 0x1343f }, { 0x1bca0, 0x1bca3 },
    { 0x1d173, 0x1d17a }, { 0xe0001, 0xe0001 }, { 0xe0020, 0xe007f },
};

static int is_unsafe(uint32_t point)
{
    size_t i;
    for (i = 0; i < sizeof unsafe / sizeof *unsafe; i++)
        if (point >= unsafe[i][0] && point <= unsafe[i][1]) return 1;
    return 0;
}

/* How many octets the UTF-8 character at the front has, and which it is; 0 where there is none (RFC 3629). */
static size_t character(const uint8_t *s, size_t n, uint32_t *point)
{
    static const uint32_t least[] = { 0, 0, 0x80, 0x800, 0x10000 };
    size_t width = s[0] < 0x80 ? 1 : s[0] < 0xc0 ? 0 : s[0] < 0xe0 ? 2 : s[0] < 0xf0 ? 3 : s[0] < 0xf8 ? 4 : 0, i;
    if (width == 0 || width > n) return 0;
    *point = width == 1 ? s[0] : s[0] & (0x7fu >> width);
    for (i = 1; i < width; i++) {
        if ((s[i] & 0xc0) != 0x80) return 0;
        *point = *point << 6 | (s[i] & 0x3fu);
    }
    if (*point < least[width] || *point > 0x10ffff || (*point >= 0xd800 && *point <= 0xdfff)) return 0;
    return width;
}

static void put(FILE *to, int c, unsigned how)
{
    if (how & IN_JSON && (c == '"' || c == '\\')) putc_unlocked('\\', to);
    putc_unlocked(c, to);
}

static void put_octet(FILE *to, uint8_t octet, unsigned how)
{
    put(to, '\\', how);
    fprintf(to, "x%02X", octet);
}

/* How many octets in front are spelled by themselves: most of all text. */
static size_t plain_run(const uint8_t *s, size_t n, unsigned how)
{
    size_t i = 0;
    while (i < n && s[i] >= 0x20 && s[i] < 0x7f && s[i] != '\\' && !(how & IN_JSON && s[i] == '"')) i++;
    return i;
}

void spell(FILE *to, const uint8_t *s, size_t n, unsigned how)
{
    size_t i = 0, k;
    while (i < n) {
        uint32_t point = 0;
        size_t width, plain = plain_run(s + i, n - i, how);
        int safe;
        if (plain) {
            fwrite(s + i, 1, plain, to);
            i += plain;
            continue;
        }
        width = character(s + i, n - i, &point);
        safe = width && !is_unsafe(point) && !(how & AS_NARROW && s[i] > 0x7f);
        if (width == 0) width = 1;
        if (s[i] == '\\' && !(how & IN_WORDS)) put(to, '\\', how);
        for (k = 0; k < width; k++) {
            if (safe) put(to, s[i + k], how);
            else put_octet(to, s[i + k], how);
        }
        i += width;
    }
}

int hex_digit(int c)
{
    if (c >= '0' && c <= '9') return c - '0';
    if (c >= 'a' && c <= 'f') return c - 'a' + 10;
    if (c >= 'A' && c <= 'F') return c - 'A' + 10;
    return -1;
}

int unspell(struct octets *to, const char *word)
{
    size_t i;
    for (i = 0; word[i]; i++) {
        uint8_t octet = (uint8_t)word[i];
        if (word[i] == '\\' && word[i + 1] == 'x') {
            int high = hex_digit((unsigned char)word[i + 2]);
            int low = high < 0 ? -1 : hex_digit((unsigned char)word[i + 3]);
            if (low < 0) return 0;
            octet = (uint8_t)(high << 4 | low);
            i += 3;
        } else if (word[i] == '\\') {
            if (word[i + 1] != '\\') return 0;
            i++;
        }
        if (!add(to, &octet, 1)) return -1;
    }
    return 1;
}
