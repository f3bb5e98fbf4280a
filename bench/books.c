/* The generator: a small random number generator with a fixed seed, and one writer for each shape. */
#include "books.h"
#include "reader.h"
#include <stdlib.h>
#include <string.h>

const char *shape_names[ALL_SHAPES] = {
    "36 columns, 20 present", "one narrow string", "one ASCII string", "one mixed UTF-8 string",
    "one binary value",       "one list of numbers", "128 booleans",     "no columns",
    "16 numbers",             "16 strings of marks",
};

static uint64_t seed;

static uint32_t chance(uint32_t below) {
    seed = seed * 6364136223846793005u + 1442695040888963407u;
    return (uint32_t)((seed >> 33) % below);
}

static uint8_t *out;
static size_t at;

static void put(uint8_t b) { out[at++] = b; }

static void put32(size_t place, uint32_t x) {
    for (int k = 0; k < 4; k++) out[place + k] = (uint8_t)(x >> 8 * k);
}

static uint32_t word_at(size_t place) {
    return out[place] | (uint32_t)out[place + 1] << 8 | (uint32_t)out[place + 2] << 16 | (uint32_t)out[place + 3] << 24;
}

static void word32(uint32_t x) {
    put32(at, x);
    at += 4;
}

static void number(uint32_t x) {
    if (x < 128) {
        put((uint8_t)x);
        return;
    }
    int k = x < 1u << 8 ? 1 : x < 1u << 16 ? 2 : x < 1u << 24 ? 3 : 4;
    put((uint8_t)(128 + k));
    for (int i = 0; i < k; i++) put((uint8_t)(x >> 8 * i));
}

static void letters(size_t n) {
    for (size_t i = 0; i < n; i++) put((uint8_t)("etaoinshrdlucmfwypvbgkjqxz ./@=-EX"[chance(34)]));
}

/* one character of 2, 3 or 4 octets */
static void other(uint32_t width) {
    if (width == 2) put(0xC3), put((uint8_t)(0x80 + chance(64)));
    if (width == 3) put((uint8_t)(0xE4 + chance(4))), put((uint8_t)(0x80 + chance(64))), put((uint8_t)(0x80 + chance(64)));
    if (width == 4) put(0xF0), put(0x9F), put((uint8_t)(0x80 + chance(64))), put((uint8_t)(0x80 + chance(64)));
}

static void string(size_t n) {
    letters(n);
    put(0);
}

/* a name: mostly ASCII, an umlaut here and there */
static void name(size_t n) {
    for (size_t i = 0; i < n; i++) {
        if (chance(25) == 0) other(2);
        else letters(1);
    }
    put(0);
}

static void binary(size_t n) {
    number((uint32_t)n);
    for (size_t i = 0; i < n; i++) put((uint8_t)chance(256));
}

static void proxies(size_t n) {
    number((uint32_t)n);
    for (size_t i = 0; i < n; i++) string(25 + chance(20));
}

/* ---- the realistic shape: the types of 36 columns, of which 20 have a value in a record */

static const uint16_t types[36] = {
    0x001F, 0x001F, 0x001F, 0x001F, 0x001E, 0x001E, 0x0003, 0x0003, 0x000B, 0x101F, 0x0102, 0x1102,
    0x001F, 0x001F, 0x001F, 0x001F, 0x001F, 0x001F, 0x0003, 0x000B, 0x001E, 0x001F, 0x0102, 0x1003,
    0x001F, 0x001F, 0x001F, 0x001F, 0x0003, 0x000B, 0x101F, 0x101E, 0x001F, 0x001F, 0x0003, 0x0102,
};

static uint32_t tag_of(size_t i) { return (uint32_t)(0x3000 + i) << 16 | types[i]; }

/* how many proxies the first person has: in a long book they take what 65,535 people can't */
static size_t many;

static void person(size_t k) {
    uint8_t has[36] = {0};
    /* the first twelve always, and eight of the others */
    for (size_t i = 0; i < 12; i++) has[i] = 1;
    for (size_t n = 0; n < 8;) {
        size_t i = 12 + chance(24);
        if (!has[i]) has[i] = 1, n++;
    }
    size_t start = at;
    at += 4;
    for (size_t i = 0; i < 40; i += 8) {
        uint8_t b = 0;
        for (size_t j = 0; j < 8; j++) b = (uint8_t)(b << 1 | (i + j < 36 && has[i + j]));
        put(b);
    }
    for (size_t i = 0; i < 36; i++) {
        if (!has[i]) continue;
        switch (types[i]) {
        case 0x001F: name(8 + chance(40)); break;
        case 0x001E: string(30 + chance(60)); break;
        case 0x0003: number(chance(3) ? chance(200) : chance(1u << 30)); break;
        case 0x000B: put((uint8_t)chance(2)); break;
        case 0x0102: binary(16 + chance(24)); break;
        case 0x101F: proxies(k == 0 ? many : 1 + chance(4)); break;
        case 0x101E: proxies(1 + chance(2)); break;
        case 0x1102: number(1), binary(60 + chance(80)); break;
        default: /* 1003 */
            number(3);
            for (int j = 0; j < 3; j++) number(chance(70000));
        }
    }
    put32(start, (uint32_t)(at - start));
}

/* ---- the whole */

static void head(size_t columns) {
    word32(0x20), word32(0), word32(0);
    word32((uint32_t)(12 + 8 * (1 + columns)));
    word32(1), word32(0x6800001F), word32(0);
    word32((uint32_t)columns);
}

static void header_record(void) {
    size_t start = at;
    at += 4;
    put(0x80);
    name(20);
    put32(start, (uint32_t)(at - start));
}

/* a number of every size, or a string in which every other octet or so is a mark */
static void cell(enum shape shape) {
    if (shape == COUNTS) {
        number(chance(2) ? chance(200) : chance(2) ? chance(1u << 17) : chance(UINT32_MAX));
        return;
    }
    for (uint32_t n = 4 + chance(12); 0 < n; n--)
        if (chance(2)) letters(1);
        else put((uint8_t)("\"\"\",\r\n"[chance(6)]));
    put(0);
}

static uint32_t cell_tag(enum shape shape, uint32_t i) {
    return (0x3000 + i) << 16 | (shape == COUNTS ? 0x0003 : 0x001F - i % 2);
}

/* sixteen columns, fifteen of them present in a record; how many records */
static size_t sixteen(enum shape shape, size_t length) {
    size_t records = 0;
    head(16);
    for (uint32_t i = 0; i < 16; i++) word32(cell_tag(shape, i)), word32(0);
    header_record();
    for (; at + 6 + 16 * 17 <= length && records < 65535; records++) {
        size_t start = at, without = records % 16;
        word32(0);
        put(without < 8 ? (uint8_t)(0xFF ^ 0x80 >> without) : 0xFF);
        put(without < 8 ? 0xFF : (uint8_t)(0xFF ^ 0x80 >> (without - 8)));
        for (size_t i = 0; i < 16; i++)
            if (i != without) cell(shape);
        put32(start, (uint32_t)(at - start));
    }
    return records;
}

/* one record with one value of `size` octets, or a little less */
static void one_value(enum shape shape, size_t size) {
    size_t start = at, end = at + size;
    at += 4;
    put(0x80);
    if (shape == NARROW) {
        while (at + 1 < end) put((uint8_t)(1 + chance(255)));
        put(0);
    }
    if (shape == ASCII) string(end - at - 1);
    if (shape == MIXED) {
        while (at + 5 < end) {
            uint32_t w = 1 + chance(4);
            if (w == 1) letters(1);
            else other(w);
        }
        put(0);
    }
    if (shape == OCTETS) binary(end - at - 5);
    if (shape == NUMBERS) {
        uint32_t n = (uint32_t)((end - at - 5) * 10 / 27);
        number(n);
        for (uint32_t i = 0; i < n; i++) {
            uint32_t w = chance(10);
            number(w < 4 ? chance(128) : w < 6 ? 128 + chance(128) : w < 8 ? 256 + chance(65000) : 65536 + chance(1u << 23));
        }
    }
    put32(start, (uint32_t)(at - start));
}

struct book make_book(enum shape shape, size_t length) {
    struct book b = {malloc(length + 65536), 0, 0, 0};
    seed = 20260101u + shape;
    out = b.octets;
    at = 0;
    switch (shape) {
    case REALISTIC:
        head(36);
        for (size_t i = 0; i < 36; i++) word32(tag_of(i)), word32(i == 1 ? 2 : 0);
        header_record();
        many = 300 + (length < (size_t)1 << 25 ? 0 : (length - ((size_t)1 << 25)) / 36);
        for (;;) {
            size_t before = at;
            person(b.records);
            if (length < at) {
                at = before;
                break;
            }
            b.records++;
        }
        break;
    case BOOLEANS:
        head(128);
        for (uint32_t i = 0; i < 128; i++) word32((0x3000 + i) << 16 | 0x000B), word32(0);
        header_record();
        while (at + 148 <= length && b.records < 65535) {
            word32(148);
            for (int i = 0; i < 16; i++) put(0xFF);
            for (int i = 0; i < 128; i++) put((uint8_t)chance(2));
            b.records++;
        }
        b.tag = 0x307F000B;
        break;
    case EMPTY:
        head(0);
        header_record();
        while (at + 4 <= length && b.records < 65535) word32(4), b.records++;
        break;
    case COUNTS:
    case QUOTES:
        b.records = sixteen(shape, length);
        b.tag = cell_tag(shape, b.records % 16 == 0 ? 14 : 15);
        break;
    default: {
        static const uint16_t type[SHAPES] = {0, 0x001E, 0x001F, 0x001F, 0x0102, 0x1003, 0, 0};
        b.tag = 0x30000000u | type[shape];
        head(1);
        word32(b.tag), word32(0);
        header_record();
        one_value(shape, length - at);
        b.records = 1;
    }
    }
    b.length = at;
    if (shape == REALISTIC) {
        size_t r = 24 + 8 * 37;
        r += out[r];
        for (size_t k = 1; k < b.records; k++) r += word_at(r);
        for (size_t i = 0; i < 36; i++)
            if (out[r + 4 + i / 8] >> (7 - i % 8) & 1) b.tag = tag_of(i);
    }
    put32(8, (uint32_t)b.records);
    put32(4, plain_serial_bits(out + 12, at - 12));
    return b;
}
