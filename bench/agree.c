/* Books of each shape: good, with one octet changed, cut short, exported, made from their sheets, corrected at random,
   and written again. */
#include "agree.h"
#include "../include/windtrellis.h"
#include "books.h"
#include "corrector.h"
#include "exporter.h"
#include "importer.h"
#include "indexer.h"
#include "replay.h"
#include <stdio.h>
#include <stdlib.h>
#include <string.h>

enum { NUMBERS_MET = 21 };
static unsigned judged, mended, indexed, sheets, imports, differ;
static unsigned met[NUMBERS_MET], answers[NUMBERS_MET], looked[NUMBERS_MET], exported[NUMBERS_MET];
static unsigned imported[NUMBERS_MET];
/* the index of the good book and an old one of it, for all that is made of the book */
enum { NEW, OLD, KINDS };
static uint8_t kept[KINDS][OFFSET + WIDTH * 65535];
static size_t kept_length[KINDS];
static struct columns kept_columns;
static uint32_t seed;

static uint32_t chance(uint32_t below) {
    seed = seed * 1664525u + 1013904223u;
    return (seed >> 8) % below;
}

static void keep_indexes(const struct book *b) {
    if (plain_index(b->octets, b->length, kept[NEW], sizeof kept[NEW], &kept_length[NEW]).number != 0) differ++;
    memcpy(kept[OLD], kept[NEW], 12);
    put_word32(kept[OLD] + 12, OLD_OFFSET);
    for (size_t k = 0; k < b->records; k++)
        memcpy(kept[OLD] + OLD_OFFSET + OLD_WIDTH * k, kept[NEW] + OFFSET + WIDTH * k, OLD_WIDTH);
    kept_length[OLD] = OLD_OFFSET + OLD_WIDTH * b->records;
}

/* the index of the book that stands there, and a lookup through one of the good one */
static void compare_indexed(const struct book *b) {
    static uint8_t made[sizeof kept[NEW]], plain[sizeof kept[NEW]];
    wt_length length;
    wt_found found;
    size_t n, k = indexed / KINDS % b->records;
    int kind = indexed % KINDS;
    struct stretch s;
    struct refusal r = plain_index(b->octets, b->length, plain, sizeof plain, &n);
    uint32_t number = wt_index(b->octets, b->length, made, sizeof made, &length);
    if (number != r.number || length.place != (number ? r.place : 0) || length.length != n || memcmp(made, plain, n))
        differ++;
    r = plain_lookup_indexed(b->octets, b->length, kept[kind], kept_length[kind], k, b->tag, &s);
    number = wt_lookup_indexed(b->octets, b->length, kept[kind], kept_length[kind], k, b->tag, &found);
    looked[number]++;
    indexed++;
    if (number != r.number || found.place != (number ? r.place : 0) || found.start != s.start || found.end != s.end)
        differ++;
}

static void keep_tags(const struct book *b) {
    struct tables t;
    if (judge_with(b->octets, b->length, &t).number) abort();
    kept_columns = t.address;
}

/* tags of the good book, at times one too many, one twice, one of another type or one that it hasn't */
static size_t some_tags(uint32_t *tags) {
    size_t count = 0, most = 1 + chance(MOST_CHOSEN + 1);
    for (size_t i = chance(3); i < kept_columns.count && count < most; i += 1 + chance(2))
        if (kept_columns.tags[i] % 0x10000 < 0x20 || chance(40) == 0) tags[count++] = kept_columns.tags[i];
    if (0 < count && count < most && chance(30) == 0) {
        tags[count] = chance(2) ? tags[0] : 0x3001001F;
        count++;
    }
    return count;
}

/* the sheet, its length, and every octet of a room that is long enough or a little short */
static void compare_sheets(const struct book *b) {
    static uint8_t made[1 << 17], plain[sizeof made];
    uint32_t tags[MOST_CHOSEN + 1], number;
    size_t count = some_tags(tags), n, room;
    wt_length length;
    struct refusal r = plain_sheet_length(b->octets, b->length, tags, count, &n);
    number = wt_sheet_length(b->octets, b->length, tags, count, &length);
    if (number != r.number || length.place != (number ? r.place : 0) || length.length != n) differ++;
    room = n + chance(20) - (n ? chance(8) : 0);
    if (sizeof made < room) room = sizeof made;
    memset(made, 0xA5, room);
    memset(plain, 0xA5, room);
    r = plain_sheet(b->octets, b->length, tags, count, plain, room, &n);
    number = wt_sheet(b->octets, b->length, tags, count, made, room, &length);
    sheets++;
    exported[number]++;
    if (number != r.number || length.place != (number ? r.place : 0) || length.length != n || memcmp(made, plain, room))
        differ++;
}

/* the text with one octet or two changed, at times cut; flags at times one too few, or keys */
static size_t spoil(uint8_t *text, size_t n, uint32_t *flags, size_t *count) {
    static const uint8_t letters[] = "\"\",,\r\n0179AFa \0\x80\xC3\xFF";
    for (uint32_t k = chance(3); 0 < k; k--) text[chance((uint32_t)n)] = letters[chance(sizeof letters - 1)];
    if (chance(20) == 0) --*count;
    for (size_t i = 0; i < *count; i++) flags[i] = chance(30) == 0 ? 2 : 0;
    return chance(10) == 0 ? n - chance((uint32_t)n) : n;
}

/* a book from a sheet of the good book, spoilt or not, and every octet of a room that is enough or a little short */
static void compare_imports(const struct book *b) {
    static uint8_t text[1 << 17], made[1 << 16], plain[sizeof made];
    static const uint8_t nothing[4] = {4, 0, 0, 0};
    uint32_t tags[MOST_CHOSEN + 1], flags[MOST_CHOSEN + 1], head = 0x6800001F, head_flags = 0, number;
    size_t count = some_tags(tags), n, made_length, room = chance(8) ? sizeof made : chance(20000), given;
    wt_length length;
    if (plain_sheet(b->octets, b->length, tags, count, text, sizeof text, &n).number) return;
    n = spoil(text, n, flags, &count);
    given = chance(30) == 0;
    struct front f = {flags, &head, &head_flags, count, given, given, nothing, sizeof nothing};
    memset(made, 0xA5, room);
    memset(plain, 0xA5, room);
    struct refusal r = plain_from_sheet(text, n, &f, plain, room, &made_length);
    number = wt_from_sheet(text, n, flags, count, &head, given, &head_flags, given, nothing, sizeof nothing, made, room,
        &length);
    imports++;
    imported[number]++;
    if (number != r.number || length.place != (number ? r.place : 0) || length.length != made_length ||
        memcmp(made, plain, room))
        differ++;
}

static void compare(const struct book *b) {
    wt_judged out;
    wt_found found;
    struct refusal r = plain_judge(b->octets, b->length);
    size_t k = b->records - 1;
    struct stretch s = plain_lookup(b->octets, b->length, k, b->tag);
    judged++;
    met[r.number]++;
    uint32_t number = wt_judge(b->octets, b->length, &out);
    if (number != r.number || out.place != (number ? r.place : 0) || out.length != (number ? 0 : b->length)) differ++;
    int there = wt_lookup(b->octets, b->length, k, b->tag, &found) == WT_DONE && found.present;
    if (there != (s.end != 0) || (there && (found.start != s.start || found.end != s.end))) differ++;
    compare_indexed(b);
    compare_sheets(b);
}

/* one octet changed, with and without a serial that fits */
static void damage(struct book *b) {
    for (int t = 0; t < 3000; t++) {
        size_t i = t < 500 ? (size_t)t % b->length : chance((uint32_t)b->length);
        uint8_t was = b->octets[i], serial[4];
        memcpy(serial, b->octets + 4, 4);
        b->octets[i] = t % 3 == 0 ? 0 : t % 3 == 1 ? was ^ 0x80 : (uint8_t)chance(256);
        if (t % 7 != 0) put_word32(b->octets + 4, plain_serial_bits(b->octets + 12, b->length - 12));
        compare(b);
        b->octets[i] = was;
        memcpy(b->octets + 4, serial, 4);
    }
}

static void cut(const struct book *b) {
    struct book c = *b;
    for (c.length = 0; c.length < b->length; c.length += c.length < 500 ? 1 : 97) compare(&c);
}

/* a stretch of the book that is a value or a record, and at times a little off */
static const uint8_t *offer(const struct book *b, int record, size_t *n) {
    struct tables t;
    if (judge_with(b->octets, b->length, &t).number) abort();
    size_t at = t.at + word32(b->octets + t.at);
    for (uint32_t k = chance(word32(b->octets + 8)); 0 < k; k--) at += word32(b->octets + at);
    size_t end = at + word32(b->octets + at);
    *n = end - at;
    if (!record) {
        size_t i = at + 4 + (t.address.count + 7) / 8, last = i;
        for (size_t j = 0; j < t.address.count && i < end; j++) {
            if (!present(b->octets + at + 4, j)) continue;
            last = i;
            i += value(t.address.forms[j], b->octets + i, end - i);
            if (chance(8) == 0) break;
        }
        at = last;
        *n = i - last;
    }
    if (chance(4) == 0) *n -= chance(2) < *n;
    return b->octets + at;
}

static uint32_t some_tag(const struct book *b) {
    size_t h = word32(b->octets + 16), a = word32(b->octets + 20 + 8 * h);
    uint32_t pick = chance(10);
    if (pick == 0) return word32(b->octets + 20);
    if (pick == 1 || a == 0) return chance(2) ? 0x3001001F : 0x68000000;
    return word32(b->octets + 24 + 8 * h + 8 * chance((uint32_t)a));
}

/* corrections at random, each kept by both sides where it is done */
static void correct(const struct book *b) {
    size_t room = b->length + 4000, n = b->length;
    uint8_t *mine = calloc(room, 1), *plain = calloc(room, 1);
    memcpy(mine, b->octets, n);
    memcpy(plain, b->octets, n);
    for (int t = 0; t < 2000; t++) {
        uint64_t k = chance(12) == 0 ? WT_HEADER : chance((uint32_t)word32(mine + 8) + (chance(9) == 0));
        wt_length out;
        struct corrected c;
        uint32_t number, tag = some_tag(b);
        size_t size, lent = chance(20) == 0 ? room - 4000 : room, stated = chance(40) == 0 ? room + 1 : n;
        const uint8_t *v = offer(b, 0, &size), *r;
        uint8_t bent;
        switch (chance(4)) {
        case 0:
            number = wt_set(mine, lent, stated, k, tag, v, size, &out);
            c = plain_set(plain, lent, stated, k, tag, v, size);
            break;
        case 1:
            number = wt_clear(mine, lent, stated, k, tag, &out);
            c = plain_set(plain, lent, stated, k, tag, 0, 0);
            break;
        case 2:
            r = offer(b, 1, &size);
            bent = chance(3) == 0;
            if (bent) b->octets[r + 4 - b->octets] ^= 0x40;
            number = wt_insert(mine, lent, stated, k, r, size, &out);
            c = plain_insert(plain, lent, stated, k, r, size);
            if (bent) b->octets[r + 4 - b->octets] ^= 0x40;
            break;
        default:
            number = wt_delete(mine, lent, stated, k, &out);
            c = plain_delete(plain, lent, stated, k);
        }
        mended++;
        answers[number]++;
        if (number != c.number || (number ? out.place : out.length) != c.answer || memcmp(mine, plain, room)) differ++;
        if (number == 0) n = c.answer;
    }
    free(mine);
    free(plain);
}

static void write_again(const struct book *b) {
    struct replay r = replay_of(b);
    uint8_t *mine = malloc(b->length), *plain = malloc(b->length);
    if (replay_library(&r, mine, b->length) || memcmp(mine, b->octets, b->length)) differ++;
    if (replay_plain(&r, plain, b->length) || memcmp(plain, b->octets, b->length)) differ++;
    if (replay_library(&r, mine, b->length - 1) != replay_plain(&r, plain, b->length - 1)) differ++;
    free(mine);
    free(plain);
    free(r.steps);
}

static void say(const char *what, unsigned tried, const unsigned *met_by) {
    printf("%u %s; answers met:", tried, what);
    for (int i = 0; i < NUMBERS_MET; i++)
        if (met_by[i]) printf(" %d", i);
    printf("\n");
}

int agree(void) {
    for (enum shape s = 0; s < ALL_SHAPES; s++) {
        struct book b = make_book(s, 20000);
        seed = 1 + s;
        keep_indexes(&b);
        keep_tags(&b);
        compare(&b);
        for (int t = 0; t < 300; t++) compare_sheets(&b);
        for (int t = 0; t < 3000; t++) compare_imports(&b);
        damage(&b);
        cut(&b);
        correct(&b);
        write_again(&b);
        free(b.octets);
    }
    say("books judged and looked up", judged, met);
    say("indexes made, and lookups through that of the good book, new and old", indexed, looked);
    say("sheets made", sheets, exported);
    say("books made from sheets", imports, imported);
    say("corrections", mended, answers);
    printf("%d books written again; %u differ\n", ALL_SHAPES, differ);
    return differ != 0;
}
