/* Windtrellis: offline address books (OAB version 4 full details files), judged, looked up, exported, made from a
 * sheet, written and corrected. Every call below is proved to meet its contract (crates/face_reading, face_reason,
 * face_index, face_sheet, face_correcting, face_writing); docs/CONTRACTS.md says each in a sentence.
 *
 * Answers. A call takes any octets and any numbers, ends, and answers WT_DONE or the number of its refusal. What there
 * is to say stands in the one small struct that is lent for it, whose first number is the refusal's place, 0 where the
 * call is done. Where a call is refused, every other number of the struct is 0 (a writing's state stays as it was), and
 * columns and buffers that were lent stay as they were. No call relies on an earlier one: each looks at all that it is
 * handed.
 *
 * What is lent. A slice is a pointer and a length; the pointer may not be null, not even for a length of 0. Whatever is
 * lent to one call must not overlap: no slice another one, no struct a slice. A call that is handed a record or a value
 * inside the buffer that it changes is outside every promise made here: copy it out first.
 *
 * Threads. Calls share nothing: they keep no data of their own, so any number of them may run at once on different
 * buffers, and calls that only read may run at once on the same book.
 *
 * Room. Each call says how much room is always enough. After WT_NO_ROOM nothing has changed, and the same call may be
 * made again with a larger buffer that has the same octets in front. */
#ifndef WINDTRELLIS_H
#define WINDTRELLIS_H

#include <stddef.h>
#include <stdint.h>

#if defined(__STDC_VERSION__) && __STDC_VERSION__ >= 199901L && !defined(__cplusplus)
#define WT_RESTRICT restrict
#else
#define WT_RESTRICT
#endif

#ifdef __cplusplus
extern "C" {
#endif

/* 10,000 for each version, 100 for each change that adds calls, 1 for each other one. wt_version answers that of the
 * library which the program runs with. */
#define WT_VERSION 10400u
uint32_t wt_version(void);

/* Answers. */
enum {
    WT_DONE = 0,
    WT_TOO_LONG = 1,       /* over 268,435,456 octets */
    WT_CUT_SHORT = 2,      /* the book ends inside its header, a metadata field or a record's size */
    WT_WRONG_VERSION = 3,  /* the version isn't 0x20 */
    WT_WRONG_METADATA = 4, /* the metadata's size isn't 12 + 8 (h + a) */
    WT_MANY_COLUMNS = 5,   /* more than 128 columns */
    WT_UNKNOWN_TYPE = 6,   /* a tag's type isn't among the ten */
    WT_REPEATED_TAG = 7,   /* the tag stands earlier in the same table */
    WT_WRONG_SIZE = 8,     /* a record's size is too small, or passes the book's end */
    WT_SPARE_BIT = 9,      /* a spare presence bit is 1 */
    WT_KEY_ABSENT = 10,    /* a key column has no value */
    WT_BROKEN_VALUE = 11,  /* a value breaks its form, or passes its record's end; in a list the place is that of the
                            * element at fault, or of the count if that is wrong, else that of the value */
    WT_OCTETS_LEFT = 12,   /* octets are left in a record */
    WT_WRONG_COUNT = 13,   /* the count is 0 or over 65,535, or not that of the records */
    WT_WRONG_SERIAL = 14,  /* the serial differs */
    WT_OUT_OF_TURN = 15,   /* out of turn; no such record or column; a stated length over the buffer */
    WT_BREAKS_RULE = 16,   /* the result would break a rule on keys, count or length */
    WT_NO_ROOM = 17,       /* the buffer is too short for the result */
    WT_BREAKS_FORM = 18,   /* an offered value or record breaks its form; in wt_why: the value is present; of a sheet:
                            * a column that can't be exported, a tag chosen twice, none or over 16; of a book from a
                            * sheet: a column that can't be exported, a header record that breaks its form */
    WT_WRONG_INDEX = 19,   /* an index that isn't the book's, or whose entry for the record lies outside it */
    WT_WRONG_SHEET = 20    /* a text that isn't a sheet; the place is that of the first octet that no sheet could have
                            * there, or the text's end; of a number that is too large, or text that is no UTF-8, that
                            * of its field */
};

/* House limits. */
#define WT_MOST_OCTETS 268435456u
#define WT_MOST_COLUMNS 128u
#define WT_MOST_RECORDS 65535u

/* Calls that make something answer its length. */
typedef struct {
    uint64_t place, length;
} wt_length;

/* The header record, where a record is named; address records are named by their numbers from 0. */
#define WT_HEADER UINT64_MAX

/* ---- reading: nothing is written but the struct and the columns. Refusals: 1 to 14, the book's own, in the published
 * order; then those that the call names. */

/* A good book: its length, its count of address records, the places of the header record and of the first address
 * record, and how many columns each table has. */
typedef struct {
    uint64_t place, length, count, header, first, header_columns, address_columns;
} wt_judged;
uint32_t wt_judge(const uint8_t *book, size_t octets, wt_judged *WT_RESTRICT out);

/* The columns of the header record (address 0) or of the address records (any other number): all 128 tags and flags are
 * written, zeros behind the columns, and count says how many there are. Of the flags the two lowest bits come back. */
typedef struct {
    uint64_t place, count;
} wt_counted;
uint32_t wt_columns(const uint8_t *book, size_t octets, uint32_t address, uint32_t tags[WT_RESTRICT WT_MOST_COLUMNS],
    uint32_t flags[WT_RESTRICT WT_MOST_COLUMNS], wt_counted *WT_RESTRICT out);

/* The value of a record under a whole tag: present is 1, and its encoding stands from start up to end (a string with
 * its 00, a binary value with its length, a list with its count). Absent: present, start and end are 0. Refusals: the
 * book's own, then 15 for a record or a column that isn't there. */
typedef struct {
    uint64_t place, present, start, end;
} wt_found;
uint32_t wt_lookup(const uint8_t *book, size_t octets, uint64_t record, uint32_t tag, wt_found *WT_RESTRICT out);

/* Why a record has no value under a whole tag, by the table of that record alone: a reason, and as `shown` the place
 * that proves it. A tag that no table has, or of a type that isn't known, is no refusal. Refusals: the book's own, then
 * 15 for a record that isn't there, then 18 where the value is present. */
enum {
    WT_OTHER_TYPE = 1, /* no column has the whole tag; `tag` is the first one with its upper half, `shown` is its row */
    WT_NO_COLUMN = 2,  /* and none has its upper half; `shown` is 0 */
    WT_LISTED = 3,     /* absent, and the record's truncated properties (68051003) list the whole tag; `shown` is the
                        * presence octet with the tag's bit */
    WT_NOT_LISTED = 4  /* absent, and not listed, or there is no such list; `shown` as for WT_LISTED */
};
typedef struct {
    uint64_t place, reason, shown, tag; /* tag is 0 but for WT_OTHER_TYPE */
} wt_reason;
uint32_t wt_why(const uint8_t *book, size_t octets, uint64_t record, uint32_t tag, wt_reason *WT_RESTRICT out);

/* The serial of a book whose octets from 12 on are these. It answers the serial itself and refuses nothing. */
uint32_t wt_serial(const uint8_t *octets, size_t count);

/* ---- a saved index: the book's count of address records, its length, its serial, the offset of the starts
 * (WT_INDEX_FRONT) and the width of a start (WT_INDEX_ENTRY), four octets each, then the start of each address record
 * in that many octets; the least octet first. With it one record is looked up without judging the others.
 *
 * Before 1.1.1 an index had no width: its starts began at 16 and took three octets. One of that kind is still read,
 * beside a book of at most 16,777,216 octets; none is made. */
#define WT_INDEX_FRONT 20u
#define WT_INDEX_ENTRY 4u

/* The index of a book, whose length comes back; octets of the buffer behind it stay. Refusals: the book's own, then 17.
 * Room: WT_INDEX_FRONT + WT_INDEX_ENTRY * count is enough, and what it takes. */
uint32_t wt_index(const uint8_t *WT_RESTRICT book, size_t octets, uint8_t *WT_RESTRICT index, size_t room,
    wt_length *WT_RESTRICT out);

/* What the next two answer depends on the book's length, its header and metadata and on the index; the lookup's
 * answer on record k, too; and on nothing else. Refusals: 1, 2, 3, 13 for the count, 2, 5, 6, 7 and 4, as in
 * wt_judge; 19 at 0 where the index is of neither kind, by its offset and its width, or an old one beside a longer
 * book, or its count, its length, its serial or its own size isn't that of the book; 15 for a record or a column that
 * isn't there (the header record isn't offered here); 19 at 0 where the entry isn't below the book's length; and in the
 * lookup the record's own, 2, 8, 9, 10, 11 and 12.
 *
 * In a good book and with the index that wt_index makes of it, or an old one that was made of it, the entry is the
 * record's place and the lookup is wt_lookup. With any other pair each call still ends, and what it hands back lies in
 * the book; whose value that is isn't promised. So an index is made anew when its book has changed. */
typedef struct {
    uint64_t place, start;
} wt_start;
uint32_t wt_index_entry(const uint8_t *book, size_t octets, const uint8_t *index, size_t index_octets, uint64_t k,
    wt_start *WT_RESTRICT out);
uint32_t wt_lookup_indexed(const uint8_t *book, size_t octets, const uint8_t *index, size_t index_octets, uint64_t k,
    uint32_t tag, wt_found *WT_RESTRICT out);

/* ---- a sheet: chosen columns of the address records as comma-separated text (RFC 4180), for a spreadsheet. The first
 * line has the tags as eight upper-case hex digits each; then each record is a line with a field for each tag, in the
 * order in which they are chosen. Fields are parted by commas; every line ends in CR LF, the last too. A number is
 * decimal without leading zeros, a boolean 0 or 1, a string (001E, 001F) its octets without the 00, whatever they are,
 * quoted exactly where they hold a comma, a quote, CR or LF, with each quote inside doubled. An absent value is an
 * empty field. No two different choices of values give the same text for the same tags.
 *
 * Refusals: the book's own; then 15 where any tag isn't that of an address column, the whole tag; then 18 where any is
 * of another type than 0003, 000B, 001E and 001F, where a tag is chosen twice, and where none is chosen or over
 * WT_MOST_CHOSEN; then 17, in wt_sheet alone. */
#define WT_MOST_CHOSEN 16u

/* How many octets the sheet has. */
uint32_t wt_sheet_length(const uint8_t *book, size_t octets, const uint32_t *tags, size_t tag_count,
    wt_length *WT_RESTRICT out);

/* The sheet in the front of the text, and its length; octets of the text behind it stay. Room: what wt_sheet_length
 * answers is enough, and what it takes. It may be longer than the book. */
uint32_t wt_sheet(const uint8_t *book, size_t octets, const uint32_t *tags, size_t tag_count,
    uint8_t *WT_RESTRICT text, size_t room, wt_length *WT_RESTRICT out);

/* ---- a book from a sheet: its address columns are the sheet's, in that order, with the flags that are handed in for
 * them; its header table and its header record are handed in, too. A sheet that wt_sheet makes of all columns of a book
 * comes back as that book, octet by octet, where they are given in their order with the book's own flags, header table
 * and header record, and its unused flag bits are zero.
 *
 * The first line has 1 to WT_MOST_CHOSEN tags of eight upper-case hex digits. Each line behind it is a record, with a
 * field for each tag. Fields are parted by commas, every line ends in CR LF, the last too. A field may stand in quotes
 * whether it needs them or not, a tag too; text that holds a comma, a quote, CR or LF needs them, and then each quote
 * inside is doubled. An empty field, in quotes or not, is an absent value. A number is decimal without leading zeros, a
 * boolean 0 or 1; text holds no zero octet, and in a 001F column is UTF-8.
 *
 * Refusals, the first in this order:
 *   20 for a first line other than this;
 *   15 where flags and tags differ in number;
 *   18 where any tag is of another type than 0003, 000B, 001E and 001F;
 *   20 for the lines behind it, as they are met from left to right: at the first octet that no sheet could have there,
 *      or at the text's end; a number over 4,294,967,295 and, in a 001F column, what is no UTF-8 are looked for once
 *      their field has ended, by a comma or CR that may stand there, and give the field's start, its quote where it has
 *      one;
 *   those of wt_begin with both tables: 15, then 5, 6 and 7 with the row's number, rows of the sheet counted from 128
 *      (a tag that stands twice in the first line is such a 7), then 17;
 *   18 where the header record isn't one good record of its table to its last octet (no key binds there);
 *   those of the writing calls, one after the other: the header record opened, each of its values given, closed; then
 *      each line in the same way; then the finish. 16: over WT_MOST_RECORDS lines, a key that is absent, no line, or a
 *      call whose octets pass WT_MOST_OCTETS; 17: a call whose octets don't fit.
 * A refusal leaves every octet of the buffer, also where calls before it would have written.
 *
 * The book stands in the front of the buffer, and its length comes back; octets behind it stay. Room: 24 + 8 (header
 * columns + columns) + header_record_octets + text_octets + 6 for each line is enough, and so is WT_MOST_OCTETS. */
uint32_t wt_from_sheet(const uint8_t *text, size_t text_octets, const uint32_t *flags, size_t flag_count,
    const uint32_t *header_tags, size_t header_tag_count, const uint32_t *header_flags, size_t header_flag_count,
    const uint8_t *header_record, size_t header_record_octets, uint8_t *WT_RESTRICT buffer, size_t octets,
    wt_length *WT_RESTRICT out);

/* ---- correcting: a book of `length` octets stands at the front of a buffer of `octets`. Done: the struct has the new
 * length; octets from the new length up to the old are zero, those behind both stay. Refusals: 15 for a length over the
 * buffer, the book's own, then 15, 18, 16, 17. */

/* The value is one encoding of the column's form, to its last octet (else 18): a string with its 00, a list with its
 * count. 15: no such record or column. 16: the result would be too long. Room: length + value_octets is enough. */
uint32_t wt_set(uint8_t *WT_RESTRICT buffer, size_t octets, uint64_t length, uint64_t record, uint32_t tag,
    const uint8_t *WT_RESTRICT value, size_t value_octets, wt_length *WT_RESTRICT out);

/* Clearing an absent value is done and changes nothing. 15: no such record or column. 16: a key of an address record.
 * Room: length is enough. */
uint32_t wt_clear(uint8_t *WT_RESTRICT buffer, size_t octets, uint64_t length, uint64_t record, uint32_t tag,
    wt_length *WT_RESTRICT out);

/* A whole record, size and presence octets and values, is put in before record k; k may be the count. 15: k is over the
 * count. 18: not one record to its last octet. 16: a key is missing, the count or the length would pass its limit.
 * Room: length + record_octets is enough. A record to be doubled is copied out of the buffer first. */
uint32_t wt_insert(uint8_t *WT_RESTRICT buffer, size_t octets, uint64_t length, uint64_t k,
    const uint8_t *WT_RESTRICT record, size_t record_octets, wt_length *WT_RESTRICT out);

/* 15: no such record. 16: it is the only one. Room: length is enough. */
uint32_t wt_delete(uint8_t *WT_RESTRICT buffer, size_t octets, uint64_t length, uint64_t k, wt_length *WT_RESTRICT out);

/* ---- writing: the state goes from call to call, and a buffer is lent anew at each. It may be another one, larger or
 * smaller, as long as it has the `written` octets as the last call left them; what a finished book holds is promised
 * for that. The state is the caller's to keep and not to change: any other state is answered, too, and no call leaves
 * the buffer. Before the first wt_begin the numbers of the state may be any.
 *
 * `written` is how many octets are written; at the finish it is the book's length. A refusal changes `place` alone, and
 * the writing may go on. Refusals of each call: 15 where it isn't its turn, then 18, then 16, then 17. */
typedef struct {
    uint64_t place, written, rest[8]; /* rest is the library's own */
} wt_writing;

/* Both tables, a tag and flags a column; unused flag bits become zero. It is never out of turn. 15: tags and flags of a
 * table differ in number. Then 5, 6 and 7, the header table's first; their place is the row's number, rows of the
 * address table counted from 128 (5: 128 or 256). Room: 24 + 8 (header columns + address columns) is enough. */
uint32_t wt_begin(wt_writing *WT_RESTRICT state, const uint32_t *header_tags, size_t header_tag_count,
    const uint32_t *header_flags, size_t header_flag_count, const uint32_t *tags, size_t tag_count,
    const uint32_t *flags, size_t flag_count, uint8_t *WT_RESTRICT buffer, size_t octets);

/* The first record opened is the header record. 16: the 65,536th address record. Room: written + 20 is enough. */
uint32_t wt_open(wt_writing *WT_RESTRICT state, uint8_t *WT_RESTRICT buffer, size_t octets);

/* A value for a later column than the last one given (else 15); 18 where the column is of another kind. Room: written
 * + 5, written + 1. Of `yes` any number but 0 is yes. */
uint32_t wt_give_number(wt_writing *WT_RESTRICT state, uint8_t *WT_RESTRICT buffer, size_t octets, uint32_t tag,
    uint32_t value);
uint32_t wt_give_truth(wt_writing *WT_RESTRICT state, uint8_t *WT_RESTRICT buffer, size_t octets, uint32_t tag,
    uint32_t yes);

/* Octets (0102) without their length, strings (000D, 001E, 001F) without their 00. Room: written + value_octets + 5 is
 * enough. */
uint32_t wt_give_octets(wt_writing *WT_RESTRICT state, uint8_t *WT_RESTRICT buffer, size_t octets, uint32_t tag,
    const uint8_t *WT_RESTRICT value, size_t value_octets);

/* A list states its count (0: 18), then takes that many elements one at a time. Room: written + 5; for an element of
 * octets written + value_octets + 5. */
uint32_t wt_give_list(wt_writing *WT_RESTRICT state, uint8_t *WT_RESTRICT buffer, size_t octets, uint32_t tag,
    uint32_t count);
uint32_t wt_add_number(wt_writing *WT_RESTRICT state, uint8_t *WT_RESTRICT buffer, size_t octets, uint32_t value);
uint32_t wt_add_octets(wt_writing *WT_RESTRICT state, uint8_t *WT_RESTRICT buffer, size_t octets,
    const uint8_t *WT_RESTRICT value, size_t value_octets);

/* 16: an address record lacks a key; it stays open. Room: written is enough. */
uint32_t wt_close(wt_writing *WT_RESTRICT state, uint8_t *WT_RESTRICT buffer, size_t octets);

/* 16: there is no address record. Room: written is enough. */
uint32_t wt_finish(wt_writing *WT_RESTRICT state, uint8_t *WT_RESTRICT buffer, size_t octets);

#ifdef __cplusplus
}
#endif

#endif
