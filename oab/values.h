/* Values: encodings to words, and words to encodings. */
#ifndef OAB_VALUES_H
#define OAB_VALUES_H

#include "octets.h"
#include <stdio.h>

/* "number", "texts" ..: the words for the tag's type. */
const char *type_words(uint32_t tag);

/* Whether its values are text, or lists of text. */
int is_text(uint32_t tag);

/* How many octets the value at the front of s has, by the tag's type; 0 where it has no such form. */
size_t value_size(uint32_t tag, const uint8_t *s, size_t n);

/* The next text of a value, or of a list of texts: *at is 0 before the first. Its length without its 00, and *text is
 * where it starts; -1: there is none left. */
long next_text(uint32_t tag, const uint8_t *s, size_t n, size_t *at, const uint8_t **text);

/* The text as words: spelled as the tag's type is, in JSON or not. */
void print_words(FILE *to, uint32_t tag, const uint8_t *text, size_t n, int json);

/* A decimal number up to `most`, or one in hex behind 0x. 0: it is none. */
int read_number(const char *s, uint64_t most, uint64_t *value);

/* The value whose encoding is the n octets at s: a line a value or element, each behind `front`; or as JSON. */
void print_value(FILE *to, const char *front, uint32_t tag, const uint8_t *s, size_t n);
void print_json_value(FILE *to, uint32_t tag, const uint8_t *s, size_t n);

/* Adds the encoding of the words, by the tag's type; null, or why not, and then *fault is the word at fault. */
const char *encode(struct octets *o, uint32_t tag, char **words, size_t count, size_t *fault);

#endif
