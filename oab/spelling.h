/* The one spelling of text: what is printed so is taken back as the same octets. */
#ifndef OAB_SPELLING_H
#define OAB_SPELLING_H

#include "octets.h"
#include <stdio.h>

/* How octets are spelled: every octet over 7F as \xNN; inside a string of JSON; the backslash left single, in words
 * that nobody reads back. */
enum { AS_NARROW = 1, IN_JSON = 2, IN_WORDS = 4 };
void spell(FILE *to, const uint8_t *s, size_t n, unsigned how);

/* Adds the octets that a word spells. 0: a backslash starts neither \\ nor \xNN; -1: there is no memory. */
int unspell(struct octets *to, const char *word);

int hex_digit(int c);

#endif
