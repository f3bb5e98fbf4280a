/* Tags and their names. */
#ifndef OAB_TAGS_H
#define OAB_TAGS_H

#include <stdint.h>

/* The tag's name, or null where MS-OXOAB's tables have none. */
const char *tag_name(uint32_t tag);

/* Eight hex digits, 0x before them or not; or a name in letters of either case, PidTag before it or not. 0: neither. */
int read_tag(const char *s, uint32_t *tag);

#endif
