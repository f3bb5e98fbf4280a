/* Saving: octets become a file whole, or the file stays as it was. */
#ifndef OAB_SAVING_H
#define OAB_SAVING_H

#include <stddef.h>
#include <stdint.h>

/* INT, TERM and HUP take a file that is being written away again; a file over the size limit is a failed write. */
void mind_signals(void);

/* The file that the path names, links followed, becomes these octets; - is standard output. Says what is wrong and
 * answers FAILED, or DONE. */
int save(const char *path, const uint8_t *s, size_t n);

/* Octets to standard output, but never to a terminal: they could steer it. */
int write_out(const uint8_t *s, size_t n);

/* Whether both name one file. */
int same_file(const char *one, const char *other);

#endif
