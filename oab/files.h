/* Files: reading books, locking one, and where results go. */
#ifndef OAB_FILES_H
#define OAB_FILES_H

#include "octets.h"
#include "windtrellis.h"
#include <limits.h>
#include <sys/stat.h>

/* One octet more than the limit is read, so that the library can say that a book is too long. */
#define MOST_READ ((size_t)WT_MOST_OCTETS + 1)

/* Standard input, output and error that are closed become ones that nothing can be written to: a book that is opened
 * later must not take their place. */
void keep_standard_files(void);

/* Each says what is wrong and answers FAILED, or DONE. The path - is standard input. */
int read_file(const char *path, struct octets *o);
int read_up_to(const char *path, struct octets *o, size_t most);

/* A book that is to be corrected where it stands is locked until it is closed: two corrections of one book follow one
 * another. */
struct opened {
    const char *name;    /* as the user wrote it */
    char path[PATH_MAX]; /* with no symbolic link in it, where it is locked */
    struct stat is;
    int fd;
};
int open_book(struct opened *b, const char *name, int in_place);
int read_opened(struct opened *b, struct octets *o);
void close_book(struct opened *b);

#endif
