/* Reading files, and the lock on a book that is to be corrected where it stands. */
#include "files.h"
#include "words.h"
#include <errno.h>
#include <fcntl.h>
#include <stdlib.h>
#include <string.h>
#include <sys/file.h>
#include <unistd.h>

void keep_standard_files(void)
{
    int fd;
    do fd = open("/dev/null", O_RDONLY);
    while (fd >= 0 && fd <= 2);
    if (fd > 2) close(fd);
}

/* Up to so many octets, read to the end: a file that is cut meanwhile is read as far as it goes. Room is taken by the
 * file's size, and grows where there is none or more comes. */
static int read_all(int fd, struct octets *o, size_t most)
{
    struct stat is;
    size_t chunk = 1 << 16;
    if (fstat(fd, &is) == 0 && S_ISREG(is.st_mode) && is.st_size > 0)
        chunk = (size_t)is.st_size < most ? (size_t)is.st_size + 1 : most;
    while (o->length < most) {
        size_t want = most - o->length < chunk ? most - o->length : chunk;
        ssize_t n;
        if (!grow(o, want)) return 0;
        n = read(fd, o->at + o->length, want);
        if (n < 0) {
            if (errno == EINTR) continue;
            return 0;
        }
        if (n == 0) break;
        o->length += (size_t)n;
        chunk = o->room > o->length ? o->room - o->length : 1 << 16;
    }
    return grow(o, 1);
}

int read_up_to(const char *path, struct octets *o, size_t most)
{
    int fd, result = DONE;
    if (strcmp(path, "-") == 0)
        return read_all(0, o, most) ? DONE : fail("standard input", "can't be read: %s", strerror(errno));
    fd = open(path, O_RDONLY | O_CLOEXEC);
    if (fd < 0) return fail(path, "can't be opened: %s", strerror(errno));
    if (!read_all(fd, o, most)) result = fail(path, "can't be read: %s", strerror(errno));
    close(fd);
    return result;
}

int read_file(const char *path, struct octets *o)
{
    return read_up_to(path, o, MOST_READ);
}

/* ---- the book to be corrected */

static int lock(int fd, const char *name)
{
    if (flock(fd, LOCK_EX | LOCK_NB) == 0) return 1;
    if (errno == EWOULDBLOCK && isatty(2)) note(name, "another correction is under way: waiting for it");
    while (flock(fd, LOCK_EX) != 0)
        if (errno != EINTR) return 0;
    return 1;
}

/* A book that was renamed over while this one waited is opened anew. */
static int open_locked(struct opened *b)
{
    for (;;) {
        struct stat now;
        b->fd = open(b->path, O_RDWR | O_CLOEXEC);
        if (b->fd < 0) return fail(b->name, "can't be opened to be corrected: %s", strerror(errno));
        if (!lock(b->fd, b->name)) break;
        if (fstat(b->fd, &b->is) != 0) break;
        if (stat(b->path, &now) == 0 && now.st_dev == b->is.st_dev && now.st_ino == b->is.st_ino) return DONE;
        close(b->fd);
    }
    fail(b->name, "can't be locked: %s", strerror(errno));
    close(b->fd);
    return FAILED;
}

/* Only a regular file is locked: what else there is has no old book that could be lost. */
int open_book(struct opened *b, const char *name, int in_place)
{
    b->name = name;
    if (strcmp(name, "-") == 0) {
        if (in_place) return fail("standard input", "can't be corrected in place: -o says where the result goes");
        b->fd = 0;
        return DONE;
    }
    if (stat(name, &b->is) != 0) return fail(name, "can't be opened: %s", strerror(errno));
    if (in_place && S_ISREG(b->is.st_mode)) {
        if (!realpath(name, b->path)) return fail(name, "can't be opened: %s", strerror(errno));
        return open_locked(b);
    }
    b->fd = open(name, O_RDONLY | O_CLOEXEC);
    return b->fd < 0 ? fail(name, "can't be opened: %s", strerror(errno)) : DONE;
}

int read_opened(struct opened *b, struct octets *o)
{
    return read_all(b->fd, o, MOST_READ) ? DONE : fail(b->name, "can't be read: %s", strerror(errno));
}

void close_book(struct opened *b)
{
    if (b->fd > 0) close(b->fd);
    b->fd = -1;
}
