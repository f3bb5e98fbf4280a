/* Saving. A regular file is written anew beside the old one, synced and renamed over it: owner, mode and extended
 * attributes are kept, and a crash leaves the old file or the new one. What is no regular file is written straight. */
#include "saving.h"
#include "words.h"
#include <errno.h>
#include <fcntl.h>
#include <limits.h>
#include <signal.h>
#include <stdio.h>
#include <stdlib.h>
#include <string.h>
#include <sys/stat.h>
#include <sys/xattr.h>
#include <unistd.h>

/* ---- signals: what is being written is taken away again */

static char fresh[PATH_MAX];
static volatile sig_atomic_t writing;
static const int minded[] = { SIGINT, SIGTERM, SIGHUP };
enum { MINDED = sizeof minded / sizeof *minded };

static void stop(int number)
{
    if (writing) unlink(fresh);
    signal(number, SIG_DFL);
    raise(number);
}

void mind_signals(void)
{
    struct sigaction a = { 0 }, was;
    int i;
    signal(SIGXFSZ, SIG_IGN);
    a.sa_handler = stop;
    for (i = 0; i < MINDED; i++)
        if (sigaction(minded[i], NULL, &was) == 0 && was.sa_handler != SIG_IGN) sigaction(minded[i], &a, NULL);
}

static int make_fresh(void)
{
    sigset_t these, before;
    int fd, i, saved;
    sigemptyset(&these);
    for (i = 0; i < MINDED; i++) sigaddset(&these, minded[i]);
    sigprocmask(SIG_BLOCK, &these, &before);
    fd = mkostemp(fresh, O_CLOEXEC);
    saved = errno;
    writing = fd >= 0;
    sigprocmask(SIG_SETMASK, &before, NULL);
    errno = saved;
    return fd;
}

/* ---- octets to a file */

static int write_all(int fd, const uint8_t *s, size_t n)
{
    while (n) {
        ssize_t k = write(fd, s, n);
        if (k < 0) {
            if (errno == EINTR) continue;
            return 0;
        }
        s += k;
        n -= (size_t)k;
    }
    return 1;
}

int write_out(const uint8_t *s, size_t n)
{
    if (isatty(1))
        return fail("standard output", "is a terminal, and octets could steer it: -o FILE or a pipe takes them");
    return write_all(1, s, n) ? DONE : fail("standard output", "can't be written: %s", strerror(errno));
}

static int write_straight(const char *path, const uint8_t *s, size_t n)
{
    int fd = open(path, O_WRONLY | O_CLOEXEC), good;
    if (fd < 0) return fail(path, "can't be opened to be written: %s", strerror(errno));
    if (isatty(fd)) {
        close(fd);
        return fail(path, "is a terminal, and octets could steer it");
    }
    good = write_all(fd, s, n);
    if (!good) fail(path, "can't be written: %s", strerror(errno));
    if (close(fd) != 0 && good) good = fail(path, "can't be written: %s", strerror(errno)) == DONE;
    return good ? DONE : FAILED;
}

/* ---- what a new file keeps of the old one */

static int keep_attribute(const char *path, const char *old, int fd, const char *name)
{
    ssize_t n = getxattr(old, name, NULL, 0);
    char *value = malloc(n > 0 ? (size_t)n : 1);
    int good = n >= 0 && value && (n = getxattr(old, name, value, (size_t)n)) >= 0;
    good = good && fsetxattr(fd, name, value, (size_t)n, 0) == 0;
    if (!good && strncmp(name, "security.", 9) == 0) {
        note(path, "the attribute %s isn't kept: %s", name, strerror(errno));
        good = 1;
    }
    if (!good) fail(path, "can't keep the attribute %s: %s", name, strerror(errno));
    free(value);
    return good;
}

static int keep_attributes(const char *path, const char *old, int fd)
{
    ssize_t n = listxattr(old, NULL, 0), at;
    char *names;
    int good;
    if (n == 0 || (n < 0 && (errno == ENOTSUP || errno == ENOSYS))) return 1;
    names = malloc(n > 0 ? (size_t)n : 1);
    good = n > 0 && names && (n = listxattr(old, names, (size_t)n)) >= 0;
    if (!good) fail(path, "can't keep the file's attributes: %s", strerror(errno));
    for (at = 0; good && at < n; at += (ssize_t)strlen(names + at) + 1)
        good = keep_attribute(path, old, fd, names + at);
    free(names);
    return good;
}

static int keep(const char *path, const char *old, int fd, const struct stat *is)
{
    struct stat made;
    if (fstat(fd, &made) != 0 || ((made.st_uid != is->st_uid || made.st_gid != is->st_gid) &&
        fchown(fd, is->st_uid, is->st_gid) != 0)) {
        fail(path, "can't keep the file's owner: %s", strerror(errno));
        return 0;
    }
    if (fchmod(fd, is->st_mode & 07777) != 0) {
        fail(path, "can't keep the file's mode: %s", strerror(errno));
        return 0;
    }
    return keep_attributes(path, old, fd);
}

static int make_private(const char *path, int fd)
{
    mode_t mask = umask(0);
    umask(mask);
    if (fchmod(fd, 0600 & ~mask) == 0) return 1;
    fail(path, "can't set the file's mode: %s", strerror(errno));
    return 0;
}

/* ---- a regular file */

/* The length of the folder's part of a path, its slash counted. */
static size_t folder_of(const char *path)
{
    const char *slash = strrchr(path, '/');
    return slash ? (size_t)(slash - path) + 1 : 0;
}

static void sync_folder(const char *path)
{
    char folder[PATH_MAX] = ".";
    size_t n = folder_of(path);
    int fd;
    if (n) memcpy(folder, path, n);
    folder[n ? n : 1] = 0;
    fd = open(folder, O_RDONLY | O_DIRECTORY | O_CLOEXEC);
    if (fd < 0) return;
    (void)fsync(fd);
    close(fd);
}

static int fill(const char *path, const char *real, int fd, const struct stat *is, const uint8_t *s, size_t n)
{
    int good = is ? keep(path, real, fd, is) : make_private(path, fd);
    if (good && (!write_all(fd, s, n) || fsync(fd) != 0)) {
        good = 0;
        fail(path, "can't be written: %s", strerror(errno));
    }
    if (close(fd) != 0 && good) {
        good = 0;
        fail(path, "can't be written: %s", strerror(errno));
    }
    return good;
}

static int replace(const char *path, const char *real, const struct stat *is, const uint8_t *s, size_t n)
{
    int fd, good;
    if (is && access(real, W_OK) != 0) return fail(path, "can't be written: %s", strerror(errno));
    if (snprintf(fresh, sizeof fresh, "%.*s.oab-XXXXXX", (int)folder_of(real), real) >= (int)sizeof fresh)
        return fail(path, "can't be saved: %s", strerror(ENAMETOOLONG));
    fd = make_fresh();
    if (fd < 0) return fail(path, "can't make a new file in its folder: %s", strerror(errno));
    good = fill(path, real, fd, is, s, n);
    if (good && rename(fresh, real) != 0) {
        good = 0;
        fail(path, "can't put the new file in its place: %s", strerror(errno));
    }
    if (!good) unlink(fresh);
    writing = 0;
    if (!good) return FAILED;
    sync_folder(real);
    if (is && is->st_nlink == 2) note(path, "is parted from its other hard link, which keeps the old file");
    if (is && is->st_nlink > 2) note(path, "is parted from its other hard links, which keep the old file");
    return DONE;
}

/* Where a path leads, symbolic links followed, also where the last one leads to no file yet. */
static int follow(const char *path, char real[PATH_MAX], int links)
{
    char to[PATH_MAX], next[2 * PATH_MAX];
    ssize_t n;
    if (realpath(path, real)) return 1;
    if (errno != ENOENT) return 0;
    n = readlink(path, to, sizeof to - 1);
    if (n < 0) return snprintf(real, PATH_MAX, "%s", path) < PATH_MAX;
    to[n] = 0;
    if (links == 0) {
        errno = ELOOP;
        return 0;
    }
    snprintf(next, sizeof next, "%.*s%s", to[0] == '/' ? 0 : (int)folder_of(path), path, to);
    return follow(next, real, links - 1);
}

int same_file(const char *one, const char *other)
{
    struct stat a, b;
    return stat(one, &a) == 0 && stat(other, &b) == 0 && a.st_dev == b.st_dev && a.st_ino == b.st_ino;
}

/* -, or a name like /dev/stdout for what standard output is. */
static int is_standard_output(const char *path)
{
    struct stat is, out;
    if (strcmp(path, "-") == 0) return 1;
    if (strncmp(path, "/dev/", 5) != 0 && strncmp(path, "/proc/", 6) != 0) return 0;
    return stat(path, &is) == 0 && fstat(1, &out) == 0 && is.st_dev == out.st_dev && is.st_ino == out.st_ino;
}

int save(const char *path, const uint8_t *s, size_t n)
{
    char real[PATH_MAX];
    struct stat is;
    int there = stat(path, &is) == 0;
    if (is_standard_output(path)) return write_out(s, n);
    if (there && S_ISDIR(is.st_mode)) return fail(path, "can't be written: %s", strerror(EISDIR));
    if (there && !S_ISREG(is.st_mode)) return write_straight(path, s, n);
    if (!follow(path, real, 40)) return fail(path, "can't be saved: %s", strerror(errno));
    return replace(path, real, there ? &is : NULL, s, n);
}
