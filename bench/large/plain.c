/* The command's work on a large book in plain C, for the comparison alone: plain check BOOK | index BOOK NEW | get BOOK
 * INDEX RECORD TAG | set BOOK NEW RECORD TAG TEXT. Files are read by their size; a result is written beside its place,
 * synced and renamed, as the command does it. */
#include "../corrector.h"
#include "../indexer.h"
#include <fcntl.h>
#include <stdio.h>
#include <stdlib.h>
#include <string.h>
#include <sys/stat.h>
#include <unistd.h>

struct file {
    uint8_t *at;
    size_t length;
};

static struct file read_file(const char *name, size_t more) {
    struct file f = {0, 0};
    struct stat is;
    int fd = open(name, O_RDONLY);
    if (fd < 0 || fstat(fd, &is) != 0 || !(f.at = malloc((size_t)is.st_size + more + 1))) exit(2);
    while (f.length < (size_t)is.st_size) {
        ssize_t n = read(fd, f.at + f.length, (size_t)is.st_size - f.length);
        if (n <= 0) exit(2);
        f.length += (size_t)n;
    }
    close(fd);
    return f;
}

static void write_file(const char *name, const uint8_t *s, size_t n) {
    char beside[4096];
    size_t done = 0;
    int fd;
    snprintf(beside, sizeof beside, "%s.new", name);
    fd = open(beside, O_WRONLY | O_CREAT | O_TRUNC, 0644);
    if (fd < 0) exit(2);
    while (done < n) {
        ssize_t one = write(fd, s + done, n - done);
        if (one <= 0) exit(2);
        done += (size_t)one;
    }
    if (fsync(fd) != 0 || close(fd) != 0 || rename(beside, name) != 0) exit(2);
}

static int refused(uint32_t number, size_t place) {
    if (number) fprintf(stderr, "refused %u at %zu\n", number, place);
    return number != 0;
}

static int check(char **words) {
    struct file book = read_file(words[0], 0);
    struct refusal r = plain_judge(book.at, book.length);
    if (refused(r.number, r.place)) return 1;
    printf("good, %zu octets, %u records\n", book.length, word32(book.at + 8));
    return 0;
}

static int make_index(char **words) {
    static uint8_t index[OFFSET + WIDTH * MOST_RECORDS];
    struct file book = read_file(words[0], 0);
    size_t n;
    struct refusal r = plain_index(book.at, book.length, index, sizeof index, &n);
    if (refused(r.number, r.place)) return 1;
    write_file(words[1], index, n);
    return 0;
}

static int get(char **words) {
    struct file book = read_file(words[0], 0), index = read_file(words[1], 0);
    struct stretch s;
    struct refusal r = plain_lookup_indexed(book.at, book.length, index.at, index.length, strtoull(words[2], 0, 10),
        (uint32_t)strtoul(words[3], 0, 16), &s);
    if (refused(r.number, r.place)) return 1;
    if (s.end) printf("%.*s\n", (int)(s.end - s.start - 1), book.at + s.start);
    return 0;
}

static int set(char **words) {
    size_t size = strlen(words[4]) + 1;
    struct file book = read_file(words[0], size);
    struct corrected c = plain_set(book.at, book.length + size, book.length, strtoull(words[2], 0, 10),
        (uint32_t)strtoul(words[3], 0, 16), (const uint8_t *)words[4], size);
    if (refused(c.number, c.number ? c.answer : 0)) return 1;
    write_file(words[1], book.at, c.answer);
    return 0;
}

int main(int count, char **words) {
    if (count == 3 && strcmp(words[1], "check") == 0) return check(words + 2);
    if (count == 4 && strcmp(words[1], "index") == 0) return make_index(words + 2);
    if (count == 6 && strcmp(words[1], "get") == 0) return get(words + 2);
    if (count == 7 && strcmp(words[1], "set") == 0) return set(words + 2);
    return 2;
}
