/* measure N PROGRAM WORDS..: runs it and writes seconds elapsed and the most kibibytes resident at once to descriptor
 * N. A small program of its own, since a process counts the memory of the one that started it as its own. */
#include <stdio.h>
#include <stdlib.h>
#include <sys/resource.h>
#include <sys/wait.h>
#include <time.h>
#include <unistd.h>

int main(int count, char **words) {
    struct timespec start, end;
    struct rusage used;
    int status, to;
    pid_t child;
    if (count < 3) return 2;
    to = atoi(words[1]);
    clock_gettime(CLOCK_MONOTONIC, &start);
    child = fork();
    if (child == 0) {
        close(to);
        execv(words[2], words + 2);
        _exit(127);
    }
    if (child < 0 || wait4(child, &status, 0, &used) != child) return 2;
    clock_gettime(CLOCK_MONOTONIC, &end);
    dprintf(to, "%.6f %ld", (double)(end.tv_sec - start.tv_sec) + 1e-9 * (double)(end.tv_nsec - start.tv_nsec),
        used.ru_maxrss);
    return WIFEXITED(status) ? WEXITSTATUS(status) : 128;
}
