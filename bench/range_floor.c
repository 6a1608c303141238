/* What the system's calls of a copy by ranges cost with nothing else: pread and pwrite, in as many threads as are given.
 *
 * usage: cc -O2 -pthread -o range_floor range_floor.c
 *        range_floor FILE TARGET THREADS RANGE
 *        range_floor -apart FILE TARGET THREADS RANGE
 *
 * It makes TARGET and copies FILE into it. Thread number t copies the ranges number t, t + THREADS, and so on, in pieces of 64 KiB, by
 * file handles of its own. With -apart each thread writes a file of its own, TARGET.0, TARGET.1, and so on, with its ranges one behind
 * the other: a kernel that lets one thread at a time write to a file is then no hindrance.
 */
#include <fcntl.h>
#include <pthread.h>
#include <stdio.h>
#include <stdlib.h>
#include <string.h>
#include <sys/stat.h>
#include <unistd.h>

enum { PIECE = 65536, MOST = 64 };

static const char *from, *to;
static long size, range, threads;
static int is_apart;

static void stop(const char *path) {
    perror(path);
    exit(1);
}

static int opened(const char *path, int how) {
    int file = open(path, how, 0644);
    if (file < 0) stop(path);
    return file;
}

/* Copies the bytes from a place on to an end; where they go begins at another place. */
static void copy(int in, int out, char *buffer, long at, long end, long place) {
    while (at < end) {
        long most = end - at < PIECE ? end - at : PIECE;
        long count = pread(in, buffer, most, at);
        if (count <= 0) stop(from);
        if (pwrite(out, buffer, count, place) != count) stop(to);
        at += count;
        place += count;
    }
}

static void *work(void *given) {
    long number = (long)given, place = 0;
    char name[4200], *buffer = malloc(PIECE);
    snprintf(name, sizeof name, "%s.%ld", to, number);
    int in = opened(from, O_RDONLY);
    int out = is_apart ? opened(name, O_WRONLY | O_CREAT | O_EXCL) : opened(to, O_WRONLY);
    for (long start = number * range; start < size; start += threads * range) {
        long end = start + range < size ? start + range : size;
        copy(in, out, buffer, start, end, is_apart ? place : start);
        place += end - start;
    }
    close(in);
    close(out);
    free(buffer);
    return NULL;
}

int main(int count, char **words) {
    if (count > 1 && !strcmp(words[1], "-apart")) is_apart = 1, count--, words++;
    if (count != 5) return fprintf(stderr, "usage: range_floor [-apart] FILE TARGET THREADS RANGE\n"), 2;
    from = words[1], to = words[2], threads = atol(words[3]), range = atol(words[4]);
    struct stat told;
    if (stat(from, &told)) stop(from);
    size = told.st_size;
    if (threads < 1 || threads > MOST || range < 1) return fprintf(stderr, "1 to %d threads, and a range of 1 byte or more\n", MOST), 2;
    if (!is_apart) close(opened(to, O_WRONLY | O_CREAT | O_EXCL));
    pthread_t all[MOST];
    for (long k = 0; k < threads; k++)
        if (pthread_create(&all[k], NULL, work, (void *)k)) stop("a thread");
    for (long k = 0; k < threads; k++) pthread_join(all[k], NULL);
    return 0;
}
