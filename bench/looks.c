/* What a look at the files of a store costs a commit: three writes into a file in the form of a -wal, fdatasync, and the look.

   gcc -O2 bench/looks.c -o looks && ./looks FOLDER

   Rounds of 300 commits each take turns between no look, a look at the database and the -wal by their paths, a look
   at their folder, and one at the folder as it was opened before. For each it prints the median time of a commit of
   the median round, that of the least and of the greatest one, and the mean time of the look itself, in
   microseconds. FOLDER is on the disk that counts; its files go at the end. */
#define _GNU_SOURCE
#include <fcntl.h>
#include <stdio.h>
#include <stdlib.h>
#include <string.h>
#include <sys/stat.h>
#include <time.h>
#include <unistd.h>

enum { NONE, FILES, FOLDER, OPENED, LOOKS };
enum { ROUNDS = 15, COMMITS = 300, PAGES = 190, FRAME = 16480 };

static const char *const NAMES[LOOKS] = {"no look", "database and -wal", "their folder", "their open folder"};

static double now(void)
{
    struct timespec at;
    clock_gettime(CLOCK_MONOTONIC, &at);
    return at.tv_sec * 1e6 + at.tv_nsec / 1e3;
}

static int compare(const void *one, const void *other)
{
    double x = *(const double *)one, y = *(const double *)other;
    return (x > y) - (x < y);
}

static void look(int folder, const char *path)
{
    struct statx found;
    if (statx(folder, path, AT_EMPTY_PATH, STATX_BASIC_STATS | STATX_BTIME, &found)) {
        perror(path);
        exit(1);
    }
}

static int opened(const char *path)
{
    int file = open(path, O_RDWR | O_CREAT | O_TRUNC, 0600);
    if (file < 0) {
        perror(path);
        exit(1);
    }
    return file;
}

int main(int count, char **words)
{
    static char frame[FRAME];
    static double medians[LOOKS][ROUNDS], looks[LOOKS];
    char database[4200], log[4200];
    if (count != 2) {
        fprintf(stderr, "usage: looks FOLDER\n");
        return 2;
    }
    snprintf(database, sizeof database, "%s/looks.db", words[1]);
    snprintf(log, sizeof log, "%s/looks.db-wal", words[1]);
    int store = opened(database), wal = opened(log), folder = open(words[1], O_RDONLY | O_DIRECTORY);
    for (int page = 0; page < PAGES; page++)
        if (pwrite(wal, frame, FRAME, (off_t)page * FRAME) != FRAME)
            return 1;
    if (write(store, frame, 4096) != 4096 || fsync(store) || fsync(wal))
        return 1;
    for (int round = 0; round < ROUNDS; round++)
        for (int kind = 0; kind < LOOKS; kind++) {
            double times[COMMITS];
            for (int commit = 0; commit < COMMITS; commit++) {
                off_t at = (off_t)(commit % PAGES) * FRAME;
                double begin = now();
                if (pwrite(wal, frame, 8, at) != 8 || pwrite(wal, frame, 12360, at + 8) != 12360 ||
                    pwrite(wal, frame, 1, at + 12400) != 1 || fdatasync(wal))
                    return 1;
                double synced = now();
                if (kind == FILES) {
                    look(AT_FDCWD, database);
                    look(AT_FDCWD, log);
                } else if (kind == FOLDER) {
                    look(AT_FDCWD, words[1]);
                } else if (kind == OPENED) {
                    look(folder, "");
                }
                double end = now();
                times[commit] = end - begin;
                looks[kind] += end - synced;
            }
            qsort(times, COMMITS, sizeof *times, compare);
            medians[kind][round] = times[COMMITS / 2];
        }
    for (int kind = 0; kind < LOOKS; kind++) {
        qsort(medians[kind], ROUNDS, sizeof **medians, compare);
        printf("%s: a commit %.1f us (%.1f to %.1f), the look itself %.2f us\n", NAMES[kind], medians[kind][ROUNDS / 2],
               medians[kind][0], medians[kind][ROUNDS - 1], looks[kind] / (ROUNDS * COMMITS));
    }
    unlink(log);
    return unlink(database) != 0;
}
