/* What a node alone writes for an acceptance, by SQLite's own library: the tables of a store, and for each acceptance
 * one transaction of one UPDATE and one INSERT, in WAL with synchronous=FULL, so that it survives a loss of power.
 *
 *   serve-peer SECONDS TURN TOKENS FILE normal       with SQLite's locks
 *   serve-peer SECONDS TURN TOKENS FILE exclusive    with the file locked once, as `oathd` does
 *   serve-peer SECONDS TURN TOKENS FILE disk         without SQLite: two pages are appended and synced, which is the
 *                                                    least that such a transaction writes
 *
 * TURN is 0, or says whose turn it works in. It prints: transactions, the seconds of its turns, and its seconds of
 * processor time.
 */
#include <fcntl.h>
#include <sqlite3.h>
#include <stdio.h>
#include <stdlib.h>
#include <string.h>
#include <sys/resource.h>
#include <unistd.h>

#include "serve-turns.h"

static const char *TABLES =
    "CREATE TABLE self (id INTEGER PRIMARY KEY CHECK (id = 1), version INTEGER NOT NULL,"
    "  node INTEGER NOT NULL, tokens INTEGER NOT NULL, boot INTEGER NOT NULL) STRICT;"
    "CREATE TABLE floor (token INTEGER PRIMARY KEY, next INTEGER NOT NULL,"
    "  g_node INTEGER, g_boot INTEGER, g_seq INTEGER, g_lo INTEGER, g_hi INTEGER,"
    "  fails INTEGER NOT NULL, until INTEGER NOT NULL) STRICT;"
    "CREATE TABLE pass (number INTEGER PRIMARY KEY, token INTEGER NOT NULL,"
    "  lo INTEGER NOT NULL, hi INTEGER NOT NULL, boot INTEGER NOT NULL, seq INTEGER NOT NULL) STRICT";

static sqlite3 *db;

/* How long it slept in the turns of the other. */
static double slept;

static void fail(const char *what)
{
    fprintf(stderr, "serve-peer: %s: %s\n", what, db ? sqlite3_errmsg(db) : "system");
    exit(1);
}

static void run(const char *text)
{
    if (sqlite3_exec(db, text, NULL, NULL, NULL) != SQLITE_OK) fail(text);
}

static sqlite3_stmt *prepared(const char *text)
{
    sqlite3_stmt *statement;
    if (sqlite3_prepare_v3(db, text, -1, SQLITE_PREPARE_PERSISTENT, &statement, NULL) != SQLITE_OK) fail(text);
    return statement;
}

/* Runs a statement that gives no row, with these numbers. */
static void step(sqlite3_stmt *statement, int count, const sqlite3_int64 *numbers)
{
    for (int i = 0; i < count; i++) sqlite3_bind_int64(statement, i + 1, numbers[i]);
    if (sqlite3_step(statement) != SQLITE_DONE) fail("step");
    sqlite3_reset(statement);
}

static void make_tables(const char *path, const char *locks, sqlite3_int64 tokens)
{
    if (sqlite3_open(path, &db) != SQLITE_OK) fail("open");
    if (strcmp(locks, "exclusive") == 0) run("PRAGMA locking_mode = EXCLUSIVE");
    run("PRAGMA journal_mode = WAL");
    run("PRAGMA synchronous = FULL");
    run("BEGIN IMMEDIATE");
    run(TABLES);
    run("INSERT INTO self (id, version, node, tokens, boot) VALUES (1, 1, 1, 0, 0)");
    sqlite3_stmt *insert = prepared("INSERT INTO floor (token, next, fails, until) VALUES (?1, 0, 0, 0)");
    for (sqlite3_int64 token = 0; token < tokens; token++) step(insert, 1, &token);
    run("COMMIT");
}

static long accept_all(double seconds, int turn, sqlite3_int64 tokens)
{
    sqlite3_stmt *begin = prepared("BEGIN IMMEDIATE"), *commit = prepared("COMMIT");
    sqlite3_stmt *update = prepared("UPDATE floor SET next = ?2, g_node = ?3, g_boot = ?4, g_seq = ?5, g_lo = ?6,"
                                    " g_hi = ?7, fails = ?8, until = ?9 WHERE token = ?1");
    sqlite3_stmt *insert = prepared("INSERT INTO pass (number, token, lo, hi, boot, seq)"
                                    " VALUES (?1, ?2, ?3, ?4, ?5, ?6)");
    double end = now() + seconds;
    sqlite3_int64 count = 0;
    for (; now() < end; count++) {
        slept += await_turn(turn);
        sqlite3_int64 token = count % tokens, factor = count / tokens;
        sqlite3_int64 floor[9] = { token, factor + 1, 1, 1, count, factor, factor, 0, 0 };
        sqlite3_int64 pass[6] = { count + 1, token, factor, factor, 1, count };
        step(begin, 0, NULL);
        step(update, 9, floor);
        step(insert, 6, pass);
        step(commit, 0, NULL);
    }
    return (long)count;
}

/* Appends two pages with the heads that a log has, and syncs. The file is written anew from its start every 500 times,
 * as a log is that has been taken over. */
static long append_all(double seconds, int turn, const char *path)
{
    static char frames[2 * 4120];
    int fd = open(path, O_RDWR | O_CREAT | O_TRUNC, 0644);
    double end = now() + seconds;
    long count = 0;
    if (fd < 0) fail("open");
    for (; now() < end; count++) {
        slept += await_turn(turn);
        off_t place = (off_t)(count % 500) * (off_t)sizeof frames;
        if (pwrite(fd, frames, sizeof frames, place) != sizeof frames) fail("write");
        if (fdatasync(fd) < 0) fail("sync");
    }
    return count;
}

int main(int argc, char **argv)
{
    struct rusage usage;
    if (argc != 6) {
        fprintf(stderr, "serve-peer SECONDS TURN TOKENS FILE normal|exclusive|disk\n");
        return 2;
    }
    double seconds = atof(argv[1]);
    int turn = atoi(argv[2]), is_disk = strcmp(argv[5], "disk") == 0;
    long tokens = atol(argv[3]);
    if (!is_disk) make_tables(argv[4], argv[5], tokens);
    double start = now();
    long count = is_disk ? append_all(seconds, turn, argv[4]) : accept_all(seconds, turn, tokens);
    double took = now() - start - slept;
    getrusage(RUSAGE_SELF, &usage);
    printf("%ld %.3f %.3f\n", count, took,
           (double)(usage.ru_utime.tv_sec + usage.ru_stime.tv_sec)
               + (double)(usage.ru_utime.tv_usec + usage.ru_stime.tv_usec) / 1e6);
    return 0;
}
