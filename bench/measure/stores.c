/* What the measurements of stores do beside the client: bare appends as a commit makes them, and SQLite with prepared
 * statements, write-ahead log, synchronous FULL. Each prints seconds, and where it commits the middle and the 99th
 * percentile of one commit in microseconds. */
#include <fcntl.h>
#include <sqlite3.h>
#include <stdio.h>
#include <stdlib.h>
#include <string.h>
#include <time.h>
#include <unistd.h>

static double now(void) {
    struct timespec t;
    clock_gettime(CLOCK_MONOTONIC, &t);
    return t.tv_sec + t.tv_nsec / 1e9;
}

static void want(int is, const char *what) {
    if (!is) {
        fprintf(stderr, "stores: %s\n", what);
        exit(1);
    }
}

static int ascending(const void *a, const void *b) {
    double x = *(const double *)a, y = *(const double *)b;
    return (x > y) - (x < y);
}

static void tell(double seconds, double *each, long count) {
    qsort(each, count, sizeof *each, ascending);
    printf("%.6f %.1f %.1f\n", seconds, 1e6 * each[count / 2], 1e6 * each[count * 99 / 100]);
}

/* So many appends of a payload: behind a closed gate, a sync, the gate opened, a sync. */
static void bare(const char *folder, long count, long size) {
    char path[4096];
    snprintf(path, sizeof path, "%s/bare", folder);
    int file = open(path, O_RDWR | O_CREAT | O_TRUNC, 0666);
    char *piece = calloc(1, size + 9);
    double *each = malloc(count * sizeof *each), started = now();
    long at = 16;
    want(file >= 0 && piece && each, "bare");
    for (long n = 0; n < count; n++, at += size + 9) {
        double before = now();
        want(pwrite(file, piece, size + 9, at + 1) == size + 9 && fdatasync(file) == 0, "append");
        want(pwrite(file, "\1", 1, at) == 1 && fdatasync(file) == 0, "gate");
        each[n] = now() - before;
    }
    tell(now() - started, each, count);
}

static sqlite3 *opened(const char *folder) {
    char path[4096];
    sqlite3 *database;
    snprintf(path, sizeof path, "%s/documents.db", folder);
    want(sqlite3_open(path, &database) == SQLITE_OK, "open");
    want(sqlite3_exec(database, "PRAGMA journal_mode=WAL; PRAGMA synchronous=FULL", 0, 0, 0) == SQLITE_OK, "pragma");
    want(sqlite3_exec(database,
        "CREATE TABLE IF NOT EXISTS batches (number INTEGER PRIMARY KEY, body TEXT NOT NULL);"
        "CREATE TABLE IF NOT EXISTS documents (name TEXT PRIMARY KEY, body TEXT NOT NULL) WITHOUT ROWID", 0, 0, 0) == SQLITE_OK, "tables");
    return database;
}

static sqlite3_stmt *prepared(sqlite3 *database, const char *text) {
    sqlite3_stmt *statement;
    want(sqlite3_prepare_v2(database, text, -1, &statement, 0) == SQLITE_OK, text);
    return statement;
}

static void done(sqlite3_stmt *statement) {
    want(sqlite3_step(statement) == SQLITE_DONE, "step");
    sqlite3_reset(statement);
}

/* Each line of standard input is a row, and a transaction of its own. */
static void commits(const char *folder) {
    sqlite3 *database = opened(folder);
    sqlite3_stmt *begin = prepared(database, "BEGIN IMMEDIATE"), *commit = prepared(database, "COMMIT");
    sqlite3_stmt *insert = prepared(database, "INSERT INTO batches (body) VALUES (?)");
    long count = 0, room = 1 << 20;
    double *each = malloc(room * sizeof *each), started = now();
    char *line = 0;
    size_t size = 0;
    for (ssize_t length; (length = getline(&line, &size, stdin)) > 0; count++) {
        double before = now();
        want(count < room, "room");
        done(begin);
        sqlite3_bind_text(insert, 1, line, length, SQLITE_STATIC);
        done(insert);
        done(commit);
        each[count] = now() - before;
    }
    tell(now() - started, each, count);
}

/* So many documents of so many bytes, put in by one transaction; then gets by name in an order by chance. */
static void gets_by_name(const char *folder, long count, long gets) {
    sqlite3 *database = opened(folder);
    sqlite3_stmt *insert = prepared(database, "INSERT INTO documents VALUES (?, ?)");
    sqlite3_stmt *select = prepared(database, "SELECT body FROM documents WHERE name = ?");
    char name[64];
    sqlite3_exec(database, "BEGIN", 0, 0, 0);
    for (long n = 0; n < count; n++) {
        sqlite3_bind_text(insert, 1, name, snprintf(name, sizeof name, "rooms/d%ld", n), SQLITE_STATIC);
        sqlite3_bind_text(insert, 2, "{\"n\":{\"integerValue\":\"1\"}}", -1, SQLITE_STATIC);
        done(insert);
    }
    sqlite3_exec(database, "COMMIT", 0, 0, 0);
    srandom(count);
    double started = now();
    for (long n = 0; n < gets; n++) {
        sqlite3_bind_text(select, 1, name, snprintf(name, sizeof name, "rooms/d%ld", random() % count), SQLITE_STATIC);
        want(sqlite3_step(select) == SQLITE_ROW && sqlite3_column_bytes(select, 0) > 0, "get");
        sqlite3_reset(select);
    }
    printf("%.6f\n", now() - started);
}

/* An opening, and a walk through all rows. */
static void scan(const char *folder) {
    double started = now();
    sqlite3 *database = opened(folder);
    sqlite3_stmt *select = prepared(database, "SELECT body FROM batches ORDER BY number");
    long bytes = 0;
    while (sqlite3_step(select) == SQLITE_ROW)
        bytes += strlen((const char *)sqlite3_column_text(select, 0));
    printf("%.6f %ld\n", now() - started, bytes);
}

int main(int count, char **words) {
    want(count >= 3, "bare FOLDER COUNT SIZE | commits FOLDER | gets FOLDER COUNT GETS | scan FOLDER");
    if (!strcmp(words[1], "bare") && count == 5)
        bare(words[2], atol(words[3]), atol(words[4]));
    else if (!strcmp(words[1], "commits"))
        commits(words[2]);
    else if (!strcmp(words[1], "gets") && count == 5)
        gets_by_name(words[2], atol(words[3]), atol(words[4]));
    else if (!strcmp(words[1], "scan"))
        scan(words[2]);
    else
        want(0, "no such trial");
    return 0;
}
