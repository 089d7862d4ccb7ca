/* SQLite's nearest equivalent of the workload COMMIT: one table of 4,096 records of 1,024 bytes, and
 * a transaction that changes 24 bytes in each of two records.
 *
 * WAL journal, synchronous off, the files on a tmpfs; statements are prepared once; the journal is
 * written back as often as SQLite does it by itself, which is its share of cleaning. Once as SQLite
 * comes, and once in its favour, with the database held by one process for itself, so that no locks
 * and no shared index of the journal are kept on files. A part of a record is changed through
 * sqlite3_blob_write, which was faster than reading the record and writing it back by a statement. */
#include "workloads.h"

#include <sqlite3.h>
#include <stdio.h>
#include <string.h>

static sqlite3 *database;
static sqlite3_stmt *begin, *commit;
static char path[4096];

static bool run(const char *words)
{
    return sqlite3_exec(database, words, NULL, NULL, NULL) == SQLITE_OK;
}

static bool prepare(const char *words, sqlite3_stmt **statement)
{
    return sqlite3_prepare_v2(database, words, -1, statement, NULL) == SQLITE_OK;
}

/* Runs a statement that gives no rows. */
static bool step(sqlite3_stmt *statement)
{
    bool done = sqlite3_step(statement) == SQLITE_DONE;
    return sqlite3_reset(statement) == SQLITE_OK && done;
}

static void remove_files(void)
{
    char name[sizeof path + 8];

    remove(path);
    snprintf(name, sizeof name, "%s-wal", path);
    remove(name);
    snprintf(name, sizeof name, "%s-shm", path);
    remove(name);
}

static bool insert_all(const uint8_t *records)
{
    sqlite3_stmt *insert;
    bool fine = prepare("INSERT INTO record (number, bytes) VALUES (?, ?)", &insert);

    for (int number = 0; fine && number < BENCH_PAGES; number++)
        fine = sqlite3_bind_int(insert, 1, number) == SQLITE_OK
               && sqlite3_bind_blob(insert, 2, records + (size_t)number * BENCH_PAGE_SIZE,
                                    BENCH_PAGE_SIZE, SQLITE_STATIC) == SQLITE_OK
               && step(insert);
    return sqlite3_finalize(insert) == SQLITE_OK && fine;
}

static bool start_with(const char *folder, const uint8_t *records, const char *locking)
{
    snprintf(path, sizeof path, "%s/bench.sqlite", folder);
    remove_files();
    return sqlite3_open(path, &database) == SQLITE_OK && run(locking)
           && run("PRAGMA journal_mode = WAL") && run("PRAGMA synchronous = OFF")
           && run("CREATE TABLE record (number INTEGER PRIMARY KEY, bytes BLOB NOT NULL)")
           && run("BEGIN") && insert_all(records) && run("COMMIT")
           && run("PRAGMA wal_checkpoint(TRUNCATE)") && prepare("BEGIN IMMEDIATE", &begin)
           && prepare("COMMIT", &commit);
}

static bool start(const char *folder, const uint8_t *records)
{
    return start_with(folder, records, "PRAGMA locking_mode = NORMAL");
}

static bool start_exclusive(const char *folder, const uint8_t *records)
{
    return start_with(folder, records, "PRAGMA locking_mode = EXCLUSIVE");
}

static bool change(const struct two_updates *updates)
{
    sqlite3_blob *part;
    bool fine = sqlite3_blob_open(database, "main", "record", "bytes", updates->page[0], 1, &part)
                    == SQLITE_OK
                && sqlite3_blob_write(part, updates->bytes[0], BENCH_UPDATE_BYTES,
                                      (int)updates->offset[0]) == SQLITE_OK
                && sqlite3_blob_reopen(part, updates->page[1]) == SQLITE_OK
                && sqlite3_blob_write(part, updates->bytes[1], BENCH_UPDATE_BYTES,
                                      (int)updates->offset[1]) == SQLITE_OK;
    return sqlite3_blob_close(part) == SQLITE_OK && fine;
}

/* 0 if every call went well. The areas are not used. */
static uint64_t commits(uint8_t *log, size_t log_length, uint8_t *home, size_t home_length,
                        uint8_t *frames, size_t frames_length, uint8_t *staging,
                        size_t staging_length, uint64_t count)
{
    struct two_updates updates;
    uint64_t x = 1;

    (void)log, (void)log_length, (void)home, (void)home_length, (void)frames, (void)frames_length;
    (void)staging, (void)staging_length;
    start_updates(&updates);
    for (uint64_t i = 0; i < count; i++) {
        next_updates(&updates, &x, i);
        if (!step(begin) || !change(&updates) || !step(commit))
            return 1;
    }
    return 0;
}

static bool stop(uint8_t *records)
{
    sqlite3_stmt *get;
    bool fine = prepare("SELECT bytes FROM record ORDER BY number", &get);

    for (size_t number = 0; fine && number < BENCH_PAGES; number++) {
        fine = sqlite3_step(get) == SQLITE_ROW && sqlite3_column_bytes(get, 0) == BENCH_PAGE_SIZE;
        if (fine)
            memcpy(records + number * BENCH_PAGE_SIZE, sqlite3_column_blob(get, 0), BENCH_PAGE_SIZE);
    }
    fine = fine && sqlite3_step(get) == SQLITE_DONE;
    sqlite3_finalize(get);
    sqlite3_finalize(begin);
    sqlite3_finalize(commit);
    fine = sqlite3_close(database) == SQLITE_OK && fine;
    remove_files();
    return fine;
}

const struct subject sqlite_subject = {
    .name = "SQLite",
    .start = start,
    .stop = stop,
    .work = {[COMMIT] = commits},
};

const struct subject sqlite_exclusive_subject = {
    .name = "SQLite, exclusive",
    .start = start_exclusive,
    .stop = stop,
    .work = {[COMMIT] = commits},
};
