/* LMDB's nearest equivalent of the workload COMMIT: 4,096 records of 1,024 bytes under whole-number
 * keys, and a transaction that changes 24 bytes in each of two records.
 *
 * Nothing is synchronised, and the file is on a tmpfs. Once as LMDB comes, and once in its favour:
 * with the file mapped for writing, its fast and less guarded way, and without locks, since one
 * thread is all there is. A record is read where it lies and written back changed: LMDB has no call
 * that changes a part of one. */
#include "workloads.h"

#include <lmdb.h>
#include <stdio.h>
#include <string.h>

static MDB_env *environment;
static MDB_dbi table;
static char path[4096];

static void remove_files(void)
{
    char name[sizeof path + 8];

    remove(path);
    snprintf(name, sizeof name, "%s-lock", path);
    remove(name);
}

static bool put_record(MDB_txn *transaction, unsigned number, uint8_t *record)
{
    MDB_val key = {sizeof number, &number};
    MDB_val value = {BENCH_PAGE_SIZE, record};
    return mdb_put(transaction, table, &key, &value, 0) == MDB_SUCCESS;
}

static bool get_record(MDB_txn *transaction, unsigned number, uint8_t *record)
{
    MDB_val key = {sizeof number, &number};
    MDB_val value;
    if (mdb_get(transaction, table, &key, &value) != MDB_SUCCESS || value.mv_size != BENCH_PAGE_SIZE)
        return false;
    memcpy(record, value.mv_data, BENCH_PAGE_SIZE);
    return true;
}

static bool start_with(const char *folder, const uint8_t *records, unsigned flags)
{
    MDB_txn *transaction;
    uint8_t record[BENCH_PAGE_SIZE];

    snprintf(path, sizeof path, "%s/bench.lmdb", folder);
    remove_files();
    if (mdb_env_create(&environment) != MDB_SUCCESS
        || mdb_env_set_mapsize(environment, (size_t)64 << 20) != MDB_SUCCESS
        || mdb_env_open(environment, path, MDB_NOSUBDIR | MDB_NOSYNC | flags, 0600)
               != MDB_SUCCESS
        || mdb_txn_begin(environment, NULL, 0, &transaction) != MDB_SUCCESS
        || mdb_dbi_open(transaction, NULL, MDB_INTEGERKEY, &table) != MDB_SUCCESS)
        return false;
    for (unsigned number = 0; number < BENCH_PAGES; number++) {
        memcpy(record, records + (size_t)number * BENCH_PAGE_SIZE, BENCH_PAGE_SIZE);
        if (!put_record(transaction, number, record))
            return false;
    }
    return mdb_txn_commit(transaction) == MDB_SUCCESS;
}

static bool start(const char *folder, const uint8_t *records)
{
    return start_with(folder, records, 0);
}

static bool start_mapped(const char *folder, const uint8_t *records)
{
    return start_with(folder, records, MDB_WRITEMAP | MDB_NOLOCK);
}

/* 0 if every call went well. The areas are not used. */
static uint64_t commits(uint8_t *log, size_t log_length, uint8_t *home, size_t home_length,
                        uint8_t *frames, size_t frames_length, uint8_t *staging,
                        size_t staging_length, uint64_t count)
{
    struct two_updates updates;
    uint8_t record[BENCH_PAGE_SIZE];
    uint64_t x = 1;

    (void)log, (void)log_length, (void)home, (void)home_length, (void)frames, (void)frames_length;
    (void)staging, (void)staging_length;
    start_updates(&updates);
    for (uint64_t i = 0; i < count; i++) {
        MDB_txn *transaction;
        next_updates(&updates, &x, i);
        if (mdb_txn_begin(environment, NULL, 0, &transaction) != MDB_SUCCESS)
            return 1;
        for (int which = 0; which < 2; which++) {
            if (!get_record(transaction, updates.page[which], record))
                return 1;
            memcpy(record + updates.offset[which], updates.bytes[which], BENCH_UPDATE_BYTES);
            if (!put_record(transaction, updates.page[which], record))
                return 1;
        }
        if (mdb_txn_commit(transaction) != MDB_SUCCESS)
            return 1;
    }
    return 0;
}

static bool stop(uint8_t *records)
{
    MDB_txn *transaction = NULL;
    bool fine = mdb_txn_begin(environment, NULL, MDB_RDONLY, &transaction) == MDB_SUCCESS;

    for (unsigned number = 0; fine && number < BENCH_PAGES; number++)
        fine = get_record(transaction, number, records + (size_t)number * BENCH_PAGE_SIZE);
    if (transaction != NULL)
        mdb_txn_abort(transaction);
    mdb_env_close(environment);
    remove_files();
    return fine;
}

const struct subject lmdb_subject = {
    .name = "LMDB",
    .start = start,
    .stop = stop,
    .work = {[COMMIT] = commits},
};

const struct subject lmdb_mapped_subject = {
    .name = "LMDB, mapped",
    .start = start_mapped,
    .stop = stop,
    .work = {[COMMIT] = commits},
};
