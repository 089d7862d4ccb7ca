/* The workloads of the benchmark, defined call by call, so that every subject makes the same calls.
 *
 * A workload is one function: it is lent the four areas and a count, makes the calls below, and
 * gives back a digest of the answers. Its time is taken from outside. The areas are ready when it
 * starts; what it does before its loop is part of its time, and small beside the loop.
 *
 * Sizes: N 1,024 slots, P 4,096 pages, F 32 frames and 32 staging areas, but for the workloads
 * OPEN_8 and OPEN_64, which have N 8 and 64. Home byte i is (i + 31 * (i / 1024)) % 251 at first.
 *
 * Numbers that look random: x starts at 1 in each workload. A draw makes
 * x = (x * 1103515245 + 12345) % 2^31 and gives x / 65536, which is below 32,768.
 *
 * Digest: h starts at 0. Noting a value, below 2^48, makes h = (h % 2^48) * 31 + value. For a refused call the
 * value is the refusal's number, for an accepted one 16 plus what is said below, or 16 alone.
 *
 * COMMIT (log: any bytes)
 *   Format. Open, noting its ticket. Then for i from 0 to count - 1:
 *   1. Four draws a, b, c, d. The first update is in page a % 4096 at offset b % 1001, the second in
 *      page c % 4096 at offset d % 1001; if both pages are the same, the second is the one after it,
 *      modulo 4,096. Each has 24 bytes: byte j is 11 * j, but byte 0 is i % 256, byte 1 is
 *      (i / 256) % 256, byte 2 is (i / 65536) % 256, and byte 3 is 1 in the first update and 2 in
 *      the second.
 *   2. Begin 2, noted.
 *   3. Describe the first update, then the second, both noted. End, noting its ticket.
 *   4. Three Log steps, noting the settled ticket at the commit, else 0.
 *   5. Six Clean steps, noted: both pages are cleaned at once, so two pages are dirty at most.
 *   The log and home it leaves are compared between the subjects.
 *
 * COMMIT_LATE (log: any bytes)
 *   As COMMIT, but without its 5, and with this for its 2: Begin 2, noted. While it is refused with
 *   5: three Clean steps, noted, then Begin 2 again, noted.
 *   So cleaning is left until a transaction needs the frames. From the seventeenth transaction on
 *   (but for pages that are dirty already) each one finds 32 dirty pages, has Begin refused twice,
 *   and cleans two pages. Against COMMIT it shows what the number of dirty pages costs.
 *   The log and home it leaves are compared between the subjects.
 *
 * OPEN_FULL, OPEN_8, OPEN_64, OPEN_1024 (log and home: made by make_log in workloads.c)
 *   count times Open, at least once, noting its ticket. Then Read of the pages 0, 128, 256 and so on up to 3,968,
 *   noting the bytes at 0, 64, 128 and so on up to 960 of each, one by one.
 *   OPEN_FULL: every slot is valid, 990 blocks are walked, 32 pages are dirty.
 *   OPEN_8, OPEN_64, OPEN_1024: every slot is valid, 3, 60 and 1,020 blocks are walked, 2 pages are
 *   dirty.
 *
 * READ (log and home: as OPEN_FULL)
 *   Open, noting its ticket. Then count times: one draw a, Read of page a % 4096, noting the first
 *   byte of the page.
 *
 * BEGIN_REFUSED (log and home: as OPEN_FULL)
 *   Open, noting its ticket. Then count times Begin 1, noted; it is refused with 5, since all 32
 *   frames are in use.
 *
 * CHECK (log: as OPEN_FULL)
 *   For i from 0 to count - 1: the check of the first 508 bytes of slot i % 1024, noting
 *   A + 65536 * B as for an accepted call. */
#ifndef WORKLOADS_H
#define WORKLOADS_H

#include <stdbool.h>
#include <stddef.h>
#include <stdint.h>

enum {
    BENCH_SLOTS = 1024,
    BENCH_PAGES = 4096,
    BENCH_FRAMES = 32,
    BENCH_PAGE_SIZE = 1024,
    BENCH_UPDATE_BYTES = 24,
};

enum workload_number {
    COMMIT,
    COMMIT_LATE,
    OPEN_FULL,
    READ,
    BEGIN_REFUSED,
    CHECK,
    OPEN_8,
    OPEN_64,
    OPEN_1024,
    WORKLOADS,
};

typedef uint64_t workload(uint8_t *log, size_t log_length, uint8_t *home, size_t home_length,
                          uint8_t *frames, size_t frames_length, uint8_t *staging,
                          size_t staging_length, uint64_t count);

/* Something that is measured. A workload that it does not have is NULL. */
struct subject {
    const char *name;
    bool same_answers;  /* its digests must be C's */
    /* Only for a subject that keeps its records elsewhere, else NULL. `start` makes a fresh store of
     * 4,096 records of 1,024 bytes in a folder; `stop` reads all records back and takes the store
     * away. Both are outside the measured time, and false if something failed. */
    bool (*start)(const char *folder, const uint8_t *records);
    bool (*stop)(uint8_t *records);
    workload *work[WORKLOADS];
};

static inline uint64_t draw(uint64_t *x)
{
    *x = (*x * 1103515245 + 12345) % ((uint64_t)1 << 31);
    return *x / 65536;
}

static inline uint64_t note(uint64_t digest, uint64_t value)
{
    return digest % ((uint64_t)1 << 48) * 31 + value;
}

/* The two updates of a transaction of COMMIT and COMMIT_LATE. */
struct two_updates {
    uint32_t page[2];
    uint32_t offset[2];
    uint8_t bytes[2][BENCH_UPDATE_BYTES];
};

static inline void start_updates(struct two_updates *updates)
{
    for (int which = 0; which < 2; which++)
        for (int j = 0; j < BENCH_UPDATE_BYTES; j++)
            updates->bytes[which][j] = (uint8_t)(11 * j);
}

static inline void next_updates(struct two_updates *updates, uint64_t *x, uint64_t i)
{
    for (int which = 0; which < 2; which++) {
        updates->page[which] = (uint32_t)(draw(x) % BENCH_PAGES);
        updates->offset[which] = (uint32_t)(draw(x) % (BENCH_PAGE_SIZE - BENCH_UPDATE_BYTES + 1));
        updates->bytes[which][0] = (uint8_t)i;
        updates->bytes[which][1] = (uint8_t)(i / 256);
        updates->bytes[which][2] = (uint8_t)(i / 65536);
        updates->bytes[which][3] = (uint8_t)(which + 1);
    }
    if (updates->page[1] == updates->page[0])
        updates->page[1] = (updates->page[0] + 1) % BENCH_PAGES;
}

extern const struct subject c_subject;
extern const struct subject check_by_bytes_subject;
#ifdef __SSE2__
extern const struct subject check_by_sse2_subject;
#endif
#ifdef WITH_PEGRIDOL
extern const struct subject pegridol_subject;
#endif
#ifdef WITH_SQLITE
extern const struct subject sqlite_subject;
extern const struct subject sqlite_exclusive_subject;
#endif
#ifdef WITH_LMDB
extern const struct subject lmdb_subject;
extern const struct subject lmdb_mapped_subject;
#endif

#endif
