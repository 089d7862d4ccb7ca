/* The frame of the benchmark: makes the areas ready, times each workload of each subject in rounds
 * that take turns, checks that the subjects did the same work, and prints one table.
 *
 *     workloads FOLDER ROUNDS
 *
 * FOLDER, on a tmpfs, is where the databases keep their files. bench/run builds and calls this. */
#define _POSIX_C_SOURCE 200809L

#include "workloads.h"
#include "c/store.h"

#include <alloca.h>
#include <inttypes.h>
#include <stdio.h>
#include <stdlib.h>
#include <string.h>
#include <time.h>

enum {
    ROUNDS_MOST = 101,
    LOG_LENGTH = BENCH_SLOTS * STORE_BLOCK_SIZE,
    HOME_LENGTH = BENCH_PAGES * STORE_PAGE_SIZE,
    FRAMES_LENGTH = BENCH_FRAMES * STORE_PAGE_SIZE,
    STAGING_LENGTH = BENCH_FRAMES * STORE_UPDATE_SIZE,
};

static void fail(const char *what, const char *subject)
{
    fflush(stdout);
    fprintf(stderr, "bench: %s (%s)\n", what, subject);
    exit(1);
}

static uint8_t *new_area(size_t length)
{
    /* Whole machine pages, touched once, so that no subject pays for the first use. */
    uint8_t *bytes = aligned_alloc(4096, (length + 4095) / 4096 * 4096);
    if (bytes == NULL)
        fail("no memory", "frame");
    memset(bytes, 170, length);
    return bytes;
}

static void fill_home(uint8_t *home)
{
    for (size_t i = 0; i < HOME_LENGTH; i++)
        home[i] = (uint8_t)((i + 31 * (i / 1024)) % 251);
}

/* ---- The logs that are opened ----------------------------------------------------------------- */

struct image {
    uint32_t slots;
    uint8_t *log;
    uint8_t *home;
};

static struct store_area log_area, home_area, frames_area, staging_area;

static void transaction(struct store_state *state, const struct two_updates *updates)
{
    uint64_t ticket;

    for (int which = 0; which < 2; which++)
        if (store_describe(state, staging_area, updates->page[which], updates->offset[which],
                           updates->bytes[which], BENCH_UPDATE_BYTES) != STORE_ACCEPTED)
            fail("a Describe was refused", "make_log");
    if (store_end(state, &ticket) != STORE_ACCEPTED)
        fail("an End was refused", "make_log");
    for (int step = 0; step < 3; step++)
        if (store_log_step(state, log_area, home_area, frames_area, staging_area, &ticket)
            != STORE_ACCEPTED)
            fail("a Log step was refused", "make_log");
}

/* Makes a log whose slots are all valid, of transactions of two updates of 24 bytes. First the log
 * is filled once, with every page cleaned. Then come transactions over the pages 0, 128, 256 and so
 * on, `hot` of them, two at a time in turn, as many as Begin has room for. If `extra` is true there
 * is room left for one more, which changes the two pages after these: more frames than Begin leaves
 * to a store that goes on. */
static struct image make_log(uint32_t slots, uint32_t hot, bool extra, uint64_t blocks_walked)
{
    struct image image = {slots, new_area((size_t)slots * STORE_BLOCK_SIZE), new_area(HOME_LENGTH)};
    struct store_state state;
    struct two_updates updates;
    uint64_t x = 1, i = 0, turn = 0, ticket, place;

    log_area = (struct store_area){image.log, (size_t)slots * STORE_BLOCK_SIZE};
    home_area = (struct store_area){image.home, HOME_LENGTH};
    fill_home(image.home);
    start_updates(&updates);
    if (store_format(log_area) != STORE_ACCEPTED
        || store_open(&state, log_area, home_area, frames_area, staging_area, &ticket, &place)
               != STORE_ACCEPTED)
        fail("Format or Open was refused", "make_log");
    while (state.next <= slots) {
        next_updates(&updates, &x, i++);
        if (store_begin(&state, 2) != STORE_ACCEPTED)
            fail("a Begin was refused", "make_log");
        transaction(&state, &updates);
        while (store_clean_step(&state, log_area, home_area, frames_area) == STORE_ACCEPTED)
            continue;
    }

    uint64_t start = state.next;
    while ((!extra || state.next - start + 3 + hot + 5 <= slots)
           && store_begin(&state, 2) == STORE_ACCEPTED) {
        next_updates(&updates, &x, i++);
        updates.page[0] = (uint32_t)(turn++ % hot * 128);
        updates.page[1] = (uint32_t)(turn++ % hot * 128);
        transaction(&state, &updates);
    }
    if (extra) {
        next_updates(&updates, &x, i++);
        updates.page[0] = hot * 128;
        updates.page[1] = (hot + 1) * 128;
        if (store_begin(&state, 2) != STORE_ACCEPTED)
            fail("the last Begin was refused", "make_log");
        transaction(&state, &updates);
    }
    if (state.next - start != blocks_walked || state.dirty_count != hot + (extra ? 2 : 0))
        fail("the log is not the one that workloads.h describes", "make_log");
    return image;
}

/* ---- A plain read, to hold the check against -------------------------------------------------- */

static uint64_t read_by_words(uint8_t *log, size_t log_length, uint8_t *home, size_t home_length,
                              uint8_t *frames, size_t frames_length, uint8_t *staging,
                              size_t staging_length, uint64_t count)
{
    uint64_t digest = 0;

    (void)log_length, (void)home, (void)home_length, (void)frames, (void)frames_length;
    (void)staging, (void)staging_length;
    for (uint64_t i = 0; i < count; i++) {
        const uint8_t *at = log + i % BENCH_SLOTS * STORE_BLOCK_SIZE;
        uint64_t sum = 0;
        for (size_t j = 0; j < STORE_BLOCK_SIZE; j += 8) {
            uint64_t word;
            memcpy(&word, at + j, sizeof word);
            sum += word;
        }
        digest = note(digest, sum % 65536);
    }
    return digest;
}

static const struct subject words_subject = {
    .name = "plain read, words",
    .work = {[CHECK] = read_by_words},
};

/* ---- What is measured ------------------------------------------------------------------------- */

static const struct {
    const char *name;
    uint64_t count;
} workloads[WORKLOADS] = {
    [COMMIT] = {"commit, cleaned at once", 20000},
    [COMMIT_LATE] = {"commit, cleaned late", 20000},
    [OPEN_FULL] = {"Open, 32 dirty pages", 300},
    [READ] = {"Read of random pages", 200000},
    [BEGIN_REFUSED] = {"Begin refused as full", 200000},
    [CHECK] = {"check of a block", 100000},
    [OPEN_8] = {"Open, N 8", 20000},
    [OPEN_64] = {"Open, N 64", 5000},
    [OPEN_1024] = {"Open, N 1,024", 300},
};

/* Databases are slower; they do this part of COMMIT's transactions. */
enum { DATABASE_SHARE = 10 };

static bool is_commit(enum workload_number number)
{
    return number == COMMIT || number == COMMIT_LATE;
}

/* Those that follow the store's rules stand first; C is the one that the others are held to. */
static const struct subject *const subjects[] = {
    &c_subject,
#ifdef WITH_PEGRIDOL
    &pegridol_subject,
#endif
#ifdef WITH_SQLITE
    &sqlite_subject,
    &sqlite_exclusive_subject,
#endif
#ifdef WITH_LMDB
    &lmdb_subject,
    &lmdb_mapped_subject,
#endif
    &check_by_bytes_subject,
#ifdef __SSE2__
    &check_by_sse2_subject,
#endif
    &words_subject,
};

enum { SUBJECTS = sizeof subjects / sizeof subjects[0] };

/* Where the check one byte a turn stands among the subjects. */
#ifdef __SSE2__
enum { BY_BYTES = SUBJECTS - 3 };
#else
enum { BY_BYTES = SUBJECTS - 2 };
#endif

#ifdef WITH_PEGRIDOL
enum { STORES = 2 };
#else
enum { STORES = 1 };
#endif

static double times[WORKLOADS][SUBJECTS][ROUNDS_MOST];  /* nanoseconds for each call */

static double now(void)
{
    struct timespec time;

    clock_gettime(CLOCK_PROCESS_CPUTIME_ID, &time);
    return (double)time.tv_sec * 1e9 + (double)time.tv_nsec;
}

/* What a plain array of pages has after the transactions of COMMIT, and of COMMIT_LATE. */
static void expected_pages(uint8_t *pages, uint64_t count)
{
    struct two_updates updates;
    uint64_t x = 1;

    fill_home(pages);
    start_updates(&updates);
    for (uint64_t i = 0; i < count; i++) {
        next_updates(&updates, &x, i);
        for (int which = 0; which < 2; which++)
            memcpy(pages + (size_t)updates.page[which] * STORE_PAGE_SIZE + updates.offset[which],
                   updates.bytes[which], BENCH_UPDATE_BYTES);
    }
}

/* Opens what a store left and holds every page and the ticket to the plain array. */
static void check_pages(const uint8_t *pages, uint64_t count, const char *name)
{
    struct store_state state;
    uint64_t ticket, place;

    if (store_open(&state, log_area, home_area, frames_area, staging_area, &ticket, &place)
            != STORE_ACCEPTED
        || ticket != count)
        fail("the log it left does not open with its last ticket", name);
    for (uint32_t page = 0; page < BENCH_PAGES; page++) {
        enum store_answer answer;
        struct store_area part = store_read(&state, home_area, frames_area, page, &answer);
        if (answer != STORE_ACCEPTED
            || memcmp(part.bytes, pages + (size_t)page * STORE_PAGE_SIZE, STORE_PAGE_SIZE) != 0)
            fail("a page is not what the transactions make of it", name);
    }
}

struct frame {
    const char *folder;
    struct image full, slots_8, slots_64, slots_1024;
    uint8_t *log, *home, *frames, *staging;    /* lent to every subject in turn */
    uint8_t *first_log[WORKLOADS], *first_home[WORKLOADS];  /* what C left of the commits */
    uint8_t *pages, *records;
    uint64_t digests[WORKLOADS];               /* C's */
};

static const struct image *image_of(const struct frame *frame, enum workload_number number)
{
    switch (number) {
    case OPEN_8:
        return &frame->slots_8;
    case OPEN_64:
        return &frame->slots_64;
    case OPEN_1024:
        return &frame->slots_1024;
    default:
        return &frame->full;
    }
}

/* Where a workload's stack starts, in bytes below the place of the first round. What a copy costs
 * depends on how the places of its bytes fall into cache lines, and on which other bytes lie a
 * multiple of 4,096 away; the system starts the stack at another place in every process. So sixteen
 * rounds go through sixteen places over 4,096 bytes, four for each place in a cache line, with the
 * same one for all subjects of a round. */
static size_t stack_offset;

static __attribute__((noinline)) uint64_t run(workload *work, struct frame *frame,
                                              size_t log_length, uint64_t count)
{
    volatile uint8_t *below = alloca(64 + stack_offset);

    below[0] = 0;
    return work(frame->log, log_length, frame->home, HOME_LENGTH, frame->frames, FRAMES_LENGTH,
                frame->staging, STAGING_LENGTH, count);
}

static double measure(struct frame *frame, enum workload_number number, size_t which)
{
    const struct subject *subject = subjects[which];
    const struct image *image = image_of(frame, number);
    size_t log_length = (size_t)image->slots * STORE_BLOCK_SIZE;
    uint64_t count = workloads[number].count / (subject->start != NULL ? DATABASE_SHARE : 1);

    /* All areas are written before every measurement, so that each subject finds them alike. */
    memcpy(frame->log, image->log, log_length);
    if (is_commit(number))
        fill_home(frame->home);
    else
        memcpy(frame->home, image->home, HOME_LENGTH);
    memset(frame->frames, 170, FRAMES_LENGTH);
    memset(frame->staging, 170, STAGING_LENGTH);
    if (subject->start != NULL && !subject->start(frame->folder, frame->home))
        fail("it could not be set up", subject->name);

    double start = now();
    uint64_t digest = run(subject->work[number], frame, log_length, count);
    double end = now();

    if (subject->start != NULL) {
        if (digest != 0 || !subject->stop(frame->records))
            fail("a call failed", subject->name);
        expected_pages(frame->pages, count);
        if (memcmp(frame->records, frame->pages, HOME_LENGTH) != 0)
            fail("a record is not what the transactions make of it", subject->name);
    } else if (subject->same_answers) {
        if (which == 0)
            frame->digests[number] = digest;
        else if (digest != frame->digests[number])
            fail("its answers are not C's", subject->name);
        if (!is_commit(number)) {
            if (memcmp(frame->log, image->log, log_length) != 0
                || memcmp(frame->home, image->home, HOME_LENGTH) != 0)
                fail("it wrote to log or home", subject->name);
        } else if (which == 0) {
            memcpy(frame->first_log[number], frame->log, log_length);
            memcpy(frame->first_home[number], frame->home, HOME_LENGTH);
            expected_pages(frame->pages, count);
            log_area = (struct store_area){frame->log, log_length};
            home_area = (struct store_area){frame->home, HOME_LENGTH};
            check_pages(frame->pages, count, subject->name);
        } else if (memcmp(frame->first_log[number], frame->log, log_length) != 0
                   || memcmp(frame->first_home[number], frame->home, HOME_LENGTH) != 0) {
            fail("its log and home are not byte for byte C's", subject->name);
        }
    }
    return (end - start) / (double)count;
}

/* ---- The table -------------------------------------------------------------------------------- */

static int by_size(const void *one, const void *other)
{
    double a = *(const double *)one, b = *(const double *)other;
    return (a > b) - (a < b);
}

static double median(const double *values, int count)
{
    double sorted[ROUNDS_MOST];

    memcpy(sorted, values, sizeof *values * (size_t)count);
    qsort(sorted, (size_t)count, sizeof *sorted, by_size);
    return count % 2 == 1 ? sorted[count / 2] : (sorted[count / 2 - 1] + sorted[count / 2]) / 2;
}

/* The median of one time over another, each round's taken in that round: what else the machine does
 * changes from round to round, and less within one. */
static double ratio(int over, size_t over_subject, int under, size_t under_subject, int rounds)
{
    double ratios[ROUNDS_MOST];

    for (int round = 0; round < rounds; round++)
        ratios[round] = times[over][over_subject][round] / times[under][under_subject][round];
    return median(ratios, rounds);
}

static void print_table(int rounds)
{
    printf("%-24s %-22s %14s %10s\n", "workload", "subject", "ns each", "times C");
    for (int number = 0; number < WORKLOADS; number++) {
        const char *name = workloads[number].name;
        for (size_t which = 0; which < SUBJECTS; which++) {
            if (subjects[which]->work[number] == NULL)
                continue;
            printf("%-24s %-22s %14.1f %10.2f\n", name, subjects[which]->name,
                   median(times[number][which], rounds), ratio(number, which, number, 0, rounds));
            name = "";
        }
    }

    printf("\nThe check of a block, as a multiple of one byte a turn:\n");
    for (size_t which = 0; which < SUBJECTS; which++)
        if (subjects[which]->same_answers)
            printf("%-24s %.2f\n", subjects[which]->name,
                   ratio(CHECK, which, CHECK, BY_BYTES, rounds));

    printf("\nOpen's time for each slot, as a multiple of that at N 1,024:\n");
    for (size_t which = 0; which < STORES; which++)
        printf("%-24s N 8: %.2f   N 64: %.2f   N 1,024: 1.00\n", subjects[which]->name,
               ratio(OPEN_8, which, OPEN_1024, which, rounds) * 1024 / 8,
               ratio(OPEN_64, which, OPEN_1024, which, rounds) * 1024 / 64);

    printf("\nA database's transaction, as a multiple of each store's:\n");
    for (size_t store = 0; store < STORES; store++)
        for (size_t which = STORES; which < SUBJECTS; which++)
            if (subjects[which]->work[COMMIT] != NULL)
                printf("%-24s %5.1f times %s cleaned at once, %5.1f times %s cleaned late\n",
                       subjects[which]->name, ratio(COMMIT, which, COMMIT, store, rounds),
                       subjects[store]->name, ratio(COMMIT, which, COMMIT_LATE, store, rounds),
                       subjects[store]->name);
}

int main(int argc, char **argv)
{
    long rounds = argc == 3 ? strtol(argv[2], NULL, 10) : 0;

    if (rounds < 1 || rounds > ROUNDS_MOST) {
        fprintf(stderr, "usage: workloads FOLDER ROUNDS (1 to %d)\n", ROUNDS_MOST);
        return 2;
    }

    frames_area = (struct store_area){new_area(FRAMES_LENGTH), FRAMES_LENGTH};
    staging_area = (struct store_area){new_area(STAGING_LENGTH), STAGING_LENGTH};
    struct frame frame = {
        .folder = argv[1],
        .full = make_log(1024, 30, true, 990),
        .slots_8 = make_log(8, 2, false, 3),
        .slots_64 = make_log(64, 2, false, 60),
        .slots_1024 = make_log(1024, 2, false, 1020),
        .log = new_area(LOG_LENGTH),
        .home = new_area(HOME_LENGTH),
        .frames = new_area(FRAMES_LENGTH),
        .staging = new_area(STAGING_LENGTH),
        .pages = new_area(HOME_LENGTH),
        .records = new_area(HOME_LENGTH),
    };

    for (int number = 0; number < WORKLOADS; number++) {
        frame.first_log[number] = is_commit(number) ? new_area(LOG_LENGTH) : NULL;
        frame.first_home[number] = is_commit(number) ? new_area(HOME_LENGTH) : NULL;
    }

    /* C is the first in the first round, so that the others can be held to it; then each in turn. */
    for (int round = 0; round < rounds; round++) {
        stack_offset = 272 * ((size_t)round % 16);
        for (int number = 0; number < WORKLOADS; number++)
            for (size_t turn = 0; turn < SUBJECTS; turn++) {
                size_t which = (turn + (size_t)round) % SUBJECTS;
                if (subjects[which]->work[number] != NULL)
                    times[number][which][round] = measure(&frame, number, which);
            }
        fprintf(stderr, "round %d of %ld\n", round + 1, rounds);
    }
    print_table((int)rounds);
    return 0;
}
