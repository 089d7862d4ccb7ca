/* The C store's side of the workloads; workloads.h says what each does. */
#include "../workloads.h"
#include "store.h"

#define AREAS                                                                                      \
    uint8_t *log_bytes, size_t log_length, uint8_t *home_bytes, size_t home_length,                \
        uint8_t *frame_bytes, size_t frames_length, uint8_t *staging_bytes, size_t staging_length

#define LEND_AREAS                                                                                 \
    struct store_area log = {log_bytes, log_length};                                               \
    struct store_area home = {home_bytes, home_length};                                            \
    struct store_area frames = {frame_bytes, frames_length};                                       \
    struct store_area staging = {staging_bytes, staging_length}

static uint64_t note_answer(uint64_t digest, enum store_answer answer, uint64_t value)
{
    return note(digest, answer == STORE_ACCEPTED ? 16 + value : (uint64_t)answer);
}

/* Makes some Clean steps. */
static uint64_t clean(struct store_state *state, struct store_area log, struct store_area home,
                      struct store_area frames, int steps, uint64_t digest)
{
    while (steps-- > 0)
        digest = note_answer(digest, store_clean_step(state, log, home, frames), 0);
    return digest;
}

/* COMMIT and COMMIT_LATE differ only in when they clean. */
static inline uint64_t commits_with(AREAS, uint64_t count, bool late)
{
    LEND_AREAS;
    struct store_state state;
    struct two_updates updates;
    enum store_answer answer;
    uint64_t digest = 0, x = 1, ticket, place;

    store_format(log);
    answer = store_open(&state, log, home, frames, staging, &ticket, &place);
    digest = note_answer(digest, answer, ticket);
    start_updates(&updates);
    for (uint64_t i = 0; i < count; i++) {
        next_updates(&updates, &x, i);
        answer = store_begin(&state, 2);
        digest = note_answer(digest, answer, 0);
        while (late && answer == STORE_FULL) {
            digest = clean(&state, log, home, frames, 3, digest);
            answer = store_begin(&state, 2);
            digest = note_answer(digest, answer, 0);
        }
        for (int which = 0; which < 2; which++) {
            answer = store_describe(&state, staging, updates.page[which], updates.offset[which],
                                    updates.bytes[which], BENCH_UPDATE_BYTES);
            digest = note_answer(digest, answer, 0);
        }
        answer = store_end(&state, &ticket);
        digest = note_answer(digest, answer, ticket);
        for (int step = 0; step < 3; step++) {
            answer = store_log_step(&state, log, home, frames, staging, &ticket);
            digest = note_answer(digest, answer, ticket);
        }
        if (!late)
            digest = clean(&state, log, home, frames, 6, digest);
    }
    return digest;
}

static uint64_t commits(AREAS, uint64_t count)
{
    return commits_with(log_bytes, log_length, home_bytes, home_length, frame_bytes, frames_length,
                        staging_bytes, staging_length, count, false);
}

static uint64_t late_commits(AREAS, uint64_t count)
{
    return commits_with(log_bytes, log_length, home_bytes, home_length, frame_bytes, frames_length,
                        staging_bytes, staging_length, count, true);
}

static uint64_t opens(AREAS, uint64_t count)
{
    LEND_AREAS;
    struct store_state state;
    uint64_t digest = 0, ticket, place;

    for (uint64_t i = 0; i < count; i++) {
        enum store_answer answer =
            store_open(&state, log, home, frames, staging, &ticket, &place);
        digest = note_answer(digest, answer, ticket);
    }
    for (uint64_t page = 0; page < BENCH_PAGES; page += 128) {
        enum store_answer answer;
        struct store_area part = store_read(&state, home, frames, page, &answer);
        for (size_t at = 0; at < part.length; at += 64)
            digest = note_answer(digest, answer, part.bytes[at]);
    }
    return digest;
}

static uint64_t reads(AREAS, uint64_t count)
{
    LEND_AREAS;
    struct store_state state;
    enum store_answer answer;
    uint64_t digest = 0, x = 1, ticket, place;

    answer = store_open(&state, log, home, frames, staging, &ticket, &place);
    digest = note_answer(digest, answer, ticket);
    for (uint64_t i = 0; i < count; i++) {
        struct store_area part = store_read(&state, home, frames, draw(&x) % BENCH_PAGES, &answer);
        digest = note_answer(digest, answer, part.length > 0 ? part.bytes[0] : 0);
    }
    return digest;
}

static uint64_t refused_begins(AREAS, uint64_t count)
{
    LEND_AREAS;
    struct store_state state;
    enum store_answer answer;
    uint64_t digest = 0, ticket, place;

    answer = store_open(&state, log, home, frames, staging, &ticket, &place);
    digest = note_answer(digest, answer, ticket);
    for (uint64_t i = 0; i < count; i++) {
        answer = store_begin(&state, 1);
        digest = note_answer(digest, answer, 0);
    }
    return digest;
}

static uint64_t checks(AREAS, uint64_t count)
{
    uint64_t digest = 0;

    (void)log_length, (void)home_bytes, (void)home_length, (void)frame_bytes, (void)frames_length;
    (void)staging_bytes, (void)staging_length;
    for (uint64_t i = 0; i < count; i++) {
        uint32_t check = store_block_check(log_bytes + i % BENCH_SLOTS * STORE_BLOCK_SIZE);
        digest = note_answer(digest, STORE_ACCEPTED, check);
    }
    return digest;
}

const struct subject c_subject = {
    .name = "C",
    .same_answers = true,
    .work = {
        [COMMIT] = commits,
        [COMMIT_LATE] = late_commits,
        [OPEN_FULL] = opens,
        [READ] = reads,
        [BEGIN_REFUSED] = refused_begins,
        [CHECK] = checks,
        [OPEN_8] = opens,
        [OPEN_64] = opens,
        [OPEN_1024] = opens,
    },
};
