/* A page store with a redo log: the nine calls of docs/CALLS.md in C.
 *
 * This is the yardstick of the benchmark. It is written from the rules alone, by hand, and
 * follows the same rules as the proved store: the same refusals in the same order, the same
 * soundness test at every call, the same bytes in log and home.
 *
 * The caller lends the areas and holds the state. A call changes the state in place; a refused one
 * leaves the state and every lent byte as they were, but for Open: refused, it leaves the all-zero
 * state, and after 7, 8 and 9 zeroed frames. There is no heap and no global state.
 *
 * Where the rules leave a choice to the program: a page takes the lowest free frame, an update
 * the lowest free staging area, and of several dirty pages with the smallest first group the lowest
 * page number is cleaned first. */
#ifndef STORE_H
#define STORE_H

#include <stddef.h>
#include <stdint.h>

enum {
    STORE_BLOCK_SIZE = 512,   /* a log slot, and half a page */
    STORE_UPDATE_SIZE = 472,  /* the most new bytes of one update, and a staging area */
    STORE_PAGE_SIZE = 1024,   /* a home page, and a frame */

    STORE_SLOTS_LEAST = 8,
    STORE_SLOTS_MOST = 1024,
    STORE_PAGES_MOST = 4096,
    STORE_FRAMES_MOST = 32,
    STORE_GROUP_MOST = 16,    /* updates in one transaction */
};

/* Every call but store_read gives one of these back. */
enum store_answer {
    STORE_ACCEPTED = 0,
    STORE_WRONG_LENGTH = 1,
    STORE_NOT_SOUND = 2,
    STORE_OUT_OF_RANGE = 3,
    STORE_WRONG_MOMENT = 4,
    STORE_FULL = 5,
    STORE_SEQUENCES_USED_UP = 6,
    STORE_LOG_DAMAGED = 7,
    STORE_LOG_OUT_OF_ORDER = 8,
    STORE_TOO_FEW_FRAMES = 9,
    STORE_NOTHING_TO_DO = 10,
    STORE_HELD_BACK = 11,
};

/* A lent area. */
struct store_area {
    uint8_t *bytes;
    size_t length;
};

enum store_cleaning {
    STORE_CLEANING_IDLE = 0,
    STORE_CLEANING_FIRST = 1,   /* the next store is the first half of the page, */
    STORE_CLEANING_SECOND = 2,  /* its second half, */
    STORE_CLEANING_THIRD = 3,   /* or the clean block */
};

struct store_dirty_page {
    uint64_t first_group;  /* sequence of the first block of the earliest group not cleaned yet */
    uint16_t page;
    uint16_t frame;
};

struct store_staged_update {
    uint16_t page;
    uint16_t offset;
    uint16_t length;
    uint16_t area;         /* the staging area that has the new bytes */
};

/* The state. It has no pointers, so a copy of it is a state too. The all-zero state is not sound. */
struct store_state {
    uint64_t next;             /* sequence of the next block */
    uint64_t ticket;           /* of the last committed transaction */
    uint64_t ended_ticket;     /* of the last ended transaction */
    uint32_t slots;            /* N */
    uint32_t pages;            /* P */
    uint32_t frames;           /* F */
    uint32_t dirty_count;
    uint32_t group_count;      /* queued transactions */
    uint32_t stored_updates;   /* of the oldest queued transaction; above 0, it is half-stored */
    uint32_t reserved;         /* updates reserved by the open transaction; 0, none is open */
    uint32_t described;        /* updates described by it */
    uint32_t cleaning;         /* enum store_cleaning */
    uint32_t cleaning_page;
    struct store_dirty_page dirty[STORE_FRAMES_MOST];
    /* The updates of the queued transactions, oldest first, then those of the open one. */
    struct store_staged_update updates[STORE_FRAMES_MOST];
    uint8_t group_updates[STORE_FRAMES_MOST];  /* updates of each queued transaction, oldest first */
};

enum store_answer store_format(struct store_area log);

/* Accepted: *ticket is the last committed ticket. Refused: *place is the sequence at fault. The
 * other of the two is 0. */
enum store_answer store_open(struct store_state *state, struct store_area log, struct store_area home,
                             struct store_area frames, struct store_area staging,
                             uint64_t *ticket, uint64_t *place);

enum store_answer store_begin(struct store_state *state, uint64_t updates);

enum store_answer store_describe(struct store_state *state, struct store_area staging, uint64_t page,
                                 uint64_t offset, const uint8_t *bytes, size_t length);

/* Accepted: *ticket is the transaction's ticket. */
enum store_answer store_end(struct store_state *state, uint64_t *ticket);

/* Accepted: *settled is the committed ticket if the stored block was a commit, else 0. */
enum store_answer store_log_step(struct store_state *state, struct store_area log,
                                 struct store_area home, struct store_area frames,
                                 struct store_area staging, uint64_t *settled);

enum store_answer store_clean_step(struct store_state *state, struct store_area log,
                                   struct store_area home, struct store_area frames);

/* Gives back the page's 1,024 bytes as a part of home or of frames, and *answer. Refused, it is the
 * empty part at home's start. */
struct store_area store_read(const struct store_state *state, struct store_area home,
                             struct store_area frames, uint64_t page, enum store_answer *answer);

/* Accepted: *committed is 1 or 0. */
enum store_answer store_settled(const struct store_state *state, uint64_t ticket, int *committed);

/* The check of a block's first 508 bytes: A in the low 16 bits, B in the high ones. */
uint32_t store_block_check(const uint8_t *block);

#endif
