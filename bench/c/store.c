#include "store.h"

#include <stdbool.h>
#include <string.h>

static const uint64_t SEQUENCE_END = (uint64_t)1 << 48;  /* the last sequence is one less */

/* ---- The log block ---------------------------------------------------------------------------- */

enum {
    AT_SEQUENCE = 0,
    AT_KEEP_FROM = 8,
    AT_KIND = 16,
    AT_ZERO = 17,
    AT_INDEX = 18,
    AT_PAGE = 20,
    AT_OFFSET = 22,
    AT_LENGTH = 24,
    AT_ZEROES = 26,
    AT_TICKET = 28,
    AT_BYTES = 36,
    AT_CHECK = 508,  /* A and then B, as one number of four bytes */

    KIND_UPDATE = 1,
    KIND_COMMIT = 2,
    KIND_CLEAN = 3,

    CHECK_MODULUS = 65535,
};

static const uint8_t ZEROES[STORE_BLOCK_SIZE];

/* Least byte first on every machine; the compiler makes one load or store of each. */
static inline uint32_t get16(const uint8_t *at)
{
    return (uint32_t)at[0] | (uint32_t)at[1] << 8;
}

static inline uint32_t get32(const uint8_t *at)
{
    return (uint32_t)at[0] | (uint32_t)at[1] << 8 | (uint32_t)at[2] << 16 | (uint32_t)at[3] << 24;
}

static inline uint64_t get64(const uint8_t *at)
{
    return (uint64_t)at[0] | (uint64_t)at[1] << 8 | (uint64_t)at[2] << 16 | (uint64_t)at[3] << 24
           | (uint64_t)at[4] << 32 | (uint64_t)at[5] << 40 | (uint64_t)at[6] << 48
           | (uint64_t)at[7] << 56;
}

static inline void put16(uint8_t *at, uint32_t number)
{
    at[0] = (uint8_t)number;
    at[1] = (uint8_t)(number >> 8);
}

static inline void put32(uint8_t *at, uint32_t number)
{
    put16(at, number);
    put16(at + 2, number >> 16);
}

static inline void put64(uint8_t *at, uint64_t number)
{
    put32(at, (uint32_t)number);
    put32(at + 4, (uint32_t)(number >> 32));
}

/* The check of a block: A and B in one pass over its first 508 bytes, each read once.
 *
 * The bytes stand in sixteen rows of 32, with four zeros before the first row, which count nothing.
 * Lane l of sixteen sums bytes l and l + 16 of every row in `both`, the latter alone in `second`, and
 * in `earlier` what `both` was before each row. Byte i counts 508 - i times in B, once for each byte
 * from it to the end: 32 times for each row after its own, and in its own row 32 times, less l, less
 * 16 if it is of the second half. Lanes have 16 bits: no sum is above 510 * 120, and those that are
 * signed are below 2^14. The compiler makes vector instructions of the loops over the lanes, those
 * that every x86-64 has; it makes more of a loop for each sum than of one for all. */
enum { CHECK_ROW = 32, CHECK_LANES = 16, CHECK_ZEROES = 4 };

static const int16_t LANES[CHECK_LANES] = {0, 1, 2, 3, 4, 5, 6, 7, 8, 9, 10, 11, 12, 13, 14, 15};

static uint32_t check_of(const uint8_t *block)
{
    uint8_t row[CHECK_ROW] = {0};
    int16_t both[CHECK_LANES], second[CHECK_LANES];
    uint16_t earlier[CHECK_LANES] = {0};
    int32_t sum = 0, lanes = 0, seconds = 0;
    uint32_t totals = 0;

    memcpy(row + CHECK_ZEROES, block, CHECK_ROW - CHECK_ZEROES);
    for (size_t l = 0; l < CHECK_LANES; l++) {
        second[l] = row[l + CHECK_LANES];
        both[l] = (int16_t)(row[l] + row[l + CHECK_LANES]);
    }
    for (const uint8_t *at = block + CHECK_ROW - CHECK_ZEROES; at < block + AT_CHECK;
         at += CHECK_ROW)
        for (size_t l = 0; l < CHECK_LANES; l++) {
            earlier[l] = (uint16_t)(earlier[l] + both[l]);
            second[l] = (int16_t)(second[l] + at[l + CHECK_LANES]);
            both[l] = (int16_t)(both[l] + at[l] + at[l + CHECK_LANES]);
        }

    for (size_t l = 0; l < CHECK_LANES; l++)
        sum += both[l];
    for (size_t l = 0; l < CHECK_LANES; l++)
        lanes += LANES[l] * both[l];
    for (size_t l = 0; l < CHECK_LANES; l++)
        seconds += second[l];
    for (size_t l = 0; l < CHECK_LANES; l++)
        totals += earlier[l];

    uint32_t a = (uint32_t)sum;
    uint32_t b = 32 * (totals + a) - (uint32_t)lanes - 16 * (uint32_t)seconds;
    return a % CHECK_MODULUS | b % CHECK_MODULUS << 16;
}

uint32_t store_block_check(const uint8_t *block)
{
    return check_of(block);
}

struct block {
    uint64_t sequence;
    uint64_t keep_from;
    uint64_t ticket;
    uint32_t kind;
    uint32_t index;
    uint32_t page;
    uint32_t offset;
    uint32_t length;
};

/* Stores a block in its slot. It is built up aside, since the device stores a block whole. */
static void store_block(uint8_t *log, uint32_t slots, const struct block *block, const uint8_t *bytes)
{
    uint8_t built[STORE_BLOCK_SIZE] = {0};

    put64(built + AT_SEQUENCE, block->sequence);
    put64(built + AT_KEEP_FROM, block->keep_from);
    built[AT_KIND] = (uint8_t)block->kind;
    put16(built + AT_INDEX, block->index);
    put16(built + AT_PAGE, block->page);
    put16(built + AT_OFFSET, block->offset);
    put16(built + AT_LENGTH, block->length);
    put64(built + AT_TICKET, block->ticket);
    if (block->length > 0)
        memcpy(built + AT_BYTES, bytes, block->length);
    put32(built + AT_CHECK, check_of(built));
    memcpy(log + block->sequence % slots * STORE_BLOCK_SIZE, built, STORE_BLOCK_SIZE);
}

static bool place_is_legal(uint64_t page, uint64_t offset, uint64_t length, uint32_t pages)
{
    return page < pages && length >= 1 && length <= STORE_UPDATE_SIZE
           && offset <= STORE_PAGE_SIZE - length;
}

/* Whether the bytes of a slot are a block that follows every rule of the layout and belongs there. */
static bool slot_is_valid(const uint8_t *at, uint32_t slot, uint32_t slots, uint32_t pages)
{
    uint64_t sequence = get64(at + AT_SEQUENCE);
    uint64_t keep_from = get64(at + AT_KEEP_FROM);
    uint64_t ticket = get64(at + AT_TICKET);
    uint32_t index = get16(at + AT_INDEX);
    uint32_t page = get16(at + AT_PAGE);
    uint32_t offset = get16(at + AT_OFFSET);
    uint32_t length = get16(at + AT_LENGTH);

    if (sequence < 1 || sequence >= SEQUENCE_END || sequence % slots != slot)
        return false;
    if (keep_from < 1 || keep_from > sequence || sequence - keep_from >= slots)
        return false;
    if (at[AT_ZERO] != 0 || get16(at + AT_ZEROES) != 0 || ticket >= sequence)
        return false;
    switch (at[AT_KIND]) {
    case KIND_UPDATE:
        if (index < 1 || index > STORE_GROUP_MOST || !place_is_legal(page, offset, length, pages))
            return false;
        break;
    case KIND_COMMIT:
        if (index < 1 || index > STORE_GROUP_MOST || page != 0 || offset != 0 || length != 0
            || ticket < 1)
            return false;
        break;
    case KIND_CLEAN:
        if (index != 0 || page >= pages || offset != 0 || length != 0)
            return false;
        break;
    default:
        return false;
    }
    return memcmp(at + AT_BYTES + length, ZEROES, STORE_UPDATE_SIZE - length) == 0
           && get32(at + AT_CHECK) == check_of(at);
}

/* ---- The state -------------------------------------------------------------------------------- */

/* The rules' sums over a sound state, and what else the test of soundness comes by. */
struct sums {
    uint64_t oldest;       /* H is next minus this: the oldest of the first groups and of a
                              half-stored group's start, or next itself */
    uint32_t unstored;     /* W */
    uint32_t queued;       /* V */
    uint32_t used_frames;  /* one bit for each */
    uint32_t used_areas;   /* one bit for each */
};

static uint64_t no_more(uint64_t one, uint64_t other)
{
    return one < other ? one : other;
}

/* The blocks that the open transaction may still store. */
static uint64_t owed(const struct store_state *state)
{
    return state->reserved > 0 ? state->reserved + 1 : 0;
}

static bool is_sound(const struct store_state *state, struct sums *sums)
{
    uint64_t next = state->next;
    uint32_t pages = state->pages;
    uint32_t frames = state->frames;

    if (state->slots < STORE_SLOTS_LEAST || state->slots > STORE_SLOTS_MOST || pages < 1
        || pages > STORE_PAGES_MOST || frames < 1 || frames > STORE_FRAMES_MOST)
        return false;
    if (state->dirty_count > frames || state->group_count > frames
        || state->reserved > STORE_GROUP_MOST || state->described > state->reserved)
        return false;

    uint32_t queued = 0;
    for (uint32_t i = 0; i < state->group_count; i++) {
        uint32_t count = state->group_updates[i];
        if (count < 1 || count > STORE_GROUP_MOST)
            return false;
        queued += count;
    }
    if (state->dirty_count + queued + state->reserved > frames)
        return false;

    uint32_t stored = state->stored_updates;
    if (stored > (state->group_count > 0 ? state->group_updates[0] : 0))
        return false;
    if (next > SEQUENCE_END || state->ticket >= next || state->ticket + stored >= next
        || state->ended_ticket != state->ticket + state->group_count)
        return false;

    uint64_t oldest = next - stored;
    uint32_t used_frames = 0;
    bool cleaned_is_dirty = state->cleaning == STORE_CLEANING_IDLE;
    uint64_t dirty_pages[STORE_PAGES_MOST / 64] = {0};  /* one bit for each */
    for (uint32_t i = 0; i < state->dirty_count; i++) {
        const struct store_dirty_page *dirty = &state->dirty[i];
        if (dirty->page >= pages || dirty->frame >= frames || dirty->first_group < 1
            || dirty->first_group >= next)
            return false;
        uint64_t page_bit = (uint64_t)1 << dirty->page % 64;
        uint32_t frame_bit = (uint32_t)1 << dirty->frame;
        if ((dirty_pages[dirty->page / 64] & page_bit) != 0 || (used_frames & frame_bit) != 0)
            return false;
        dirty_pages[dirty->page / 64] |= page_bit;
        used_frames |= frame_bit;
        oldest = no_more(oldest, dirty->first_group);
        cleaned_is_dirty |= dirty->page == state->cleaning_page;
    }
    if (state->cleaning > STORE_CLEANING_THIRD || !cleaned_is_dirty)
        return false;

    uint32_t used_areas = 0;
    for (uint32_t i = 0; i < queued + state->described; i++) {
        const struct store_staged_update *update = &state->updates[i];
        if (update->area >= frames || (used_areas >> update->area & 1) != 0
            || !place_is_legal(update->page, update->offset, update->length, pages))
            return false;
        used_areas |= (uint32_t)1 << update->area;
    }

    uint32_t unstored = queued + state->group_count - stored;
    uint64_t reserved_slots = state->reserved > 0 ? 2 * state->reserved + 1 : 0;
    if (next - oldest + unstored + state->dirty_count + queued + reserved_slots > state->slots)
        return false;
    if (next + unstored + owed(state) > SEQUENCE_END)
        return false;

    sums->oldest = oldest;
    sums->unstored = unstored;
    sums->queued = queued;
    sums->used_frames = used_frames;
    sums->used_areas = used_areas;
    return true;
}

/* The lowest bit that is not set; the caller knows that there is one. */
static uint32_t lowest_free(uint32_t used)
{
    return (uint32_t)__builtin_ctz(~used);
}

/* The place of a page in the list of dirty pages, or their count. */
static uint32_t find_dirty(const struct store_state *state, uint64_t page)
{
    uint32_t i = 0;
    while (i < state->dirty_count && state->dirty[i].page != page)
        i++;
    return i;
}

/* ---- The lent areas --------------------------------------------------------------------------- */

static bool log_fits(const struct store_state *state, struct store_area log)
{
    return log.length == (size_t)state->slots * STORE_BLOCK_SIZE;
}

static bool home_fits(const struct store_state *state, struct store_area home)
{
    return home.length == (size_t)state->pages * STORE_PAGE_SIZE;
}

static bool frames_fit(const struct store_state *state, struct store_area frames)
{
    return frames.length == (size_t)state->frames * STORE_PAGE_SIZE;
}

static bool staging_fits(const struct store_state *state, struct store_area staging)
{
    return staging.length == (size_t)state->frames * STORE_UPDATE_SIZE;
}

/* Whether a length is a whole count of pieces from least to most. */
static bool is_whole_count(size_t length, size_t piece, size_t least, size_t most)
{
    return length % piece == 0 && length / piece >= least && length / piece <= most;
}

static bool is_log_length(size_t length)
{
    return is_whole_count(length, STORE_BLOCK_SIZE, STORE_SLOTS_LEAST, STORE_SLOTS_MOST);
}

static uint8_t *page_at(struct store_area area, uint32_t number)
{
    return area.bytes + (size_t)number * STORE_PAGE_SIZE;
}

static uint8_t *area_at(struct store_area staging, uint32_t number)
{
    return staging.bytes + (size_t)number * STORE_UPDATE_SIZE;
}

/* ---- The calls -------------------------------------------------------------------------------- */

enum store_answer store_format(struct store_area log)
{
    if (!is_log_length(log.length))
        return STORE_WRONG_LENGTH;
    memset(log.bytes, 0, log.length);
    return STORE_ACCEPTED;
}

/* A refused Open from 7 on leaves the all-zero state and zeroed frames. */
static enum store_answer refuse_open(enum store_answer answer, uint64_t place,
                                     struct store_state *state, struct store_area frames,
                                     uint64_t *place_out)
{
    memset(state, 0, sizeof *state);
    memset(frames.bytes, 0, frames.length);
    *place_out = place;
    return answer;
}

enum store_answer store_open(struct store_state *state, struct store_area log, struct store_area home,
                             struct store_area frames, struct store_area staging,
                             uint64_t *ticket_out, uint64_t *place_out)
{
    memset(state, 0, sizeof *state);
    *ticket_out = 0;
    *place_out = 0;
    if (!is_log_length(log.length)
        || !is_whole_count(home.length, STORE_PAGE_SIZE, 1, STORE_PAGES_MOST)
        || !is_whole_count(frames.length, STORE_PAGE_SIZE, 1, STORE_FRAMES_MOST)
        || staging.length != frames.length / STORE_PAGE_SIZE * STORE_UPDATE_SIZE)
        return STORE_WRONG_LENGTH;

    uint32_t slots = (uint32_t)(log.length / STORE_BLOCK_SIZE);
    state->slots = slots;
    state->pages = (uint32_t)(home.length / STORE_PAGE_SIZE);
    state->frames = (uint32_t)(frames.length / STORE_PAGE_SIZE);

    /* Each slot is judged once. A slot that is not valid has sequence 0 in this list. */
    uint64_t sequences[STORE_SLOTS_MOST];
    uint64_t newest = 0;
    bool damaged = false;
    for (uint32_t slot = 0; slot < slots; slot++) {
        const uint8_t *at = log.bytes + (size_t)slot * STORE_BLOCK_SIZE;
        sequences[slot] = 0;
        if (slot_is_valid(at, slot, slots, state->pages)) {
            sequences[slot] = get64(at + AT_SEQUENCE);
            if (sequences[slot] > newest)
                newest = sequences[slot];
        } else if (memcmp(at, ZEROES, STORE_BLOCK_SIZE) != 0) {
            damaged = true;
        }
    }
    if (newest == 0) {
        if (damaged)
            return refuse_open(STORE_LOG_DAMAGED, 0, state, frames, place_out);
        state->next = 1;
        return STORE_ACCEPTED;
    }

    uint64_t oldest = get64(log.bytes + newest % slots * STORE_BLOCK_SIZE + AT_KEEP_FROM);
    uint32_t oldest_slot = (uint32_t)(oldest % slots);
    uint32_t slot = oldest_slot;
    for (uint64_t sequence = oldest; sequence <= newest; sequence++) {
        if (sequences[slot] != sequence)
            return refuse_open(STORE_LOG_DAMAGED, sequence, state, frames, place_out);
        if (++slot == slots)
            slot = 0;
    }
    /* Now slot is the one after the newest block's. A damaged end is no end. */
    if (sequences[slot] == 0 && memcmp(log.bytes + (size_t)slot * STORE_BLOCK_SIZE, ZEROES, STORE_BLOCK_SIZE) != 0)
        return refuse_open(STORE_LOG_DAMAGED, newest + 1, state, frames, place_out);

    /* The walk finds the pages that are dirty at the end, their first groups and frames. No frame is
     * written yet: the log may still be refused, and a page may still be cleaned. */
    uint8_t dirty_at[STORE_PAGES_MOST];  /* a page's place in state->dirty plus 1, or 0 */
    bool committed[STORE_SLOTS_MOST];    /* whether the slot has an update of a committed group */
    memset(dirty_at, 0, state->pages);
    memset(committed, 0, sizeof committed[0] * slots);
    uint64_t ticket = get64(log.bytes + (size_t)oldest_slot * STORE_BLOCK_SIZE + AT_TICKET);
    uint32_t used_frames = 0;
    uint32_t half_group = 0;  /* updates of a group whose commit has not come yet */
    slot = oldest_slot;
    for (uint64_t sequence = oldest; sequence <= newest; sequence++) {
        const uint8_t *at = log.bytes + (size_t)slot * STORE_BLOCK_SIZE;
        uint64_t block_ticket = get64(at + AT_TICKET);
        uint32_t index = get16(at + AT_INDEX);

        if (at[AT_KIND] == KIND_UPDATE) {
            if (block_ticket != ticket || (index != 1 && index != half_group + 1))
                return refuse_open(STORE_LOG_OUT_OF_ORDER, sequence, state, frames, place_out);
            half_group = index;
        } else if (at[AT_KIND] == KIND_COMMIT) {
            /* A commit's index is not 0, so it never closes an empty group. */
            if (block_ticket != ticket + 1 || index != half_group)
                return refuse_open(STORE_LOG_OUT_OF_ORDER, sequence, state, frames, place_out);
            uint32_t update_slot = slot >= half_group ? slot - half_group : slot + slots - half_group;
            for (; update_slot != slot; update_slot = update_slot + 1 == slots ? 0 : update_slot + 1) {
                uint32_t page = get16(log.bytes + (size_t)update_slot * STORE_BLOCK_SIZE + AT_PAGE);
                committed[update_slot] = true;
                if (dirty_at[page] != 0)
                    continue;
                /* A commit drops no page, so one too many now is one too many at its end. */
                if (state->dirty_count == state->frames)
                    return refuse_open(STORE_TOO_FEW_FRAMES, sequence, state, frames, place_out);
                struct store_dirty_page *dirty = &state->dirty[state->dirty_count++];
                dirty->first_group = sequence - half_group;
                dirty->page = (uint16_t)page;
                dirty->frame = (uint16_t)lowest_free(used_frames);
                used_frames |= (uint32_t)1 << dirty->frame;
                dirty_at[page] = (uint8_t)state->dirty_count;
            }
            ticket = block_ticket;
            half_group = 0;
        } else {
            if (block_ticket != ticket)
                return refuse_open(STORE_LOG_OUT_OF_ORDER, sequence, state, frames, place_out);
            uint32_t page = get16(at + AT_PAGE);
            if (dirty_at[page] != 0) {
                struct store_dirty_page *dirty = &state->dirty[dirty_at[page] - 1];
                used_frames &= ~((uint32_t)1 << dirty->frame);
                *dirty = state->dirty[--state->dirty_count];
                dirty_at[dirty->page] = dirty_at[page];
                dirty_at[page] = 0;
            }
            half_group = 0;
        }
        if (++slot == slots)
            slot = 0;
    }

    uint64_t first_needed = newest + 1;
    for (uint32_t i = 0; i < state->dirty_count; i++)
        first_needed = no_more(first_needed, state->dirty[i].first_group);
    if (newest + 1 - first_needed + state->dirty_count > slots)
        return refuse_open(STORE_LOG_OUT_OF_ORDER, newest, state, frames, place_out);

    /* Nothing can be refused any more: each dirty page is copied once and brought forward. */
    for (uint32_t i = 0; i < state->dirty_count; i++)
        memcpy(page_at(frames, state->dirty[i].frame), page_at(home, state->dirty[i].page),
               STORE_PAGE_SIZE);
    slot = (uint32_t)(first_needed % slots);
    for (uint64_t sequence = first_needed; sequence <= newest; sequence++) {
        if (committed[slot]) {
            const uint8_t *at = log.bytes + (size_t)slot * STORE_BLOCK_SIZE;
            uint32_t place = dirty_at[get16(at + AT_PAGE)];
            if (place != 0 && sequence >= state->dirty[place - 1].first_group)
                memcpy(page_at(frames, state->dirty[place - 1].frame) + get16(at + AT_OFFSET),
                       at + AT_BYTES, get16(at + AT_LENGTH));
        }
        if (++slot == slots)
            slot = 0;
    }

    state->next = newest + 1;
    state->ticket = ticket;
    state->ended_ticket = ticket;
    *ticket_out = ticket;
    return STORE_ACCEPTED;
}

enum store_answer store_begin(struct store_state *state, uint64_t updates)
{
    struct sums sums;

    if (!is_sound(state, &sums))
        return STORE_NOT_SOUND;
    if (updates < 1 || updates > STORE_GROUP_MOST || updates > state->frames
        || 2 * updates + 1 > state->slots)
        return STORE_OUT_OF_RANGE;
    if (state->reserved > 0)
        return STORE_WRONG_MOMENT;
    if (state->next + sums.unstored + updates + 1 > SEQUENCE_END)
        return STORE_SEQUENCES_USED_UP;
    if (state->next - sums.oldest + sums.unstored + state->dirty_count + sums.queued + 2 * updates + 1
            > state->slots
        || state->dirty_count + sums.queued + updates > state->frames)
        return STORE_FULL;

    state->reserved = (uint32_t)updates;
    state->described = 0;
    return STORE_ACCEPTED;
}

enum store_answer store_describe(struct store_state *state, struct store_area staging, uint64_t page,
                                 uint64_t offset, const uint8_t *bytes, size_t length)
{
    struct sums sums;

    if (!is_sound(state, &sums))
        return STORE_NOT_SOUND;
    if (!staging_fits(state, staging))
        return STORE_WRONG_LENGTH;
    if (state->reserved == 0)
        return STORE_WRONG_MOMENT;
    if (!place_is_legal(page, offset, length, state->pages))
        return STORE_OUT_OF_RANGE;
    if (state->described == state->reserved)
        return STORE_FULL;

    struct store_staged_update *update = &state->updates[sums.queued + state->described];
    update->page = (uint16_t)page;
    update->offset = (uint16_t)offset;
    update->length = (uint16_t)length;
    update->area = (uint16_t)lowest_free(sums.used_areas);
    memcpy(area_at(staging, update->area), bytes, length);
    state->described++;
    return STORE_ACCEPTED;
}

enum store_answer store_end(struct store_state *state, uint64_t *ticket)
{
    struct sums sums;

    if (!is_sound(state, &sums))
        return STORE_NOT_SOUND;
    if (state->reserved == 0)
        return STORE_WRONG_MOMENT;
    if (state->described == 0)
        return STORE_NOTHING_TO_DO;

    state->group_updates[state->group_count++] = (uint8_t)state->described;
    state->reserved = 0;
    state->described = 0;
    *ticket = ++state->ended_ticket;
    return STORE_ACCEPTED;
}

/* The updates of the oldest queued group, whose commit is stored now, go to the frames. */
static void apply_oldest_group(struct store_state *state, const struct sums *sums,
                               struct store_area home, struct store_area frames,
                               struct store_area staging)
{
    uint32_t count = state->group_updates[0];
    uint32_t used_frames = sums->used_frames;

    for (uint32_t i = 0; i < count; i++) {
        const struct store_staged_update *update = &state->updates[i];
        uint32_t place = find_dirty(state, update->page);
        struct store_dirty_page *dirty = &state->dirty[place];
        if (place == state->dirty_count) {
            dirty->first_group = state->next - count;
            dirty->page = update->page;
            dirty->frame = (uint16_t)lowest_free(used_frames);
            used_frames |= (uint32_t)1 << dirty->frame;
            state->dirty_count++;
            memcpy(page_at(frames, dirty->frame), page_at(home, dirty->page), STORE_PAGE_SIZE);
        }
        memcpy(page_at(frames, dirty->frame) + update->offset, area_at(staging, update->area),
               update->length);
        if (state->cleaning_page == update->page)
            state->cleaning = STORE_CLEANING_IDLE;
    }

    uint32_t left = sums->queued - count + state->described;
    memmove(state->updates, state->updates + count, left * sizeof state->updates[0]);
    state->group_count--;
    memmove(state->group_updates, state->group_updates + 1, state->group_count);
}

enum store_answer store_log_step(struct store_state *state, struct store_area log,
                                 struct store_area home, struct store_area frames,
                                 struct store_area staging, uint64_t *settled)
{
    struct sums sums;

    if (!is_sound(state, &sums))
        return STORE_NOT_SOUND;
    if (!log_fits(state, log) || !home_fits(state, home) || !frames_fit(state, frames)
        || !staging_fits(state, staging))
        return STORE_WRONG_LENGTH;
    if (state->group_count == 0)
        return STORE_NOTHING_TO_DO;

    /* The oldest of the first groups and of this group's start: with stored updates this start is
     * among the sums already, without it is next, which they do not pass. At a commit the group's
     * own pages become dirty, and their first groups are no older. */
    struct block block = {.sequence = state->next, .keep_from = sums.oldest, .ticket = state->ticket};
    if (state->stored_updates < state->group_updates[0]) {
        const struct store_staged_update *update = &state->updates[state->stored_updates];
        block.kind = KIND_UPDATE;
        block.index = ++state->stored_updates;
        block.page = update->page;
        block.offset = update->offset;
        block.length = update->length;
        store_block(log.bytes, state->slots, &block, area_at(staging, update->area));
        *settled = 0;
    } else {
        block.kind = KIND_COMMIT;
        block.index = state->stored_updates;
        block.ticket = ++state->ticket;
        store_block(log.bytes, state->slots, &block, NULL);
        apply_oldest_group(state, &sums, home, frames, staging);
        state->stored_updates = 0;
        *settled = state->ticket;
    }
    state->next++;
    return STORE_ACCEPTED;
}

/* The dirty page that an idle cleaning takes. */
static uint32_t page_to_clean(const struct store_state *state)
{
    const struct store_dirty_page *best = &state->dirty[0];

    for (uint32_t i = 1; i < state->dirty_count; i++) {
        const struct store_dirty_page *dirty = &state->dirty[i];
        if (dirty->first_group < best->first_group
            || (dirty->first_group == best->first_group && dirty->page < best->page))
            best = dirty;
    }
    return best->page;
}

enum store_answer store_clean_step(struct store_state *state, struct store_area log,
                                   struct store_area home, struct store_area frames)
{
    struct sums sums;

    if (!is_sound(state, &sums))
        return STORE_NOT_SOUND;
    if (!log_fits(state, log) || !home_fits(state, home) || !frames_fit(state, frames))
        return STORE_WRONG_LENGTH;
    if (state->dirty_count == 0)
        return STORE_NOTHING_TO_DO;

    if (state->cleaning == STORE_CLEANING_THIRD) {
        if (state->stored_updates > 0)
            return STORE_HELD_BACK;
        if (state->next + sums.unstored + owed(state) == SEQUENCE_END)
            return STORE_SEQUENCES_USED_UP;

        state->dirty[find_dirty(state, state->cleaning_page)] = state->dirty[state->dirty_count - 1];
        state->dirty_count--;
        struct block block = {.sequence = state->next,
                              .keep_from = state->next,
                              .ticket = state->ticket,
                              .kind = KIND_CLEAN,
                              .page = state->cleaning_page};
        for (uint32_t i = 0; i < state->dirty_count; i++)
            block.keep_from = no_more(block.keep_from, state->dirty[i].first_group);
        store_block(log.bytes, state->slots, &block, NULL);
        state->cleaning = STORE_CLEANING_IDLE;
        state->next++;
        return STORE_ACCEPTED;
    }

    if (state->cleaning == STORE_CLEANING_IDLE) {
        state->cleaning_page = page_to_clean(state);
        state->cleaning = STORE_CLEANING_FIRST;
    }
    uint32_t frame = state->dirty[find_dirty(state, state->cleaning_page)].frame;
    size_t half = state->cleaning == STORE_CLEANING_FIRST ? 0 : STORE_BLOCK_SIZE;
    memcpy(page_at(home, state->cleaning_page) + half, page_at(frames, frame) + half,
           STORE_BLOCK_SIZE);
    state->cleaning++;
    return STORE_ACCEPTED;
}

struct store_area store_read(const struct store_state *state, struct store_area home,
                             struct store_area frames, uint64_t page, enum store_answer *answer)
{
    struct sums sums;

    if (!is_sound(state, &sums))
        *answer = STORE_NOT_SOUND;
    else if (!home_fits(state, home) || !frames_fit(state, frames))
        *answer = STORE_WRONG_LENGTH;
    else if (page >= state->pages)
        *answer = STORE_OUT_OF_RANGE;
    else
        *answer = STORE_ACCEPTED;
    if (*answer != STORE_ACCEPTED)
        return (struct store_area){.bytes = home.bytes, .length = 0};

    uint32_t place = find_dirty(state, page);
    uint8_t *bytes = place < state->dirty_count ? page_at(frames, state->dirty[place].frame)
                                                : page_at(home, (uint32_t)page);
    return (struct store_area){.bytes = bytes, .length = STORE_PAGE_SIZE};
}

enum store_answer store_settled(const struct store_state *state, uint64_t ticket, int *committed)
{
    struct sums sums;

    if (!is_sound(state, &sums))
        return STORE_NOT_SOUND;
    if (ticket < 1 || ticket > state->ended_ticket)
        return STORE_OUT_OF_RANGE;
    *committed = ticket <= state->ticket;
    return STORE_ACCEPTED;
}
