/* Reads a script of store calls on standard input and prints one line for each line read.
 *
 * The script language is that of the program `replay`; where it leaves something open, this driver
 * reads it as docs/REPLAY.md says. So the model's scripts hold the C store to the same answers
 * and to the same bytes in log and home:
 *
 *     REPLAY=bench/c/replay tools/compare 2000 1 */
#include "store.h"

#include <inttypes.h>
#include <stdbool.h>
#include <stdio.h>
#include <string.h>

enum { SLOTS_MOST = 64, PAGES_MOST = 16, FRAMES_MOST = 8, BYTES_MOST = 512, NUMBERS_MOST = 4 };

static uint8_t log_bytes[SLOTS_MOST * STORE_BLOCK_SIZE];
static uint8_t home_bytes[PAGES_MOST * STORE_PAGE_SIZE];
static uint8_t frame_bytes[FRAMES_MOST * STORE_PAGE_SIZE];
static uint8_t staging_bytes[FRAMES_MOST * STORE_UPDATE_SIZE];

/* The whole areas, and what is lent of them. A log of no bytes: there are no areas yet. */
static struct store_area whole_log = {log_bytes, 0};
static struct store_area whole_home = {home_bytes, 0};
static struct store_area whole_frames = {frame_bytes, 0};
static struct store_area whole_staging = {staging_bytes, 0};
static struct store_area lent_log, lent_home, lent_frames, lent_staging;

static struct store_state state;

/* ---- Reading lines ---------------------------------------------------------------------------- */

struct line {
    bool good;      /* a letter, then numbers with one space before each, and a newline */
    int letter;
    int count;
    uint64_t numbers[NUMBERS_MOST];
};

/* Reads one line of any length. False at the end of the input. */
static bool read_line(struct line *line)
{
    enum { AT_START, AFTER_LETTER, AFTER_SPACE, IN_NUMBER } moment = AT_START;
    int byte = getchar();

    if (byte == EOF)
        return false;
    *line = (struct line){.good = true};
    for (; byte != '\n' && byte != EOF; byte = getchar()) {
        if (moment == AT_START) {
            line->good = byte >= 'a' && byte <= 'z';
            line->letter = byte;
            moment = AFTER_LETTER;
        } else if (byte == ' ' && moment != AFTER_SPACE && line->count < NUMBERS_MOST) {
            line->numbers[line->count++] = 0;
            moment = AFTER_SPACE;
        } else if (byte >= '0' && byte <= '9' && moment != AFTER_LETTER) {
            uint64_t *number = &line->numbers[line->count - 1];
            uint64_t digit = (uint64_t)(byte - '0');
            if (*number > (UINT64_MAX - digit) / 10)
                line->good = false;
            *number = *number * 10 + digit;
            moment = IN_NUMBER;
        } else {
            line->good = false;
            moment = AFTER_LETTER;  /* so that a digit still needs a space before it */
        }
    }
    if (byte == EOF || moment == AT_START || moment == AFTER_SPACE)
        line->good = false;
    return true;
}

/* ---- Answers ---------------------------------------------------------------------------------- */

static uint64_t digest(const uint8_t *bytes, size_t length)
{
    uint64_t result = 0;

    for (size_t i = 0; i < length; i++)
        result = (result * 257 + bytes[i] + 1) % UINT64_C(4294967291);
    return result;
}

static uint64_t at_most(uint64_t number, uint64_t most)
{
    return number < most ? number : most;
}

/* Prints `ok` or the refusal. */
static void print_answer(enum store_answer answer)
{
    if (answer == STORE_ACCEPTED)
        puts("ok");
    else
        printf("refused %d\n", answer);
}

static void print_refusal(enum store_answer answer)
{
    printf("refused %d\n", answer);
}

/* ---- The lines -------------------------------------------------------------------------------- */

static bool make_areas(uint64_t slots, uint64_t pages, uint64_t frames)
{
    if (slots < STORE_SLOTS_LEAST || slots > SLOTS_MOST || pages < 1 || pages > PAGES_MOST
        || frames < 1 || frames > FRAMES_MOST)
        return false;
    whole_log.length = slots * STORE_BLOCK_SIZE;
    whole_home.length = pages * STORE_PAGE_SIZE;
    whole_frames.length = frames * STORE_PAGE_SIZE;
    whole_staging.length = frames * STORE_UPDATE_SIZE;
    memset(log_bytes, 255, whole_log.length);
    for (size_t i = 0; i < whole_home.length; i++)
        home_bytes[i] = (uint8_t)((i + 31 * (i / 1024)) % 251);
    memset(frame_bytes, 170, whole_frames.length);
    memset(staging_bytes, 170, whole_staging.length);
    lent_log = whole_log;
    lent_home = whole_home;
    lent_frames = whole_frames;
    lent_staging = whole_staging;
    memset(&state, 0, sizeof state);
    puts("areas");
    return true;
}

static void open_store(void)
{
    uint64_t ticket, place;
    enum store_answer answer =
        store_open(&state, lent_log, lent_home, lent_frames, lent_staging, &ticket, &place);

    if (answer == STORE_ACCEPTED)
        printf("opened %" PRIu64 " next %" PRIu64 "\n", ticket, state.next);
    else
        printf("refused %d place %" PRIu64 "\n", answer, place);
}

static bool describe(uint64_t page, uint64_t offset, uint64_t length, uint64_t seed)
{
    uint8_t bytes[BYTES_MOST];

    if (length > BYTES_MOST)
        return false;
    for (uint64_t j = 0; j < length; j++)
        bytes[j] = (uint8_t)(seed + 13 * j);
    print_answer(store_describe(&state, lent_staging, page, offset, bytes, length));
    return true;
}

static void end_transaction(void)
{
    uint64_t ticket;
    enum store_answer answer = store_end(&state, &ticket);

    if (answer == STORE_ACCEPTED)
        printf("ticket %" PRIu64 "\n", ticket);
    else
        print_refusal(answer);
}

static void log_step(void)
{
    uint64_t settled;
    enum store_answer answer =
        store_log_step(&state, lent_log, lent_home, lent_frames, lent_staging, &settled);

    if (answer != STORE_ACCEPTED)
        print_refusal(answer);
    else if (settled != 0)
        printf("settled %" PRIu64 "\n", settled);
    else
        puts("stored");
}

static void clean_step(void)
{
    enum store_answer answer = store_clean_step(&state, lent_log, lent_home, lent_frames);

    if (answer == STORE_ACCEPTED)
        puts("stored");
    else
        print_refusal(answer);
}

static void read_page(uint64_t page)
{
    enum store_answer answer;
    struct store_area part = store_read(&state, lent_home, lent_frames, page, &answer);

    if (answer == STORE_ACCEPTED)
        printf("page %" PRIu64 "\n", digest(part.bytes, part.length));
    else
        print_refusal(answer);
}

static void settled(uint64_t ticket)
{
    int committed;
    enum store_answer answer = store_settled(&state, ticket, &committed);

    if (answer == STORE_ACCEPTED)
        puts(committed ? "yes" : "no");
    else
        print_refusal(answer);
}

static void cut(void)
{
    memset(&state, 0, sizeof state);
    memset(frame_bytes, 85, whole_frames.length);
    memset(staging_bytes, 85, whole_staging.length);
    puts("cut");
}

static void lend(const uint64_t *lengths)
{
    lent_log.length = at_most(lengths[0], whole_log.length);
    lent_home.length = at_most(lengths[1], whole_home.length);
    lent_frames.length = at_most(lengths[2], whole_frames.length);
    lent_staging.length = at_most(lengths[3], whole_staging.length);
    puts("lent");
}

static bool poke(uint64_t place, uint64_t value)
{
    if (place >= whole_log.length || value > 255)
        return false;
    log_bytes[place] = (uint8_t)value;
    puts("poked");
    return true;
}

/* How many numbers follow a letter, or -1 if no line begins with it. */
static int numbers_after(int letter)
{
    switch (letter) {
    case 'f': case 'o': case 'e': case 'l': case 'c': case 'x': case 'g':
        return 0;
    case 'b': case 'r': case 's': case 't':
        return 1;
    case 'p':
        return 2;
    case 'a':
        return 3;
    case 'd': case 'n':
        return 4;
    default:
        return -1;
    }
}

/* Answers a line. False, with nothing printed or changed: it is bad. */
static bool answer_line(const struct line *line)
{
    const uint64_t *numbers = line->numbers;

    if (!line->good || line->count != numbers_after(line->letter))
        return false;
    if (whole_log.length == 0 && line->letter != 'a')
        return false;
    switch (line->letter) {
    case 'a':
        return make_areas(numbers[0], numbers[1], numbers[2]);
    case 'f':
        print_answer(store_format(lent_log));
        return true;
    case 'o':
        open_store();
        return true;
    case 'b':
        print_answer(store_begin(&state, numbers[0]));
        return true;
    case 'd':
        return describe(numbers[0], numbers[1], numbers[2], numbers[3]);
    case 'e':
        end_transaction();
        return true;
    case 'l':
        log_step();
        return true;
    case 'c':
        clean_step();
        return true;
    case 'r':
        read_page(numbers[0]);
        return true;
    case 's':
        settled(numbers[0]);
        return true;
    case 'x':
        cut();
        return true;
    case 'n':
        lend(numbers);
        return true;
    case 'p':
        return poke(numbers[0], numbers[1]);
    case 't':
        state.next = numbers[0];
        puts("next");
        return true;
    default:
        printf("log %" PRIu64 " home %" PRIu64 "\n", digest(log_bytes, whole_log.length),
               digest(home_bytes, whole_home.length));
        return true;
    }
}

int main(void)
{
    struct line line;

    while (read_line(&line)) {
        if (!answer_line(&line))
            puts("bad");
    }
    return 0;
}
