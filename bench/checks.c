/* Other ways to take a block's check, each in a row of its own beside C's and the proved store's: one
 * byte a turn, as the two sums are defined; and with the processor's vector instructions named one by
 * one, which neither the C store nor the proved one does. Their answers must be C's. */
#include "workloads.h"

enum { BLOCK_SIZE = 512, SUMMED_BYTES = 508, MODULUS = 65535 };

static uint32_t one_byte_a_turn(const uint8_t *block)
{
    uint32_t a = 0, b = 0;

    for (int i = 0; i < SUMMED_BYTES; i++) {
        a += block[i];
        b += a;
    }
    return a % MODULUS | b % MODULUS << 16;
}

static inline uint64_t checks_with(uint32_t check(const uint8_t *), const uint8_t *log,
                                   uint64_t count)
{
    uint64_t digest = 0;

    for (uint64_t i = 0; i < count; i++)
        digest = note(digest, 16 + check(log + i % BENCH_SLOTS * BLOCK_SIZE));
    return digest;
}

static uint64_t checks_by_bytes(uint8_t *log, size_t log_length, uint8_t *home, size_t home_length,
                                uint8_t *frames, size_t frames_length, uint8_t *staging,
                                size_t staging_length, uint64_t count)
{
    (void)log_length, (void)home, (void)home_length, (void)frames, (void)frames_length;
    (void)staging, (void)staging_length;
    return checks_with(one_byte_a_turn, log, count);
}

const struct subject check_by_bytes_subject = {
    .name = "one byte a turn",
    .same_answers = true,
    .work = {[CHECK] = checks_by_bytes},
};

#ifdef __SSE2__
#include <emmintrin.h>

static inline uint32_t sum_of_four(__m128i numbers)
{
    numbers = _mm_add_epi32(numbers, _mm_shuffle_epi32(numbers, 0x4e));
    numbers = _mm_add_epi32(numbers, _mm_shuffle_epi32(numbers, 0xb1));
    return (uint32_t)_mm_cvtsi128_si32(numbers);
}

/* What the rows so far make: the sum of their bytes, and of these sums before each row; the pairs of
 * bytes summed as numbers of 16 bits, modulo 65,536, and their upper bytes alone. */
struct running {
    __m128i sum, totals, pairs, uppers;
};

static inline struct running with_row(struct running before, __m128i row)
{
    struct running after = {
        _mm_add_epi32(before.sum, _mm_sad_epu8(row, _mm_setzero_si128())),
        _mm_add_epi32(before.totals, before.sum),
        _mm_add_epi16(before.pairs, row),
        _mm_add_epi16(before.uppers, _mm_srli_epi16(row, 8)),
    };
    return after;
}

static inline __m128i row_at(const uint8_t *bytes)
{
    return _mm_loadu_si128((const __m128i *)(const void *)bytes);
}

/* 32 rows of 16 bytes, with four zeros before the first: three of them and then four at a time. */
static uint32_t by_sse2(const uint8_t *block)
{
    const __m128i none = _mm_setzero_si128();
    const __m128i lower_weights = _mm_setr_epi16(16, 14, 12, 10, 8, 6, 4, 2);
    const __m128i upper_weights = _mm_setr_epi16(15, 13, 11, 9, 7, 5, 3, 1);
    struct running all = {none, none, none, none};

    all = with_row(all, _mm_slli_si128(row_at(block), 4));
    all = with_row(all, row_at(block + 12));
    all = with_row(all, row_at(block + 28));
    all = with_row(all, row_at(block + 44));
    for (const uint8_t *at = block + 60; at < block + SUMMED_BYTES; at += 64) {
        all = with_row(all, row_at(at));
        all = with_row(all, row_at(at + 16));
        all = with_row(all, row_at(at + 32));
        all = with_row(all, row_at(at + 48));
    }
    __m128i lowers = _mm_sub_epi16(all.pairs, _mm_slli_epi16(all.uppers, 8));
    __m128i weighted = _mm_add_epi32(_mm_madd_epi16(lowers, lower_weights),
                                     _mm_madd_epi16(all.uppers, upper_weights));
    weighted = _mm_add_epi32(weighted, _mm_slli_epi32(all.totals, 4));
    return sum_of_four(all.sum) % MODULUS | sum_of_four(weighted) % MODULUS << 16;
}

static uint64_t checks_by_sse2(uint8_t *log, size_t log_length, uint8_t *home, size_t home_length,
                               uint8_t *frames, size_t frames_length, uint8_t *staging,
                               size_t staging_length, uint64_t count)
{
    (void)log_length, (void)home, (void)home_length, (void)frames, (void)frames_length;
    (void)staging, (void)staging_length;
    return checks_with(by_sse2, log, count);
}

const struct subject check_by_sse2_subject = {
    .name = "C with SSE2 by name",
    .same_answers = true,
    .work = {[CHECK] = checks_by_sse2},
};
#endif
