/*
 * The editor's half of the ternary Wave signatures: build a key from a secret, and draw signed words under it.
 *
 * Trits stand in two planes of 64-bit words, ones and twos, least significant bit first: trit 1 sets its bit in the
 * ones plane, trit 2 in the twos plane. A row of m trits takes WAVE_WORDS(m) words in each plane; the rows of a matrix
 * follow each other, each beginning a new word. An order is a list of places, 16-bit numbers from 0 on, each once.
 *
 * Every buffer is a pointer and its number of elements (64-bit words or 16-bit places, not the size in bytes); ones
 * come before twos. Every length must be exactly what the sizes say. No two buffers of one call may overlap where one
 * of them is written. The caller owns all memory; nothing is allocated or kept between calls.
 *
 * With N = n/2, r_U = N - ku, r_V = N - kv and k = ku + kv:
 *
 *   buffer            its trits or places           words of one plane, or places
 *   hu                r_U rows of N trits           WAVE_HU_WORDS(n, ku)
 *   hv                r_V rows of N trits           WAVE_HV_WORDS(n, kv)
 *   b, c              N trits each                  WAVE_HALF_WORDS(n)
 *   start, p          n places                      n
 *   key               k rows of n-k trits           WAVE_KEY_WORDS(n, ku + kv)
 *   y                 n-k trits                     WAVE_WORDS(n - k)
 *   v_order, u_order  N places                      n / 2
 *   v                 kv trits                      WAVE_WORDS(kv)
 *   u                 ku trits                      WAVE_WORDS(ku)
 *   word              n trits                       WAVE_WORDS(n)
 *   s                 k trits                       WAVE_WORDS(k)
 *   work of a build   working space                 WAVE_BUILD_WORDS(n, ku, kv)
 *   work of a draw    working space                 WAVE_DRAW_WORDS(n, ku, kv)
 *
 * Both calls answer 0, or the number of a refusal: 1 a size outside its range, 2 a wrong length, 3 a bit set in both
 * planes, 4 a bit set past a row's length, 7 an order that is no permutation, 8 a zero in c or in the U values from
 * index gu on, 9 hu lacks rank, 10 hv lacks rank, 12 the first r_V + gv places of the V order lack rank in hv, 13 the
 * first r_U + gu places of the U order lack rank in hu, 14 the weight of the word is not w. A call tests in the order
 * given with it and answers with the first refusal that applies; a refused call leaves every buffer as it was, but for
 * the working space after 9 and above.
 *
 * Within one buffer the lower number comes first, but for planes, where 4 comes before 3: a matrix that was cut wrongly
 * is told as that, even where its bits past the length stand in both planes. Each is looked for in the whole buffer, in
 * every row, before the next; 3 in one buffer comes before 4 in a later one.
 */
#ifndef WAVE_SIGNER_H
#define WAVE_SIGNER_H

#include <stddef.h>
#include <stdint.h>

#ifdef __cplusplus
extern "C" {
#endif

/* The words of one plane of a row of m trits, and of a whole key; the header of the module's half has the same. */
#ifndef WAVE_WORDS
#define WAVE_WORDS(m) (((size_t)(m) + 63) / 64)
#endif
#ifndef WAVE_KEY_WORDS
#define WAVE_KEY_WORDS(n, k) ((size_t)(k) * WAVE_WORDS((size_t)(n) - (size_t)(k)))
#endif

/* The words of one plane of a row of n/2 trits, of hu, and of hv. */
#define WAVE_HALF_WORDS(n) WAVE_WORDS((size_t)(n) / 2)
#define WAVE_HU_WORDS(n, ku) (((size_t)(n) / 2 - (size_t)(ku)) * WAVE_HALF_WORDS(n))
#define WAVE_HV_WORDS(n, kv) (((size_t)(n) / 2 - (size_t)(kv)) * WAVE_HALF_WORDS(n))

/* The rows of working space that hold sums of pivot rows: three tables of 81. */
#define WAVE_TABLE_ROWS 243

/* The words of one working plane of a build: rows of two halves, one for each row of hu and of hv, and the tables. */
#define WAVE_BUILD_WORDS(n, ku, kv) \
    (((size_t)(n) - (size_t)(ku) - (size_t)(kv) + WAVE_TABLE_ROWS) * 2 * WAVE_HALF_WORDS(n))

/* The words of one working plane of a draw: as many rows as the larger of hu and hv has, the tables, and five more. */
#define WAVE_SMALLER(a, b) ((size_t)(a) < (size_t)(b) ? (size_t)(a) : (size_t)(b))
#define WAVE_DRAW_WORDS(n, ku, kv) \
    (((size_t)(n) / 2 - WAVE_SMALLER(ku, kv) + WAVE_TABLE_ROWS + 5) * WAVE_HALF_WORDS(n))

/*
 * The sizes: n even, 4 to 16,384; ku and kv each 1 to n/2 - 1; the gaps gv from 0 to kv and gu from 0 to ku; w from 1
 * to n. A gap may be above the k of the other half. Both calls test all of them; a build does not use gv, gu and w.
 */
typedef struct { uint64_t n, ku, kv, gv, gu, w; } wave_sizes;

/*
 * Builds the key of the secret (hu, hv, b, c) by the starting order start. p becomes the final order and the key its k
 * rows of n-k trits, bits past a row's length 0; both are written whole, and what they held before means nothing.
 * Order of refusals: 1, 2, then the contents of hu (4, then 3, each over all of it), of hv (4, 3), of b (4, 3), of c
 * (4, 3, then 8 a zero in c) and of start (7), then 9, 10. p and the key stay after a refusal.
 * The working space may hold anything; it is untouched after 1 to 8, and all zero after 9, 10 and 0.
 * What is only read (the secret and start) stays after every call.
 */
uint64_t wave_build(wave_sizes sizes, const uint64_t *hu_ones, size_t hu_ones_words,
                    const uint64_t *hu_twos, size_t hu_twos_words, const uint64_t *hv_ones, size_t hv_ones_words,
                    const uint64_t *hv_twos, size_t hv_twos_words, const uint64_t *b_ones, size_t b_ones_words,
                    const uint64_t *b_twos, size_t b_twos_words, const uint64_t *c_ones, size_t c_ones_words,
                    const uint64_t *c_twos, size_t c_twos_words, const uint16_t *start, size_t start_places,
                    uint16_t *p, size_t p_places, uint64_t *key_ones, size_t key_ones_words,
                    uint64_t *key_twos, size_t key_twos_words, uint64_t *work_ones, size_t work_ones_words,
                    uint64_t *work_twos, size_t work_twos_words);

/*
 * One draw for the syndrome y under a secret and the p of its key, by supplied choices: an order and kv trits for V, an
 * order and ku values for U, those from index gu on not 0. word becomes the n trits of the word in public places, and s
 * its last k trits, the signature; bits past their lengths are 0, and what they held before means nothing.
 * Order of refusals: 1, 2, then the contents of hu, hv and b (4, then 3, each over all of the buffer), of c (4, 3, 8),
 * of p (7), of y (4, 3), of v_order (7), of v (4, 3), of u_order (7) and of u (4, 3, then 8 a zero from index gu on,
 * used or not), then 12, 13, 14. word and s stay after a refusal. After 12, 13 and 14 other choices may succeed.
 * The working space may hold anything; it is untouched after 1 to 8, and all zero after 12, 13, 14 and 0.
 * What is only read (the secret, p, y and the choices) stays after every call.
 */
uint64_t wave_draw(wave_sizes sizes, const uint64_t *hu_ones, size_t hu_ones_words,
                   const uint64_t *hu_twos, size_t hu_twos_words, const uint64_t *hv_ones, size_t hv_ones_words,
                   const uint64_t *hv_twos, size_t hv_twos_words, const uint64_t *b_ones, size_t b_ones_words,
                   const uint64_t *b_twos, size_t b_twos_words, const uint64_t *c_ones, size_t c_ones_words,
                   const uint64_t *c_twos, size_t c_twos_words, const uint16_t *p, size_t p_places,
                   const uint64_t *y_ones, size_t y_ones_words, const uint64_t *y_twos, size_t y_twos_words,
                   const uint16_t *v_order, size_t v_order_places, const uint64_t *v_ones, size_t v_ones_words,
                   const uint64_t *v_twos, size_t v_twos_words, const uint16_t *u_order, size_t u_order_places,
                   const uint64_t *u_ones, size_t u_ones_words, const uint64_t *u_twos, size_t u_twos_words,
                   uint64_t *word_ones, size_t word_ones_words, uint64_t *word_twos, size_t word_twos_words,
                   uint64_t *s_ones, size_t s_ones_words, uint64_t *s_twos, size_t s_twos_words,
                   uint64_t *work_ones, size_t work_ones_words, uint64_t *work_twos, size_t work_twos_words);

/* The words of one working plane of a build and of a draw at these sizes, which are in their ranges. */
static inline size_t wave_build_work(wave_sizes z) { return WAVE_BUILD_WORDS(z.n, z.ku, z.kv); }
static inline size_t wave_draw_work(wave_sizes z) { return WAVE_DRAW_WORDS(z.n, z.ku, z.kv); }

#ifdef __cplusplus
}
#endif

#endif
