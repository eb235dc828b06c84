/*
 * A module: it holds a public key and says yes or no to signed texts under it. The key is the paper's, at n = 4, so
 * that every step can be followed by hand; it is far too small to protect anything. Rows and signatures are packed:
 * five trits to a byte, the first times 1, then times 3, 9, 27, 81.
 */
#include <inttypes.h>
#include <stdio.h>
#include <string.h>

#include "wave_checker.h"

/* The sizes of the key: K rows of M trits, and the weight of a word that it takes. */
enum { N = 4, K = 2, W = 4, M = N - K };

static wave_held held; /* all zero: no key begun */
static uint64_t ones[WAVE_KEY_WORDS(N, K)], twos[WAVE_KEY_WORDS(N, K)];

/* What comes with a text: the salt that was drawn for it, and the packed s. */
typedef struct { uint8_t salt[WAVE_SALT_BYTES], s[WAVE_BYTES(K)]; } signature;

/* Loads a key of K packed rows, one after another: 0, or the number of the refusal. */
static uint64_t load(uint64_t number, const uint8_t *rows)
{
    wave_stored got = wave_begin(held, number, N, K, W);
    for (size_t i = 0; got.refusal == 0 && i < K; i++)
        got = wave_store_row(got.held, ones, WAVE_KEY_WORDS(N, K), twos, WAVE_KEY_WORDS(N, K),
                             rows + i * WAVE_BYTES(M), WAVE_BYTES(M));
    held = got.held;
    return got.refusal;
}

/* Checks a signature on a text under the key of this number. After yes a module doses by that text, byte for byte. */
static wave_checked check(uint64_t number, const char *text, const signature *by)
{
    uint64_t work_ones[WAVE_WORDS(M)], work_twos[WAVE_WORDS(M)];
    return wave_check_text(held, number, ones, WAVE_KEY_WORDS(N, K), twos, WAVE_KEY_WORDS(N, K),
                           by->salt, WAVE_SALT_BYTES, (const uint8_t *)text, strlen(text), by->s, WAVE_BYTES(K),
                           work_ones, WAVE_WORDS(M), work_twos, WAVE_WORDS(M));
}

/* Prints an answer as the line program does: key, formula, weight (its ones plus its twos), verdict. */
static void tell(uint64_t number, unsigned formula, wave_checked got)
{
    printf("%" PRIu64 "\t%u\t", number, formula);
    if (got.refusal != 0)
        printf("-\tr%" PRIu64 "\n", got.refusal);
    else
        printf("%" PRIu64 "+%" PRIu64 "\t%s\n", got.ones, got.twos, got.yes ? "yes" : "no");
}

int main(void)
{
    static const uint8_t rows[K * WAVE_BYTES(M)] = { 6, 8 }; /* 02 and 22 */
    static const char released[] = "formula 12: bergamot 250, iris 12, musk 3";
    static const char changed[] = "formula 12: bergamot 250, iris 21, musk 3";
    static const signature by = {
        { 0x5b, 0x83, 0x8d, 0x37, 0x60, 0x25, 0x05, 0x0a, 0xfc, 0xd8, 0xd1, 0xd3, 0xd4, 0x35, 0xa7, 0x1a,
          0x43, 0x21, 0xab, 0xf1, 0x83, 0x97, 0x2d, 0x99, 0x98, 0x9c, 0x13, 0x55, 0x21, 0x38, 0x8c, 0x96 },
        { 4 } /* 11 */
    };

    uint64_t refusal = load(7, rows);
    if (refusal != 0) {
        fprintf(stderr, "the key is refused: %" PRIu64 "\n", refusal);
        return 1;
    }
    printf("key\tformula\tweight\tverdict\n");
    tell(7, 12, check(7, released, &by)); /* its y is 12, that of the editor's line: yes */
    tell(7, 12, check(7, changed, &by));  /* its y is 20: no */
    tell(8, 12, check(8, released, &by)); /* another key number than the held one: 22 */
    return 0;
}
