/*
 * An editor: it builds a key from a stored secret, makes the syndrome of a text with its salt, draws until a word is
 * released, and prints the lines by which a module takes the key and checks the signature. The secret is the paper's,
 * at n = 4, so that every step can be followed by hand; at other sizes only the constants and the digits below change.
 * It links both archives: the syndrome is made by the module's half, so that both halves make the same one.
 */
#include <inttypes.h>
#include <stdio.h>
#include <string.h>

#include "wave_checker.h"
#include "wave_signer.h"

enum { N = 4, KU = 1, KV = 1, GV = 0, GU = 0, W = 4, K = KU + KV, M = N - K, HALF = N / 2 };
enum { KEY = 7, FORMULA = 12, TRIES = 1000 };

static const wave_sizes sizes = { N, KU, KV, GV, GU, W };

/* A buffer of trits is two planes; it is lent as both, each with its number of words. */
#define PLANES(name, words) static uint64_t name##_ones[words], name##_twos[words]
#define COUNT(array) (sizeof(array) / sizeof(array)[0])
#define LENT(name) name##_ones, COUNT(name##_ones), name##_twos, COUNT(name##_twos)

/* The secret, and its starting order. */
PLANES(hu, WAVE_HU_WORDS(N, KU));
PLANES(hv, WAVE_HV_WORDS(N, KV));
PLANES(b, WAVE_HALF_WORDS(N));
PLANES(c, WAVE_HALF_WORDS(N));
static const uint16_t start[N] = { 0, 1, 2, 3 };

/* What a build releases: the order p, which stays with the editor, and the key. */
static uint16_t p[N];
PLANES(key, WAVE_KEY_WORDS(N, K));

/* The text that is signed, and a salt, which an editor draws anew for each signature. */
static const char text[] = "formula 12: bergamot 250, iris 12, musk 3";
static const uint8_t salt[WAVE_SALT_BYTES] = {
    0x5b, 0x83, 0x8d, 0x37, 0x60, 0x25, 0x05, 0x0a, 0xfc, 0xd8, 0xd1, 0xd3, 0xd4, 0x35, 0xa7, 0x1a,
    0x43, 0x21, 0xab, 0xf1, 0x83, 0x97, 0x2d, 0x99, 0x98, 0x9c, 0x13, 0x55, 0x21, 0x38, 0x8c, 0x96
};

/* What a draw takes: the syndrome and the choices; what it releases: the word and its signature s. */
PLANES(y, WAVE_WORDS(M));
static const uint16_t v_order[HALF] = { 0, 1 }, u_order[HALF] = { 0, 1 };
PLANES(v, WAVE_WORDS(KV));
PLANES(u, WAVE_WORDS(KU));
PLANES(word, WAVE_WORDS(N));
PLANES(s, WAVE_WORDS(K));

/* Working space. */
PLANES(build_work, WAVE_BUILD_WORDS(N, KU, KV));
PLANES(draw_work, WAVE_DRAW_WORDS(N, KU, KV));

/* Sets one trit of a row. */
static void put(uint64_t *ones, uint64_t *twos, size_t place, unsigned trit)
{
    uint64_t bit = (uint64_t)1 << place % 64;
    ones[place / 64] = (ones[place / 64] & ~bit) | (trit == 1 ? bit : 0);
    twos[place / 64] = (twos[place / 64] & ~bit) | (trit == 2 ? bit : 0);
}

/* Sets a row from its digits. */
static void put_digits(uint64_t *ones, uint64_t *twos, const char *digits)
{
    for (size_t i = 0; digits[i] != '\0'; i++)
        put(ones, twos, i, (unsigned)(digits[i] - '0'));
}

/* Prints a row of m trits as digits. */
static void print_digits(const uint64_t *ones, const uint64_t *twos, size_t m)
{
    for (size_t i = 0; i < m; i++)
        printf("%u", (unsigned)(ones[i / 64] >> i % 64 & 1) + 2 * (unsigned)(twos[i / 64] >> i % 64 & 1));
}

/* Reads the secret: here each matrix has one row. */
static void read_secret(void)
{
    put_digits(hu_ones, hu_twos, "11");
    put_digits(hv_ones, hv_twos, "12");
    put_digits(b_ones, b_twos, "01");
    put_digits(c_ones, c_twos, "12");
}

/* Makes the choices of one draw: V trits, and U values that are not 0 from index GU on. An editor takes them from a
   source of randomness; here they are counted through. */
static void choose(unsigned x)
{
    put(v_ones, v_twos, 0, x % 3);
    put(u_ones, u_twos, 0, 1 + x / 3 % 2);
}

/* Builds the key: 0, or the number of the refusal. */
static uint64_t build(void)
{
    return wave_build(sizes, LENT(hu), LENT(hv), LENT(b), LENT(c), start, N, p, N, LENT(key), LENT(build_work));
}

/* Makes the syndrome of the text with its salt: 0, or the number of the refusal. */
static uint64_t hash(void)
{
    return wave_syndrome(M, salt, WAVE_SALT_BYTES, (const uint8_t *)text, strlen(text), LENT(y));
}

/* Draws once by the choices made: 0, or the number of the refusal. */
static uint64_t draw(void)
{
    return wave_draw(sizes, LENT(hu), LENT(hv), LENT(b), LENT(c), p, N, LENT(y), v_order, HALF, LENT(v),
                     u_order, HALF, LENT(u), LENT(word), LENT(s), LENT(draw_work));
}

/* Draws until a word is released: 0, or the last refusal. Only after 12, 13 and 14 may other choices do. */
static uint64_t sign(void)
{
    uint64_t refusal = 14;
    for (unsigned x = 0; x < TRIES && refusal >= 12; x++) {
        choose(x);
        refusal = draw();
    }
    return refusal;
}

/* The line that begins the key, and one for each of its rows. */
static void print_key(void)
{
    printf("P\t%d\t%d\t%d\t%d\n", KEY, N, K, W);
    for (size_t i = 0; i < K; i++) {
        printf("K\t");
        print_digits(key_ones + i * WAVE_WORDS(M), key_twos + i * WAVE_WORDS(M), M);
        printf("\n");
    }
}

/* The line of the signature. */
static void print_signature(void)
{
    printf("S\t%d\t%d\t", KEY, FORMULA);
    print_digits(y_ones, y_twos, M);
    printf("\t");
    print_digits(s_ones, s_twos, K);
    printf("\n");
}

/* Tells of a refusal, and whether there was one. */
static int refused(const char *call, uint64_t refusal)
{
    if (refusal != 0)
        fprintf(stderr, "%s is refused: %" PRIu64 "\n", call, refusal);
    return refusal != 0;
}

int main(void)
{
    read_secret();
    if (refused("the build", build()))
        return 1;
    print_key();

    if (refused("the text", hash()) || refused("every draw", sign()))
        return 1;
    print_signature();
    return 0;
}
