/*
 * The module's half of the ternary Wave signatures: hold a public key and check signatures.
 *
 * Trits stand in two planes of 64-bit words, ones and twos, least significant bit first: trit 1 sets its bit in the
 * ones plane, trit 2 in the twos plane. A row of m trits takes WAVE_WORDS(m) words in each plane; the rows of a key
 * follow each other, each beginning a new word. Packed, m trits take WAVE_BYTES(m) bytes, five trits to a byte, the
 * first trit times 1, then times 3, 9, 27, 81. Trits past m in the last byte are 0, when written and for bytes to be
 * read: where m is no multiple of 5, the last byte is below 3 to the power m % 5. So a row has one packed form, and
 * bytes that were read and are packed again come back.
 *
 * Every buffer is a pointer and its number of elements (words or bytes, not the size in bytes). Every length must be
 * exactly what the sizes say. No two buffers of one call may overlap where one of them is written. The caller owns
 * all memory; nothing is allocated or kept between calls.
 *
 * Refusals are numbers, 0 for none: 1 a size outside its range, 2 a wrong length, 3 a bit set in both planes, 4 a bit
 * set past a row's length, 5 a packed byte above 242, 6 the stream ends too soon, 15 a nonzero trit past the length in
 * packed bytes, 20 no key begun or rows missing at a check, 21 a row offered to a whole key, 22 another key number than
 * the held one. A call tests in the order given with it and returns the first refusal that applies; a refused call
 * leaves the state and every buffer as they were, but for the working space of wave_check_text after 6.
 *
 * Which check: a module that doses by a text should call wave_check_text with the salt and that very text, so that what
 * is checked and what is dosed cannot come apart. wave_check is for a syndrome y that was made elsewhere, by
 * wave_syndrome or by a hash of the host's own: it says nothing about the text behind y.
 *
 * Within one buffer the lower number comes first, but for planes, where 4 comes before 3: a row that was cut wrongly is
 * told as that, even where its bits past the length stand in both planes. Each is looked for in the whole buffer, in
 * every row of a key, before the next.
 */
#ifndef WAVE_CHECKER_H
#define WAVE_CHECKER_H

#include <stddef.h>
#include <stdint.h>

#ifdef __cplusplus
extern "C" {
#endif

/* The words of one plane of a row of m trits, and of a whole key; the header of the editor's half has the same. */
#ifndef WAVE_WORDS
#define WAVE_WORDS(m) (((size_t)(m) + 63) / 64)
#endif
#ifndef WAVE_KEY_WORDS
#define WAVE_KEY_WORDS(n, k) ((size_t)(k) * WAVE_WORDS((size_t)(n) - (size_t)(k)))
#endif

/* The packed bytes of a row of m trits. */
#define WAVE_BYTES(m) (((size_t)(m) + 4) / 5)

/* The bytes of a salt. */
#define WAVE_SALT_BYTES 32

/*
 * The state of the module. All zero: no key begun. begun is 0 or 1; number, n, k and w are those of the key begun, and
 * rows counts the rows stored. The state goes in by value and comes back by value: keep the one that comes back.
 */
typedef struct { uint64_t begun, number, n, k, w, rows; } wave_held;

/* What a beginning or a row comes to: the refusal or 0, and the state after the call (the same one after a refusal). */
typedef struct { uint64_t refusal; wave_held held; } wave_stored;

/* What a check comes to: the refusal or 0; yes is 1 for yes and 0 for all else; how many trits of the full word are 1,
 * and how many are 2, which add up to its weight. After a refusal yes, ones and twos are 0. "No" is no refusal. */
typedef struct { uint64_t refusal, yes, ones, twos; } wave_checked;

/*
 * Begins a key, which replaces the held one whatever the old state is. number is 0 to 4,294,967,295, n is even from 4 to
 * 16,384, k is 2 to n-2, w is 1 to n; otherwise 1, and the old key stays. No row is stored yet, and no word of a buffer
 * is touched: what the planes of the key hold means nothing until rows are stored.
 */
wave_stored wave_begin(wave_held held, uint64_t number, uint64_t n, uint64_t k, uint64_t w);

/*
 * Stores a packed row of n-k trits as the next row of the key. ones and twos are the planes of the whole key, each of
 * WAVE_KEY_WORDS(n, k) words; row has WAVE_BYTES(n-k) bytes. The words of that row are filled in both planes, bits past
 * its length 0, and no other word changes.
 * Order of refusals: 20 (no key begun), 1 (a state out of its ranges), 21, 2, 5, 15 (5 over all of row first).
 */
wave_stored wave_store_row(wave_held held, uint64_t *ones, size_t ones_words, uint64_t *twos, size_t twos_words,
                           const uint8_t *row, size_t row_bytes);

/*
 * Checks the signature s on the syndrome y under the held key: the full word is (y - s times the key, s), the answer
 * its ones and its twos, and yes exactly when their sum is w. y has WAVE_BYTES(n-k) bytes, s has WAVE_BYTES(k) bytes,
 * and ones and twos are the planes of the whole key, as for wave_store_row. number is the key number asked for; one that
 * is not the held key's is 22, however large. work_ones and work_twos are working space of WAVE_WORDS(n-k) words each;
 * they may hold anything, are untouched after a refusal, and are all zero after every verdict.
 * Order of refusals: 20 (no key begun), 1 (a state out of its ranges), 20 (rows missing), 22, 2, then the contents of
 * the key (4, then 3, each over all of it), of y (5, then 15) and of s (5, then 15).
 */
wave_checked wave_check(wave_held held, uint64_t number, const uint64_t *ones, size_t ones_words,
                        const uint64_t *twos, size_t twos_words, const uint8_t *y, size_t y_bytes,
                        const uint8_t *s, size_t s_bytes, uint64_t *work_ones, size_t work_ones_words,
                        uint64_t *work_twos, size_t work_twos_words);

/*
 * Checks the signature s on a text with its salt under the held key. The syndrome y is the one that wave_syndrome makes
 * of n-k, salt and text, and the verdict is that of wave_check on this y: the same ones, twos and yes. salt has
 * WAVE_SALT_BYTES bytes; text may have any length, and none. The rest is as for wave_check, with y made in the working
 * space: that is untouched after every refusal but 6, and all zero after 6 and after every verdict.
 * Order of refusals: 20 (no key begun), 1 (a state out of its ranges), 20 (rows missing), 22, 2, then the contents of
 * the key (4, then 3, each over all of it) and of s (5, then 15), then 6.
 */
wave_checked wave_check_text(wave_held held, uint64_t number, const uint64_t *ones, size_t ones_words,
                             const uint64_t *twos, size_t twos_words, const uint8_t *salt, size_t salt_bytes,
                             const uint8_t *text, size_t text_bytes, const uint8_t *s, size_t s_bytes,
                             uint64_t *work_ones, size_t work_ones_words, uint64_t *work_twos, size_t work_twos_words);

/*
 * The syndrome of a text with its salt: m trits (0 to 16,384), read as wave_from_stream reads them from the first m+136
 * bytes of SHAKE256 (FIPS 202) of the salt and then the text. salt has WAVE_SALT_BYTES bytes; text may have any length,
 * and none. The planes have WAVE_WORDS(m) words each. For a signature under a key of n and k, m is n-k.
 * Order of refusals: 1, 2, 6 (those bytes give fewer than m trits). The planes stay after a refusal.
 */
uint64_t wave_syndrome(size_t m, const uint8_t *salt, size_t salt_bytes, const uint8_t *text, size_t text_bytes,
                       uint64_t *ones, size_t ones_words, uint64_t *twos, size_t twos_words);

/*
 * SHAKE256 (FIPS 202) of a message of any length: as many bytes of its output as are lent, none too. It refuses nothing.
 */
void wave_shake256(const uint8_t *message, size_t message_bytes, uint8_t *output, size_t output_bytes);

/*
 * Packs a row of m trits (0 to 16,384): planes of WAVE_WORDS(m) words each become WAVE_BYTES(m) bytes.
 * Order of refusals: 1, 2, 4, 3. bytes stays after a refusal.
 */
uint64_t wave_pack(size_t m, const uint64_t *ones, size_t ones_words, const uint64_t *twos, size_t twos_words,
                   uint8_t *bytes, size_t bytes_count);

/*
 * Unpacks a row of m trits (0 to 16,384): WAVE_BYTES(m) bytes become planes of WAVE_WORDS(m) words each, bits past m 0.
 * Order of refusals: 1, 2, 5, 15 (5 over all bytes first). The planes stay after a refusal.
 */
uint64_t wave_unpack(size_t m, const uint8_t *bytes, size_t bytes_count, uint64_t *ones, size_t ones_words,
                     uint64_t *twos, size_t twos_words);

/*
 * Takes m trits (0 to 16,384) from a stream of bytes of any length: bytes of 243 or more are skipped, each other byte
 * gives five trits, and what follows the m-th trit, in its byte too, is not looked at. The planes have WAVE_WORDS(m)
 * words each.
 * Order of refusals: 1, 2, 6. The planes stay after a refusal.
 */
uint64_t wave_from_stream(size_t m, const uint8_t *bytes, size_t bytes_count, uint64_t *ones, size_t ones_words,
                          uint64_t *twos, size_t twos_words);

#ifdef __cplusplus
}
#endif

#endif
