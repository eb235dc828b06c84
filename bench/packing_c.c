/* Packed rows in plain C, for a machine that stores the low byte first, with the same tests in the same order. */

/* the five trits of each byte below 243: the bits of its ones in the low half of a word, of its twos in the high */
static uint64_t trits_of[243];

/* ten bits as two bytes: the low five and the high five as digits to the base 3 */
static uint16_t bytes_of[1024];

/* made at the first call */
static void need_tables(void) {
    if (trits_of[1]) return;
    for (int b = 0; b < 243; b++)
        for (int k = 0, x = b; k < 5; k++, x /= 3)
            trits_of[b] |= (uint64_t)(x % 3 == 1) << k | (uint64_t)(x % 3 == 2) << (32 + k);
    static const int powers[5] = {1, 3, 9, 27, 81};
    for (int x = 0; x < 1024; x++)
        for (int k = 0; k < 10; k++) bytes_of[x] += (x >> k & 1) * powers[k % 5] << k / 5 * 8;
}

/* ---- bytes into planes */

/* where trits go: the next word of each plane, and the words that will stand there, so many bits of them used */
typedef struct { uint64_t *ones, *twos, one, two; size_t used; } writer;

/* so many trits more, 30 at most, as they stand in the table; a full word is written, and the rest begins the next */
static inline void append(writer *to, uint64_t trits, size_t count) {
    uint64_t ones = trits & 0xffffffff, twos = trits >> 32;
    to->one |= ones << to->used;
    to->two |= twos << to->used;
    to->used += count;
    if (to->used < 64) return;
    *to->ones++ = to->one;
    *to->twos++ = to->two;
    to->used -= 64;
    to->one = ones >> (count - to->used);
    to->two = twos >> (count - to->used);
}

/* a row of m trits from bytes below 243, the first of them six at a time, from byte `single` on one by one; trits past m
   are cut off */
static inline void unpack_from(size_t m, const uint8_t *bytes, uint64_t *ones, uint64_t *twos, size_t single) {
    size_t n = WAVE_BYTES(m), w = WAVE_WORDS(m), i = 0;
    writer to = {ones, twos, 0, 0, 0};
    while (i < single) {
        uint64_t trits = 0;
        for (int k = 0; k < 30; k += 5) trits |= trits_of[bytes[i++]] << k;
        append(&to, trits, 30);
    }
    while (i < n) append(&to, trits_of[bytes[i++]], 5);
    if (to.ones < ones + w) *to.ones = to.one, *to.twos = to.two;
    if (m % 64) {
        ones[w - 1] &= ((uint64_t)1 << m % 64) - 1;
        twos[w - 1] &= ((uint64_t)1 << m % 64) - 1;
    }
}

static void unpack(size_t m, const uint8_t *bytes, uint64_t *ones, uint64_t *twos) {
    unpack_from(m, bytes, ones, twos, WAVE_BYTES(m) / 6 * 6);
}

/* 5 if a byte is above 242, else 15 if a trit past m is not 0 */
static uint64_t bytes_refusal(size_t m, const uint8_t *bytes, size_t n) {
    static const uint8_t powers[5] = {1, 3, 9, 27, 81};
    uint8_t high = 0;
    for (size_t i = 0; i < n; i++) high |= bytes[i] > 242;
    if (high) return 5;
    return m % 5 && bytes[n - 1] >= powers[m % 5] ? 15 : 0;
}

/* the bytes below 243 are put after those that are kept, until there are `most`: how many there are then */
static inline size_t keep(const uint8_t *bytes, size_t n, uint8_t *kept, size_t count, size_t most) {
    for (size_t i = 0; i < n && count < most; i++) {
        uint8_t byte = bytes[i];
        kept[count] = byte;
        count += byte < 243;
    }
    return count;
}

/* ---- planes into bytes */

/* 64 bits of a plane of w words from bit p on, 0 past its end */
static inline uint64_t bits_from(const uint64_t *plane, size_t w, size_t p) {
    size_t k = p / 64, s = p % 64;
    uint64_t next = k + 1 < w ? plane[k + 1] : 0;
    return plane[k] >> s | next << 1 << (63 - s);
}

/* the bytes of a row of m trits: ten bits of each plane make two bytes, twelve bytes at a time */
static void pack(size_t m, const uint64_t *ones, const uint64_t *twos, uint8_t *bytes) {
    size_t n = WAVE_BYTES(m), w = WAVE_WORDS(m), i = 0;
    for (; n - i >= 12; i += 12) {
        uint64_t x = bits_from(ones, w, 5 * i), y = bits_from(twos, w, 5 * i);
        for (int k = 0; k < 6; k++) {
            uint16_t two = bytes_of[x >> 10 * k & 1023] + 2 * bytes_of[y >> 10 * k & 1023];
            memcpy(bytes + i + 2 * k, &two, 2);
        }
    }
    for (; i < n; i++) {
        uint64_t x = bits_from(ones, w, 5 * i), y = bits_from(twos, w, 5 * i);
        bytes[i] = bytes_of[x & 31] + 2 * bytes_of[y & 31];
    }
}

/* ---- the calls */

static uint64_t c_pack(size_t m, const uint64_t *ones, size_t on, const uint64_t *twos, size_t tn, uint8_t *bytes,
                       size_t n) {
    if (m > 16384) return 1;
    if (on != WAVE_WORDS(m) || tn != WAVE_WORDS(m) || n != WAVE_BYTES(m)) return 2;
    uint64_t r = planes_refusal(ones, twos, 1, m);
    if (r) return r;
    need_tables();
    pack(m, ones, twos, bytes);
    return 0;
}

static uint64_t unpack_refusal(size_t m, const uint8_t *bytes, size_t n, size_t on, size_t tn) {
    if (m > 16384) return 1;
    if (n != WAVE_BYTES(m) || on != WAVE_WORDS(m) || tn != WAVE_WORDS(m)) return 2;
    return bytes_refusal(m, bytes, n);
}

static uint64_t c_unpack(size_t m, const uint8_t *bytes, size_t n, uint64_t *ones, size_t on, uint64_t *twos,
                         size_t tn) {
    uint64_t r = unpack_refusal(m, bytes, n, on, tn);
    if (r) return r;
    need_tables();
    unpack(m, bytes, ones, twos);
    return 0;
}

/* the same, a byte at a time */
static uint64_t c_unpack_bytes(size_t m, const uint8_t *bytes, size_t n, uint64_t *ones, size_t on, uint64_t *twos,
                               size_t tn) {
    uint64_t r = unpack_refusal(m, bytes, n, on, tn);
    if (r) return r;
    need_tables();
    unpack_from(m, bytes, ones, twos, 0);
    return 0;
}

static uint64_t c_from_stream(size_t m, const uint8_t *bytes, size_t n, uint64_t *ones, size_t on, uint64_t *twos,
                              size_t tn) {
    uint8_t row[WAVE_BYTES(16384)];
    if (m > 16384) return 1;
    if (on != WAVE_WORDS(m) || tn != WAVE_WORDS(m)) return 2;
    if (keep(bytes, n, row, 0, WAVE_BYTES(m)) < WAVE_BYTES(m)) return 6;
    need_tables();
    unpack(m, row, ones, twos);
    return 0;
}
