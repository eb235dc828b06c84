/* The row functions in plain C, and the tests of rows in planes. */

/* the bits that are set in both planes, over all words */
static inline uint64_t both_set(const uint64_t *ones, const uint64_t *twos, size_t n) {
    uint64_t both = 0;
    BY_FOUR for (size_t i = 0; i < n; i++) both |= ones[i] & twos[i];
    return both;
}

/* the last words of all rows of w words, in one word */
static inline uint64_t last_words(const uint64_t *ones, const uint64_t *twos, size_t rows, size_t w) {
    uint64_t last = 0;
    for (size_t i = w - 1; i < rows * w; i += w) last |= ones[i] | twos[i];
    return last;
}

/* 4 if a bit stands past the m trits of a row, else 3 if one stands in both planes */
static uint64_t planes_refusal(const uint64_t *ones, const uint64_t *twos, size_t rows, size_t m) {
    size_t w = WAVE_WORDS(m);
    if (m % 64 && last_words(ones, twos, rows, w) >> m % 64) return 4;
    return both_set(ones, twos, rows * w) ? 3 : 0;
}

static uint64_t c_both_set(const uint64_t *ones, size_t n, const uint64_t *twos, size_t n2) {
    return n2 != n ? 2 : both_set(ones, twos, n) != 0;
}

static uint64_t c_past_end(const uint64_t *ones, size_t n, const uint64_t *twos, size_t n2, size_t rows, size_t m) {
    size_t w = WAVE_WORDS(m);
    if (m > 16384 || rows > 16384 || n != rows * w || n2 != n) return 2;
    return m % 64 && last_words(ones, twos, rows, w) >> m % 64;
}

/* not inlined, so that one row is added at a time, and gcc sees that the rows do not overlap */
static __attribute__((noinline)) void add_row(uint64_t *restrict ones, uint64_t *restrict twos,
                                              const uint64_t *restrict so, const uint64_t *restrict st, size_t n) {
    add(ones, twos, so, st, n);
}

static uint64_t c_sum(uint64_t *ones, size_t n, uint64_t *twos, size_t n2, const uint64_t *so, size_t n3,
                      const uint64_t *st, size_t n4, size_t times) {
    if (n2 != n || n3 != n || n4 != n) return 2;
    if (both_set(ones, twos, n) || both_set(so, st, n)) return 3;
    for (size_t i = 0; i < times; i++) add_row(ones, twos, so, st, n);
    return 0;
}

static uint64_t c_weight(const uint64_t *ones, size_t n, const uint64_t *twos, size_t n2) {
    return n2 != n || n > 65536 ? 0 : weight(ones, twos, n);
}
