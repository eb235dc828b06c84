/* Elimination by blocks of twelve pivots, in plain C. Three tables of 81 rows stand after the matrix, in the same
   planes: a table has four of the block's pivots, and its entry e is their sum, each as often as the digits of e in
   base 3 say. */

enum { BLOCK = 12, ENTRIES = 81, TABLES = 3 * ENTRIES };

typedef struct { uint64_t *ones, *twos; size_t rows, w; } grid;

/* ---- rows */

static inline unsigned trit(grid m, size_t i, size_t c) {
    size_t k = i * m.w + c / 64;
    return (m.ones[k] >> c % 64 & 1) + 2 * (m.twos[k] >> c % 64 & 1);
}

/* the words from f on of row i become those of row j */
static void copy_row(grid m, size_t f, size_t i, size_t j) {
    memcpy(m.ones + i * m.w + f, m.ones + j * m.w + f, 8 * (m.w - f));
    memcpy(m.twos + i * m.w + f, m.twos + j * m.w + f, 8 * (m.w - f));
}

/* row j, which has 1 at c, is taken from row i so often that it has 0 there; words before f are left */
static void clear_row(grid m, size_t f, size_t c, size_t j, size_t i) {
    uint64_t *o = m.ones + i * m.w + f, *t = m.twos + i * m.w + f;
    const uint64_t *so = m.ones + j * m.w + f, *st = m.twos + j * m.w + f;
    unsigned x = trit(m, i, c);
    if (x == 1) add(o, t, st, so, m.w - f);
    if (x == 2) add(o, t, so, st, m.w - f);
}

/* a row becomes the sum of two others */
static inline void sum(uint64_t *restrict o, uint64_t *restrict t, const uint64_t *restrict ao,
                       const uint64_t *restrict at2, const uint64_t *restrict bo, const uint64_t *restrict bt,
                       size_t w) {
    BY_FOUR for (size_t k = 0; k < w; k++) {
        uint64_t a = ao[k], b = at2[k], c = bo[k], d = bt[k], x = (a | d) ^ (b | c);
        o[k] = (b | d) ^ x;
        t[k] = (a | c) ^ x;
    }
}

/* a row loses three others; not inlined, so that gcc sees that the rows do not overlap */
static __attribute__((noinline)) void sub_three(uint64_t *restrict o, uint64_t *restrict t,
                                                const uint64_t *restrict ao, const uint64_t *restrict at2,
                                                const uint64_t *restrict bo, const uint64_t *restrict bt,
                                                const uint64_t *restrict co, const uint64_t *restrict ct, size_t w) {
    BY_FOUR for (size_t k = 0; k < w; k++) {
        uint64_t x = o[k], y = t[k], s = (x | ao[k]) ^ (y | at2[k]), z = (y | ao[k]) ^ s;
        y = (x | at2[k]) ^ s;
        s = (z | bo[k]) ^ (y | bt[k]);
        x = (y | bo[k]) ^ s;
        y = (z | bt[k]) ^ s;
        s = (x | co[k]) ^ (y | ct[k]);
        o[k] = (y | co[k]) ^ s;
        t[k] = (x | ct[k]) ^ s;
    }
}

/* ---- tables */

/* the entry that is the block's pivot j alone */
static inline size_t basis(grid m, size_t j) {
    static const size_t power[] = {1, 3, 9, 27};
    return m.rows + ENTRIES * (j / 4) + power[j % 4];
}

static void make_tables(grid m, size_t f) {
    for (size_t first = m.rows; first < m.rows + TABLES; first += ENTRIES) {
        uint64_t *o = m.ones + first * m.w + f, *t = m.twos + first * m.w + f;
        memset(o, 0, 8 * (m.w - f));
        memset(t, 0, 8 * (m.w - f));
        for (size_t p = 1; p < ENTRIES; p *= 3)
            for (size_t e = p + 1; e < 3 * p; e++) {
                size_t to = e * m.w, a = p * m.w, b = to - a;
                sum(o + to, t + to, o + a, t + a, o + b, t + b, m.w - f);
            }
    }
}

/* twelve bits of a row from column c on */
static inline uint64_t bits_at(const uint64_t *row, size_t c) {
    uint64_t x = row[c / 64] >> c % 64;
    return c % 64 > 64 - BLOCK ? x | row[c / 64 + 1] << (64 - c % 64) : x;
}

/* the rows i to e - 1 lose the entries that their own trits at the twelve columns from c on say */
static void apply_tables(grid m, size_t f, size_t c, size_t i, size_t e) {
    static const uint8_t base3[] = {0, 1, 3, 4, 9, 10, 12, 13, 27, 28, 30, 31, 36, 37, 39, 40};
    for (; i < e; i++) {
        uint64_t *o = m.ones + i * m.w, *t = m.twos + i * m.w, x = bits_at(o, c), y = bits_at(t, c);
        size_t from[3];
        for (size_t g = 0; g < 3; g++) {
            size_t entry = base3[x >> 4 * g & 15] + 2 * base3[y >> 4 * g & 15];
            from[g] = (m.rows + ENTRIES * g + entry) * m.w + f;
        }
        sub_three(o + f, t + f, m.ones + from[0], m.twos + from[0], m.ones + from[1], m.twos + from[1],
                  m.ones + from[2], m.twos + from[2], m.w - f);
    }
}

/* ---- a block: its k pivots have the columns from c on; words before f are left */

/* row i is cleared at the block's columns */
static void bring(grid m, size_t f, size_t c, size_t k, size_t i) {
    for (size_t j = 0; j < k; j++) clear_row(m, f, c + j, basis(m, j), i);
}

/* the trit at the next column that row i would have if it were so cleared */
static inline unsigned trit_now(grid m, size_t c, size_t k, size_t i) {
    unsigned x = trit(m, i, c + k);
    for (size_t j = 0; j < k; j++) x += 2 * trit(m, i, c + j) * trit(m, basis(m, j), c + k);
    return x % 3;
}

/* the first row from e on that is not 0 at the next column is cleared and comes to e; it is the block's next pivot */
static int next_pivot(grid m, size_t f, size_t c, size_t k, size_t e) {
    size_t i = e;
    while (i < m.rows && !trit_now(m, c, k, i)) i++;
    if (i == m.rows) return 0;
    bring(m, f, c, k, i);
    uint64_t *o = m.ones + e * m.w + f, *t = m.twos + e * m.w + f;
    swap_words(o, m.ones + i * m.w + f, m.w - f);
    swap_words(t, m.twos + i * m.w + f, m.w - f);
    if (trit(m, e, c + k) == 2) swap_words(o, t, m.w - f);
    copy_row(m, f, basis(m, k), e);
    for (size_t j = 0; j < k; j++) clear_row(m, f, c + k, basis(m, k), basis(m, j));
    return 1;
}

/* the rows i to e - 1 are cleared at the block's columns: by tables where it is full */
static void finish_block(grid m, size_t f, size_t c, size_t k, size_t i, size_t e) {
    if (k == BLOCK && i < e) {
        make_tables(m, f);
        apply_tables(m, f, c, i, e);
    } else for (; i < e; i++) bring(m, f, c, k, i);
}

/* the first n columns are cleared below their pivots, a column without one is passed over: the count of pivots */
static size_t lower(grid m, size_t n) {
    size_t at = 0;
    for (size_t c = 0; c < n && at < m.rows;) {
        size_t f = c / 64, k = 0;
        while (k < BLOCK && c + k < n && at + k < m.rows && next_pivot(m, f, c, k, at + k)) k++;
        finish_block(m, f, c, k, at + k, m.rows);
        at += k;
        c += k < BLOCK ? k + 1 : k;
    }
    return at;
}

/* ---- columns in an order */

static inline void exchange_bits(uint64_t *a, unsigned j, uint64_t mask) {
    for (unsigned b = 0; b < 64; b += 2 * j)
        for (unsigned k = b; k < b + j; k++) {
            uint64_t x = (a[k] >> j ^ a[k + j]) & mask;
            a[k + j] ^= x;
            a[k] ^= x << j;
        }
}

/* bit i of word j becomes bit j of word i */
static void turn(uint64_t *a) {
    exchange_bits(a, 32, 0x00000000ffffffff);
    exchange_bits(a, 16, 0x0000ffff0000ffff);
    exchange_bits(a, 8, 0x00ff00ff00ff00ff);
    exchange_bits(a, 4, 0x0f0f0f0f0f0f0f0f);
    exchange_bits(a, 2, 0x3333333333333333);
    exchange_bits(a, 1, 0x5555555555555555);
}

/* word c of the rows i to i + 63, turned; rows from `rows` on are 0 */
static void turn_block(uint64_t *a, const uint64_t *plane, size_t rows, size_t w, size_t i, size_t c) {
    for (size_t x = 0; x < 64; x++) a[x] = i + x < rows ? plane[(i + x) * w + c] : 0;
    turn(a);
}

/* one plane: column j of `to`, whose rows have v words, becomes the column of place order[j] in `from`, whose rows have
   w, for j < n, and 0 after them. The places from `half` on are columns of the right half, which begins a new word.
   `to` may be `from`; 64 w words are lent for columns. */
static void gather(uint64_t *to, size_t v, const uint64_t *from, size_t w, size_t rows, const uint16_t *order, size_t n,
                   size_t half, uint64_t *columns) {
    size_t shift = (64 - half % 64) % 64;
    uint64_t block[64];
    for (size_t i = 0; i < rows; i += 64) {
        for (size_t c = 0; c < w; c++) turn_block(columns + 64 * c, from, rows, w, i, c);
        for (size_t c = 0; c < v; c++) {
            for (size_t x = 0; x < 64; x++) {
                size_t j = 64 * c + x;
                block[x] = j >= n ? 0 : columns[order[j] < half ? order[j] : order[j] + shift];
            }
            turn(block);
            for (size_t x = 0; x < 64 && i + x < rows; x++) to[(i + x) * v + c] = block[x];
        }
    }
}
