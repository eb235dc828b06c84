/* The build of a key in plain C by blocks of pivots: ranks, the secret matrix with its columns in the starting order,
   the column rule, the columns cleared above, and the rows of R by turned blocks. Its input is taken to be right. */

/* the rank of r rows: of their first r + 64 columns if those have it, else of all */
static size_t fast_rank(const uint64_t *ho, const uint64_t *ht, size_t r, size_t w, size_t n, uint64_t *o,
                        uint64_t *t) {
    size_t first = r + 64 < n ? r + 64 : n, v = (first + 63) / 64;
    for (size_t i = 0; i < r; i++) {
        memcpy(o + i * v, ho + i * w, 8 * v);
        memcpy(t + i * v, ht + i * w, 8 * v);
    }
    size_t count = lower((grid){o, t, r, v}, first);
    if (count == r || first == n) return count;
    memcpy(o, ho, 8 * r * w);
    memcpy(t, ht, 8 * r * w);
    return lower((grid){o, t, r, w}, n);
}

/* in all rows of one plane, the tables' too */
static void exchange_columns(uint64_t *plane, size_t rows, size_t w, size_t a, size_t b) {
    for (size_t i = 0; i < rows; i++) {
        uint64_t *u = plane + i * w + a / 64, *v = plane + i * w + b / 64;
        uint64_t x = (*u >> a % 64 ^ *v >> b % 64) & 1;
        *u ^= x << a % 64;
        *v ^= x << b % 64;
    }
}

/* a column without pivot changes places with the last that is untried, in the order too */
static void lower_arranged(grid m, uint16_t *p, size_t n) {
    for (size_t at = 0, last = n, k; at < m.rows; at += k) {
        size_t f = at / 64;
        for (k = 0; k < BLOCK && at + k < m.rows;) {
            if (next_pivot(m, f, at, k, at + k)) k++;
            else {
                uint16_t x = p[at + k];
                p[at + k] = p[--last];
                p[last] = x;
                exchange_columns(m.ones, m.rows + TABLES, m.w, at + k, last);
                exchange_columns(m.twos, m.rows + TABLES, m.w, at + k, last);
            }
        }
        finish_block(m, f, at, k, at + k, m.rows);
    }
}

/* each pivot's column is cleared above, from the last on; only the words of the columns after the pivots are kept up */
static void raise_rows(grid m) {
    size_t f = m.rows / 64;
    for (size_t e = m.rows, b; e > 0; e = b) {
        b = e < BLOCK ? 0 : e - BLOCK;
        for (size_t i = e; i-- > b;) {
            for (size_t j = i + 1; j < e; j++) clear_row(m, f, j, basis(m, j - b), i);
            copy_row(m, f, basis(m, i - b), i);
        }
        finish_block(m, f, b, e - b, 0, b);
    }
}

/* one plane of R: its row i is the column rows + i */
static void write_key(uint64_t *key, const uint64_t *plane, size_t rows, size_t w, size_t n) {
    size_t kw = (rows + 63) / 64;
    uint64_t block[64];
    for (size_t g = 0; g < kw; g++)
        for (size_t c = rows / 64; 64 * c < n; c++) {
            turn_block(block, plane, rows, w, 64 * g, c);
            for (size_t x = 0; x < 64; x++)
                if (64 * c + x >= rows && 64 * c + x < n) key[(64 * c + x - rows) * kw + g] = block[x];
        }
}

static uint64_t fast_build(wave_sizes z, const uint64_t *hu1, size_t, const uint64_t *hu2, size_t,
                           const uint64_t *hv1, size_t, const uint64_t *hv2, size_t, const uint64_t *b1, size_t,
                           const uint64_t *b2, size_t, const uint64_t *c1, size_t, const uint64_t *c2, size_t,
                           const uint16_t *start, size_t, uint16_t *p, size_t, uint64_t *key1, size_t,
                           uint64_t *key2, size_t, uint64_t *o, size_t, uint64_t *t, size_t) {
    size_t half = z.n / 2, hw = (half + 63) / 64, w = 2 * hw, ru = half - z.ku, rv = half - z.kv, rows = ru + rv;
    uint64_t answer = 0;
    if (fast_rank(hu1, hu2, ru, hw, half, o, t) != ru) answer = 9;
    else if (fast_rank(hv1, hv2, rv, hw, half, o, t) != rv) answer = 10;
    else {
        fill_secret(o, t, ru, rows, hw, hu1, hu2, hv1, hv2, b1, b2, c1, c2);
        gather(o, w, o, w, rows, start, z.n, half, o + rows * w);
        gather(t, w, t, w, rows, start, z.n, half, t + rows * w);
        memcpy(p, start, 2 * z.n);
        lower_arranged((grid){o, t, rows, w}, p, z.n);
        raise_rows((grid){o, t, rows, w});
        write_key(key1, o, rows, w, z.n);
        write_key(key2, t, rows, w, z.n);
    }
    memset(o, 0, 8 * wave_build_work(z));
    memset(t, 0, 8 * wave_build_work(z));
    return answer;
}
