/* The syndrome of a text and the checks in plain C, with the same tests in the same order. */

/* room for any row, from the start of a line of the cache on */
typedef struct { _Alignas(64) uint64_t ones[WAVE_WORDS(16384)], twos[WAVE_WORDS(16384)]; } row;

/* ---- the syndrome */

/* the packed row of m trits that a text with its salt gives, its last byte perhaps with trits past m: 0, or 6 */
static uint64_t syndrome_bytes(size_t m, const uint8_t *salt, const uint8_t *text, size_t n, uint8_t *bytes) {
    sponge s = {{0}, {0}, 0};
    size_t most = WAVE_BYTES(m), count = 0;
    absorb(&s, salt, WAVE_SALT_BYTES);
    absorb(&s, text, n);
    pad(&s);
    for (size_t left = m + 136; count < most && left > 0;) {
        size_t size = left < RATE ? left : RATE;
        count = keep((const uint8_t *)s.lanes, size, bytes, count, most);
        left -= size;
        if (count < most) permute(s.lanes);
    }
    return count < most ? 6 : 0;
}

static uint64_t c_syndrome(size_t m, const uint8_t *salt, size_t salt_n, const uint8_t *text, size_t text_n,
                           uint64_t *ones, size_t on, uint64_t *twos, size_t tn) {
    uint8_t bytes[WAVE_BYTES(16384)];
    if (m > 16384) return 1;
    if (salt_n != WAVE_SALT_BYTES || on != WAVE_WORDS(m) || tn != WAVE_WORDS(m)) return 2;
    if (syndrome_bytes(m, salt, text, text_n, bytes)) return 6;
    need_tables();
    unpack(m, bytes, ones, twos);
    return 0;
}

/* ---- the full word */

/* a row is added, and its bits in both planes are the answer; not inlined, so that gcc sees that no rows overlap */
static __attribute__((noinline)) uint64_t add_tested(uint64_t *restrict o, uint64_t *restrict t,
                                                     const uint64_t *restrict so, const uint64_t *restrict st,
                                                     size_t w) {
    uint64_t both = 0;
    BY_FOUR for (size_t k = 0; k < w; k++) {
        uint64_t a = o[k], b = t[k], c = so[k], d = st[k], x = (a | d) ^ (b | c);
        o[k] = (b | d) ^ x;
        t[k] = (a | c) ^ x;
        both |= c & d;
    }
    return both;
}

/* s times the key is taken from y, which stands in the sums, and each row is tested in the same pass: 4, 3 or 0 */
static uint64_t take_tested(wave_held h, const uint64_t *ones, const uint64_t *twos, const uint64_t *s_ones,
                            const uint64_t *s_twos, row *sum) {
    size_t m = h.n - h.k, w = WAVE_WORDS(m);
    uint64_t both = 0, last = 0;
    for (size_t i = 0; i < h.k; i++, ones += w, twos += w) {
        int x = at(s_ones, s_twos, i);
        if (x == 0) both |= both_set(ones, twos, w);
        else if (x == 1) both |= add_tested(sum->ones, sum->twos, twos, ones, w);
        else both |= add_tested(sum->ones, sum->twos, ones, twos, w);
        last |= ones[w - 1] | twos[w - 1];
    }
    if (m % 64 && last >> m % 64) return 4;
    return both ? 3 : 0;
}

/* the same of a key that was tested */
static void take(wave_held h, const uint64_t *ones, const uint64_t *twos, const uint64_t *s_ones,
                 const uint64_t *s_twos, row *sum) {
    size_t w = WAVE_WORDS(h.n - h.k);
    for (size_t i = 0; i < h.k; i++, ones += w, twos += w) {
        int x = at(s_ones, s_twos, i);
        if (x == 1) add_row(sum->ones, sum->twos, twos, ones, w);
        if (x == 2) add_row(sum->ones, sum->twos, ones, twos, w);
    }
}

/* the ones and twos of the full word: the bits of a plane are the weight of a row that is this plane twice */
static wave_checked verdict(wave_held h, const row *sum, const uint64_t *s_ones, const uint64_t *s_twos) {
    size_t w = WAVE_WORDS(h.n - h.k), v = WAVE_WORDS(h.k);
    uint64_t ones = weight(sum->ones, sum->ones, w) + weight(s_ones, s_ones, v);
    uint64_t twos = weight(sum->twos, sum->twos, w) + weight(s_twos, s_twos, v);
    return (wave_checked){0, ones + twos == h.w, ones, twos};
}

/* ---- the checks */

static wave_checked refused(uint64_t r) {
    return (wave_checked){r, 0, 0, 0};
}

static uint64_t call_refusal(wave_held h, uint64_t number, size_t ones, size_t twos, size_t work_ones,
                             size_t work_twos) {
    if (h.begun == 0) return 20;
    if (h.begun != 1 || h.number > 4294967295 || h.n < 4 || h.n > 16384 || h.n % 2) return 1;
    if (h.k < 2 || h.k > h.n - 2 || h.w < 1 || h.w > h.n || h.rows > h.k) return 1;
    if (h.rows != h.k) return 20;
    if (number != h.number) return 22;
    size_t w = WAVE_WORDS(h.n - h.k);
    return ones != h.k * w || twos != h.k * w || work_ones != w || work_twos != w ? 2 : 0;
}

static void clear(wave_held h, uint64_t *work_ones, uint64_t *work_twos) {
    memset(work_ones, 0, 8 * WAVE_WORDS(h.n - h.k));
    memset(work_twos, 0, 8 * WAVE_WORDS(h.n - h.k));
}

/* the refusal r of y or s, unless the key has one, which comes first */
static uint64_t after_key(wave_held h, const uint64_t *ones, const uint64_t *twos, uint64_t r) {
    uint64_t of_key = planes_refusal(ones, twos, h.k, h.n - h.k);
    return of_key ? of_key : r;
}

/* the check in one pass over the key, with y in the sums; a refusal leaves the working space as it was */
static wave_checked one_pass(wave_held h, const uint64_t *ones, const uint64_t *twos, const uint64_t *s_ones,
                             const uint64_t *s_twos, row *sum, uint64_t *work_ones, uint64_t *work_twos) {
    uint64_t r = take_tested(h, ones, twos, s_ones, s_twos, sum);
    if (r) return refused(r);
    clear(h, work_ones, work_twos);
    return verdict(h, sum, s_ones, s_twos);
}

static wave_checked c_check(wave_held h, uint64_t number, const uint64_t *ones, size_t on, const uint64_t *twos,
                            size_t tn, const uint64_t *y_ones, size_t yon, const uint64_t *y_twos, size_t ytn,
                            const uint64_t *s_ones, size_t son, const uint64_t *s_twos, size_t stn,
                            uint64_t *work_ones, size_t won, uint64_t *work_twos, size_t wtn) {
    row sum;
    uint64_t r = call_refusal(h, number, on, tn, won, wtn);
    size_t m = h.n - h.k, w = WAVE_WORDS(m), v = WAVE_WORDS(h.k);
    if (r) return refused(r);
    if (yon != w || ytn != w || son != v || stn != v) return refused(2);
    r = planes_refusal(y_ones, y_twos, 1, m);
    if (!r) r = planes_refusal(s_ones, s_twos, 1, h.k);
    if (r) return refused(after_key(h, ones, twos, r));
    memcpy(sum.ones, y_ones, 8 * w);
    memcpy(sum.twos, y_twos, 8 * w);
    return one_pass(h, ones, twos, s_ones, s_twos, &sum, work_ones, work_twos);
}

static wave_checked c_check_packed(wave_held h, uint64_t number, const uint64_t *ones, size_t on, const uint64_t *twos,
                                   size_t tn, const uint8_t *y, size_t yn, const uint8_t *s, size_t sn,
                                   uint64_t *work_ones, size_t won, uint64_t *work_twos, size_t wtn) {
    row sum, signature;
    uint64_t r = call_refusal(h, number, on, tn, won, wtn);
    size_t m = h.n - h.k;
    if (r) return refused(r);
    if (yn != WAVE_BYTES(m) || sn != WAVE_BYTES(h.k)) return refused(2);
    r = bytes_refusal(m, y, yn);
    if (!r) r = bytes_refusal(h.k, s, sn);
    if (r) return refused(after_key(h, ones, twos, r));
    need_tables();
    unpack(m, y, sum.ones, sum.twos);
    unpack(h.k, s, signature.ones, signature.twos);
    return one_pass(h, ones, twos, signature.ones, signature.twos, &sum, work_ones, work_twos);
}

static wave_checked c_check_text(wave_held h, uint64_t number, const uint64_t *ones, size_t on, const uint64_t *twos,
                                 size_t tn, const uint8_t *salt, size_t salt_n, const uint8_t *text, size_t text_n,
                                 const uint8_t *s, size_t sn, uint64_t *work_ones, size_t won, uint64_t *work_twos,
                                 size_t wtn) {
    uint8_t y[WAVE_BYTES(16384)];
    row sum, signature;
    uint64_t r = call_refusal(h, number, on, tn, won, wtn);
    size_t m = h.n - h.k;
    if (r) return refused(r);
    if (salt_n != WAVE_SALT_BYTES || sn != WAVE_BYTES(h.k)) return refused(2);
    r = bytes_refusal(h.k, s, sn);
    if (!r) r = syndrome_bytes(m, salt, text, text_n, y);
    if (r) {
        r = after_key(h, ones, twos, r);
        if (r == 6) clear(h, work_ones, work_twos);
        return refused(r);
    }
    need_tables();
    unpack(m, y, sum.ones, sum.twos);
    unpack(h.k, s, signature.ones, signature.twos);
    return one_pass(h, ones, twos, signature.ones, signature.twos, &sum, work_ones, work_twos);
}

/* ---- the full word alone: all tests once, and the ones and twos so many times */

static wave_checked c_weigh(wave_held h, uint64_t number, const uint64_t *ones, size_t on, const uint64_t *twos,
                            size_t tn, const uint64_t *y_ones, size_t yon, const uint64_t *y_twos, size_t ytn,
                            const uint64_t *s_ones, size_t son, const uint64_t *s_twos, size_t stn,
                            uint64_t *work_ones, size_t won, uint64_t *work_twos, size_t wtn, size_t times) {
    row sum;
    uint64_t r = call_refusal(h, number, on, tn, won, wtn);
    size_t m = h.n - h.k, w = WAVE_WORDS(m), v = WAVE_WORDS(h.k);
    wave_checked c = {0, 0, 0, 0};
    if (!r && (yon != w || ytn != w || son != v || stn != v)) r = 2;
    if (!r) r = planes_refusal(ones, twos, h.k, m);
    if (!r) r = planes_refusal(y_ones, y_twos, 1, m);
    if (!r) r = planes_refusal(s_ones, s_twos, 1, h.k);
    if (r) return refused(r);
    for (size_t i = 0; i < times; i++) {
        memcpy(sum.ones, y_ones, 8 * w);
        memcpy(sum.twos, y_twos, 8 * w);
        take(h, ones, twos, s_ones, s_twos, &sum);
        c = verdict(h, &sum, s_ones, s_twos);
    }
    clear(h, work_ones, work_twos);
    return c;
}

static wave_checked c_weigh_packed(wave_held h, uint64_t number, const uint64_t *ones, size_t on, const uint64_t *twos,
                                   size_t tn, const uint8_t *y, size_t yn, const uint8_t *s, size_t sn,
                                   uint64_t *work_ones, size_t won, uint64_t *work_twos, size_t wtn, size_t times) {
    row sum, signature;
    uint64_t r = call_refusal(h, number, on, tn, won, wtn);
    size_t m = h.n - h.k;
    wave_checked c = {0, 0, 0, 0};
    if (!r && (yn != WAVE_BYTES(m) || sn != WAVE_BYTES(h.k))) r = 2;
    if (!r) r = planes_refusal(ones, twos, h.k, m);
    if (!r) r = bytes_refusal(m, y, yn);
    if (!r) r = bytes_refusal(h.k, s, sn);
    if (r) return refused(r);
    need_tables();
    for (size_t i = 0; i < times; i++) {
        unpack(m, y, sum.ones, sum.twos);
        unpack(h.k, s, signature.ones, signature.twos);
        take(h, ones, twos, signature.ones, signature.twos, &sum);
        c = verdict(h, &sum, signature.ones, signature.twos);
    }
    clear(h, work_ones, work_twos);
    return c;
}
