/* One draw in plain C by blocks of pivots: a half is solved on the columns of its first part, with one column more for
   what the last part makes. Its input is taken to be right, but for the ranks and the weight. */

/* the product of two rows; the sums are made trit by trit, and counted at the end */
static inline int product(const uint64_t *ao, const uint64_t *at2, const uint64_t *bo, const uint64_t *bt, size_t w) {
    uint64_t ones = 0, twos = 0;
    for (size_t k = 0; k < w; k++) {
        uint64_t c = (ao[k] & bo[k]) | (at2[k] & bt[k]), d = (ao[k] & bt[k]) | (at2[k] & bo[k]);
        uint64_t x = (ones | d) ^ (twos | c), y = ones | c;
        ones = (twos | d) ^ x;
        twos = y ^ x;
    }
    return (__builtin_popcountll(ones) + 2 * __builtin_popcountll(twos)) % 3;
}

/* e has its trits at the last part of the order; its others are supplied (s), but at the pivots, which are solved for
   H e = H x. The matrix has the columns of the first part in their order, and where there is a last part one more, the
   sum of its columns as often as x - e says; u is x - e by position, and 1 at that column. */
static int solve_first(const uint64_t *ho, const uint64_t *ht, size_t r, size_t w, size_t half, const uint16_t *order,
                       size_t first, const uint64_t *so, const uint64_t *st, const uint64_t *xo, const uint64_t *xt,
                       uint64_t *eo, uint64_t *et, uint64_t *uo, uint64_t *ut, uint64_t *o, uint64_t *t) {
    size_t v = first < half ? first / 64 + 1 : w;
    grid m = {o, t, r, v};
    gather(o, v, ho, w, r, order, first, half, o + r * v);
    gather(t, v, ht, w, r, order, first, half, t + r * v);
    memset(uo, 0, 8 * w), memset(ut, 0, 8 * w);
    if (first < half) {
        for (size_t i = first; i < half; i++) {
            size_t q = order[i];
            put(uo, ut, q, (at(xo, xt, q) + 2 * at(eo, et, q)) % 3);
        }
        for (size_t i = 0; i < r; i++) put(o, t, 64 * i * v + first, product(ho + i * w, ht + i * w, uo, ut, w));
        memset(uo, 0, 8 * w), memset(ut, 0, 8 * w);
        put(uo, ut, first, 1);
    }
    if (lower(m, first) != r) return 0;
    for (size_t i = 0, c = 0; i < first; i++) {
        if (c < r && trit(m, c, i)) c++;
        else {
            int y = at(so, st, i - c);
            put(eo, et, order[i], y);
            put(uo, ut, i, (at(xo, xt, order[i]) + 2 * y) % 3);
        }
    }
    for (size_t c = r; c-- > 0;) {
        size_t i = c, f = c / 64;
        while (!trit(m, c, i)) i++;
        int y = 2 * product(o + c * v + f, t + c * v + f, uo + f, ut + f, v - f) % 3;
        put(uo, ut, i, y);
        put(eo, et, order[i], (at(xo, xt, order[i]) + 2 * y) % 3);
    }
    return 1;
}

static uint64_t fast_make(wave_sizes z, const uint64_t *hu1, const uint64_t *hu2, const uint64_t *hv1,
                          const uint64_t *hv2, const uint64_t *b1, const uint64_t *b2, const uint64_t *c1,
                          const uint64_t *c2, const uint16_t *p, const uint64_t *y1, const uint64_t *y2,
                          const uint16_t *vo, const uint64_t *v1, const uint64_t *v2, const uint16_t *uo,
                          const uint64_t *u1, const uint64_t *u2, uint64_t *o, uint64_t *t, size_t m) {
    size_t half = z.n / 2, w = (half + 63) / 64, ru = half - z.ku, rv = half - z.kv;
    uint64_t *lo = o + m * w, *ro = lo + w, *to = ro + w, *Vo = to + w, *Uo = Vo + w;
    uint64_t *lt = t + m * w, *rt = lt + w, *tt = rt + w, *Vt = tt + w, *Ut = Vt + w;
    split(ru + rv, half, w, p, y1, y2, b1, b2, c1, c2, lo, lt, to, tt);

    for (size_t i = rv + z.gv; i < half; i++) put(Vo, Vt, vo[i], at(v1, v2, i - rv));
    if (!solve_first(hv1, hv2, rv, w, half, vo, rv + z.gv, v1, v2, ro, rt, Vo, Vt, to, tt, o, t)) return 12;

    supply_last(ru, ru + z.gu, half, uo, u1, u2, b1, b2, c1, c2, Vo, Vt, Uo, Ut);
    if (!solve_first(hu1, hu2, ru, w, half, uo, ru + z.gu, u1, u2, lo, lt, Uo, Ut, to, tt, o, t)) return 13;

    return join(w, b1, b2, c1, c2, Vo, Vt, Uo, Ut, to, tt) == z.w ? 0 : 14;
}

static uint64_t fast_draw(wave_sizes z, const uint64_t *hu1, size_t, const uint64_t *hu2, size_t,
                          const uint64_t *hv1, size_t, const uint64_t *hv2, size_t, const uint64_t *b1, size_t,
                          const uint64_t *b2, size_t, const uint64_t *c1, size_t, const uint64_t *c2, size_t,
                          const uint16_t *p, size_t, const uint64_t *y1, size_t, const uint64_t *y2, size_t,
                          const uint16_t *vo, size_t, const uint64_t *v1, size_t, const uint64_t *v2, size_t,
                          const uint16_t *uo, size_t, const uint64_t *u1, size_t, const uint64_t *u2, size_t,
                          uint64_t *word1, size_t, uint64_t *word2, size_t, uint64_t *s1, size_t, uint64_t *s2, size_t,
                          uint64_t *o, size_t, uint64_t *t, size_t) {
    size_t half = z.n / 2, w = (half + 63) / 64, ru = half - z.ku, rv = half - z.kv, m = (ru < rv ? rv : ru) + TABLES;
    size_t all = 8 * wave_draw_work(z);
    uint64_t *Vo = o + (m + 3) * w, *Vt = t + (m + 3) * w, *Uo = Vo + w, *Ut = Vt + w;
    memset(o, 0, all), memset(t, 0, all);
    uint64_t answer = fast_make(z, hu1, hu2, hv1, hv2, b1, b2, c1, c2, p, y1, y2, vo, v1, v2, uo, u1, u2, o, t, m);
    if (!answer) release(z, p, Uo, Ut, Vo, Vt, word1, word2, s1, s2);
    memset(o, 0, all), memset(t, 0, all);
    return answer;
}
