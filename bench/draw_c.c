/* One draw in plain C: x from y, the word of V, the word of U, the halves, the weight, the release. Its input is taken to be right, but for the ranks and the weight. */

/* the weight of the word that the last draw made */
static size_t made;

static int dot(const uint64_t *ao, const uint64_t *at2, const uint64_t *bo, const uint64_t *bt, size_t w) {
    uint64_t ones = 0, twos = 0;
    for (size_t k = 0; k < w; k++) {
        ones += __builtin_popcountll((ao[k] & bo[k]) | (at2[k] & bt[k]));
        twos += __builtin_popcountll((ao[k] & bt[k]) | (at2[k] & bo[k]));
    }
    return (ones + 2 * twos) % 3;
}

/* the matrix is copied to the front, and the first places of the order are tried there */
static size_t reduce(uint64_t *o, uint64_t *t, const uint64_t *ho, const uint64_t *ht, size_t r, size_t w, const uint16_t *order, size_t first) {
    size_t count = 0;
    memcpy(o, ho, 8 * r * w);
    memcpy(t, ht, 8 * r * w);
    for (size_t i = 0; i < first; i++) count += step(o, t, r, w, order[i], count);
    return count;
}

/* z becomes z - e; then the pivots take their values, from the last row on: row c times z, which z loses there */
static void solve(uint64_t *o, uint64_t *t, size_t r, size_t w, const uint16_t *order, size_t first, uint64_t *zo, uint64_t *zt, uint64_t *eo, uint64_t *et) {
    add(zo, zt, et, eo, w);
    for (size_t c = r; c-- > 0;) {
        size_t i = c;
        while (i < first && !at(o, t, 64 * c * w + order[i])) i++;
        int x = dot(o + c * w, t + c * w, zo, zt, w);
        put(eo, et, order[i], x);
        put(zo, zt, order[i], (at(zo, zt, order[i]) + 2 * x) % 3);
    }
}

/* x_U and x_V from y: two rows that follow each other, and another row for products */
static void split(size_t m, size_t half, size_t w, const uint16_t *p, const uint64_t *y1, const uint64_t *y2,
                  const uint64_t *b1, const uint64_t *b2, const uint64_t *c1, const uint64_t *c2,
                  uint64_t *lo, uint64_t *lt, uint64_t *to, uint64_t *tt) {
    uint64_t *ro = lo + w, *rt = lt + w;
    for (size_t i = 0; i < m; i++) {
        size_t q = p[i];
        if (q < half) put(lo, lt, q, at(y1, y2, i));
        else put(ro, rt, q - half, at(y1, y2, i));
    }
    memcpy(to, lo, 8 * w), memcpy(tt, lt, 8 * w);
    mul(to, tt, c1, c2, w);
    add(ro, rt, tt, to, w);
    memcpy(to, ro, 8 * w), memcpy(tt, rt, 8 * w);
    mul(to, tt, b1, b2, w);
    add(lo, lt, tt, to, w);
}

/* the last part of the word of U: bound by that of V where that is not 0, else supplied */
static void supply_last(size_t r, size_t first, size_t half, const uint16_t *order, const uint64_t *u1,
                        const uint64_t *u2, const uint64_t *b1, const uint64_t *b2, const uint64_t *c1,
                        const uint64_t *c2, const uint64_t *Vo, const uint64_t *Vt, uint64_t *Uo, uint64_t *Ut) {
    for (size_t i = first; i < half; i++) {
        size_t q = order[i];
        int v = at(Vo, Vt, q);
        put(Uo, Ut, q, v ? (at(c1, c2, q) + 2 * at(b1, b2, q)) * v % 3 : at(u1, u2, i - r));
    }
}

/* the halves of the word, in place of those of U and V: its weight */
static size_t join(size_t w, const uint64_t *b1, const uint64_t *b2, const uint64_t *c1, const uint64_t *c2,
                   uint64_t *Vo, uint64_t *Vt, uint64_t *Uo, uint64_t *Ut, uint64_t *to, uint64_t *tt) {
    memcpy(to, Vo, 8 * w), memcpy(tt, Vt, 8 * w);
    mul(to, tt, b1, b2, w);
    add(Uo, Ut, to, tt, w);
    memcpy(to, Uo, 8 * w), memcpy(tt, Ut, 8 * w);
    mul(to, tt, c1, c2, w);
    add(Vo, Vt, to, tt, w);
    made = weight(Uo, Ut, w) + weight(Vo, Vt, w);
    return made;
}

static uint64_t make(wave_sizes z, const uint64_t *hu1, const uint64_t *hu2, const uint64_t *hv1, const uint64_t *hv2, const uint64_t *b1, const uint64_t *b2,
                     const uint64_t *c1, const uint64_t *c2, const uint16_t *p, const uint64_t *y1, const uint64_t *y2, const uint16_t *vo, const uint64_t *v1,
                     const uint64_t *v2, const uint16_t *uo, const uint64_t *u1, const uint64_t *u2, uint64_t *o, uint64_t *t, size_t m) {
    size_t half = z.n / 2, w = (half + 63) / 64, ru = half - z.ku, rv = half - z.kv;
    uint64_t *lo = o + m * w, *lt = t + m * w, *ro = lo + w, *rt = lt + w, *to = ro + w, *tt = rt + w, *Vo = to + w, *Vt = tt + w, *Uo = Vo + w, *Ut = Vt + w;
    split(ru + rv, half, w, p, y1, y2, b1, b2, c1, c2, lo, lt, to, tt);

    if (reduce(o, t, hv1, hv2, rv, w, vo, rv + z.gv) != rv) return 12;
    for (size_t i = 0, c = 0; i < half; i++) {
        if (c < rv && at(o, t, 64 * c * w + vo[i])) c++;
        else put(Vo, Vt, vo[i], at(v1, v2, i - c));
    }
    solve(o, t, rv, w, vo, rv + z.gv, ro, rt, Vo, Vt);

    if (reduce(o, t, hu1, hu2, ru, w, uo, ru + z.gu) != ru) return 13;
    for (size_t i = 0, c = 0; i < ru + z.gu; i++) {
        if (c < ru && at(o, t, 64 * c * w + uo[i])) c++;
        else put(Uo, Ut, uo[i], at(u1, u2, i - c));
    }
    supply_last(ru, ru + z.gu, half, uo, u1, u2, b1, b2, c1, c2, Vo, Vt, Uo, Ut);
    solve(o, t, ru, w, uo, ru + z.gu, lo, lt, Uo, Ut);

    return join(w, b1, b2, c1, c2, Vo, Vt, Uo, Ut, to, tt) == z.w ? 0 : 14;
}

/* the word in public places, and its last trits */
static void release(wave_sizes z, const uint16_t *p, const uint64_t *Uo, const uint64_t *Ut, const uint64_t *Vo,
                    const uint64_t *Vt, uint64_t *word1, uint64_t *word2, uint64_t *s1, uint64_t *s2) {
    size_t half = z.n / 2, k = z.ku + z.kv;
    memset(word1, 0, 8 * ((z.n + 63) / 64)), memset(word2, 0, 8 * ((z.n + 63) / 64));
    memset(s1, 0, 8 * ((k + 63) / 64)), memset(s2, 0, 8 * ((k + 63) / 64));
    for (size_t i = 0; i < z.n; i++) {
        size_t q = p[i];
        int x = q < half ? at(Uo, Ut, q) : at(Vo, Vt, q - half);
        put(word1, word2, i, x);
        if (i >= z.n - k) put(s1, s2, i - (z.n - k), x);
    }
}

static uint64_t c_draw(wave_sizes z, const uint64_t *hu1, size_t, const uint64_t *hu2, size_t, const uint64_t *hv1, size_t, const uint64_t *hv2, size_t,
                       const uint64_t *b1, size_t, const uint64_t *b2, size_t, const uint64_t *c1, size_t, const uint64_t *c2, size_t,
                       const uint16_t *p, size_t, const uint64_t *y1, size_t, const uint64_t *y2, size_t, const uint16_t *vo, size_t, const uint64_t *v1, size_t, const uint64_t *v2, size_t,
                       const uint16_t *uo, size_t, const uint64_t *u1, size_t, const uint64_t *u2, size_t, uint64_t *word1, size_t, uint64_t *word2, size_t,
                       uint64_t *s1, size_t, uint64_t *s2, size_t, uint64_t *o, size_t, uint64_t *t, size_t) {
    size_t half = z.n / 2, w = (half + 63) / 64, ru = half - z.ku, rv = half - z.kv, m = ru < rv ? rv : ru, all = 8 * wave_draw_work(z);
    uint64_t *Vo = o + (m + 3) * w, *Vt = t + (m + 3) * w, *Uo = Vo + w, *Ut = Vt + w;
    memset(o, 0, all), memset(t, 0, all);
    uint64_t answer = make(z, hu1, hu2, hv1, hv2, b1, b2, c1, c2, p, y1, y2, vo, v1, v2, uo, u1, u2, o, t, m);
    if (!answer) release(z, p, Uo, Ut, Vo, Vt, word1, word2, s1, s2);
    memset(o, 0, all), memset(t, 0, all);
    return answer;
}
