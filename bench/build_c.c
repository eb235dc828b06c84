/* The build of a key in plain C: ranks, the secret matrix, the column rule with the columns cleared below, then above, and the rows of R. Its input is taken to be right. */

static size_t rank(const uint64_t *o, const uint64_t *t, size_t rows, size_t w, size_t n, uint64_t *wo, uint64_t *wt) {
    size_t count = 0;
    memcpy(wo, o, 8 * rows * w);
    memcpy(wt, t, 8 * rows * w);
    for (size_t c = 0; c < n; c++) count += step(wo, wt, rows, w, c, count);
    return count;
}

/* the secret matrix, rows of two halves of hw words, from the rows of H_U and H_V */
static void fill_secret(uint64_t *o, uint64_t *t, size_t ru, size_t rows, size_t hw, const uint64_t *hu_ones,
                        const uint64_t *hu_twos, const uint64_t *hv_ones, const uint64_t *hv_twos,
                        const uint64_t *b_ones, const uint64_t *b_twos, const uint64_t *c_ones, const uint64_t *c_twos) {
    for (size_t i = 0; i < rows; i++) {
        uint64_t *lo = o + 2 * i * hw, *lt = t + 2 * i * hw, *ro = lo + hw, *rt = lt + hw;
        const uint64_t *ho = i < ru ? hu_ones + i * hw : hv_ones + (i - ru) * hw, *ht = i < ru ? hu_twos + i * hw : hv_twos + (i - ru) * hw;
        memcpy(lo, ho, 8 * hw);
        memcpy(lt, ht, 8 * hw);
        memcpy(ro, ho, 8 * hw);
        memcpy(rt, ht, 8 * hw);
        if (i < ru) {
            mul(lo, lt, b_ones, b_twos, hw);
            mul(lo, lt, c_ones, c_twos, hw);
            add(lo, lt, ho, ht, hw);
            mul(ro, rt, b_ones, b_twos, hw);
            swap_words(ro, rt, hw);
        } else {
            mul(lo, lt, c_ones, c_twos, hw);
            swap_words(lo, lt, hw);
        }
    }
}

static uint64_t c_build(wave_sizes z, const uint64_t *hu_ones, size_t, const uint64_t *hu_twos, size_t, const uint64_t *hv_ones, size_t, const uint64_t *hv_twos, size_t,
                        const uint64_t *b_ones, size_t, const uint64_t *b_twos, size_t, const uint64_t *c_ones, size_t, const uint64_t *c_twos, size_t,
                        const uint16_t *start, size_t, uint16_t *p, size_t, uint64_t *key_ones, size_t, uint64_t *key_twos, size_t,
                        uint64_t *work_ones, size_t, uint64_t *work_twos, size_t) {
    size_t half = z.n / 2, hw = (half + 63) / 64, w = 2 * hw, ru = half - z.ku, rv = half - z.kv, rows = ru + rv, k = z.ku + z.kv, kw = (rows + 63) / 64;
    uint64_t answer = 0;
    if (rank(hu_ones, hu_twos, ru, hw, half, work_ones, work_twos) != ru) answer = 9;
    else if (rank(hv_ones, hv_twos, rv, hw, half, work_ones, work_twos) != rv) answer = 10;
    else {
        fill_secret(work_ones, work_twos, ru, rows, hw, hu_ones, hu_twos, hv_ones, hv_twos, b_ones, b_twos, c_ones, c_twos);
        memcpy(p, start, 2 * z.n);
        for (size_t j = 0, left = z.n; j < rows;) {
            size_t q = p[j], c = q < half ? q : 64 * hw + q - half;
            left--;
            if (step(work_ones, work_twos, rows, w, c, j)) j++;
            else {
                uint16_t x = p[j];
                p[j] = p[j + left];
                p[j + left] = x;
            }
        }
        for (size_t j = rows; j-- > 0;) {
            size_t q = p[j], c = q < half ? q : 64 * hw + q - half;
            clear_rows(work_ones, work_twos, w, c, j, 0, j);
        }
        for (size_t i = 0; i < k; i++) {
            size_t q = p[rows + i], c = q < half ? q : 64 * hw + q - half;
            for (size_t g = 0; g < kw; g++) {
                uint64_t ones = 0, twos = 0;
                for (size_t b = 0, r = 64 * g; b < 64 && r < rows; b++, r++) {
                    ones |= (work_ones[r * w + c / 64] >> c % 64 & 1) << b;
                    twos |= (work_twos[r * w + c / 64] >> c % 64 & 1) << b;
                }
                key_ones[i * kw + g] = ones;
                key_twos[i * kw + g] = twos;
            }
        }
    }
    memset(work_ones, 0, 8 * rows * w);
    memset(work_twos, 0, 8 * rows * w);
    return answer;
}
