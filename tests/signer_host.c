/* A host of the editor's half: it builds keys and draws through the header. Expected values are the paper's worked examples, and the numbers of its refusals.
 * Every buffer stands between guard words, which are looked at after each call. */
#include "lent.h"
#include "wave_signer.h"

/* ---- the buffers of both calls, in the header's order */

enum { HU1, HU2, HV1, HV2, B1, B2, C1, C2, START, BP, K1, K2, BW1, BW2, BUILD };
enum { P = START, Y1, Y2, VO, V1, V2, UO, U1, U2, E1, E2, S1, S2, DW1, DW2, DRAW };

typedef struct { wave_sizes z; lent l[DRAW]; size_t count[DRAW]; } call;

static size_t row(uint64_t m) { return (size_t)(m + 63) / 64; }
static uint16_t *places(const lent *l) { return l->at; }

static uint64_t build(call *c)
{
    lent *l = c->l;
    size_t *m = c->count;
    uint64_t got = wave_build(c->z, words(l + HU1), m[HU1], words(l + HU2), m[HU2], words(l + HV1), m[HV1], words(l + HV2), m[HV2], words(l + B1), m[B1],
                              words(l + B2), m[B2], words(l + C1), m[C1], words(l + C2), m[C2], places(l + START), m[START], places(l + BP), m[BP],
                              words(l + K1), m[K1], words(l + K2), m[K2], words(l + BW1), m[BW1], words(l + BW2), m[BW2]);
    EXPECT(all_guarded());
    return got;
}

static uint64_t draw(call *c)
{
    lent *l = c->l;
    size_t *m = c->count;
    uint64_t got = wave_draw(c->z, words(l + HU1), m[HU1], words(l + HU2), m[HU2], words(l + HV1), m[HV1], words(l + HV2), m[HV2], words(l + B1), m[B1],
                             words(l + B2), m[B2], words(l + C1), m[C1], words(l + C2), m[C2], places(l + P), m[P], words(l + Y1), m[Y1], words(l + Y2), m[Y2],
                             places(l + VO), m[VO], words(l + V1), m[V1], words(l + V2), m[V2], places(l + UO), m[UO], words(l + U1), m[U1],
                             words(l + U2), m[U2], words(l + E1), m[E1], words(l + E2), m[E2], words(l + S1), m[S1], words(l + S2), m[S2],
                             words(l + DW1), m[DW1], words(l + DW2), m[DW2]);
    EXPECT(all_guarded());
    return got;
}

/* ---- filling them */

/* digits of rows of m trits, row after row, into a pair of planes */
static void put_digits(call *c, int plane, size_t m, const char *digits)
{
    uint64_t *o = words(c->l + plane), *t = words(c->l + plane + 1);
    memset(o, 0, c->l[plane].count * 8);
    memset(t, 0, c->l[plane + 1].count * 8);
    for (size_t i = 0; digits[i]; i++) {
        size_t bit = 64 * (i / m * row(m)) + i % m;
        if (digits[i] == '1') o[bit / 64] |= (uint64_t)1 << bit % 64;
        if (digits[i] == '2') t[bit / 64] |= (uint64_t)1 << bit % 64;
    }
}

static void put_places(call *c, int order, const char *digits)
{
    for (size_t i = 0; digits[i]; i++) places(c->l + order)[i] = (uint16_t)(digits[i] - '0');
}

static void lend_two(call *c, int plane, size_t count, int fill)
{
    lend(c->l + plane, count, 8, fill);
    lend(c->l + plane + 1, count, 8, fill ^ 0x5A);
}

static void lend_secret(call *c, const char *hu, const char *hv, const char *b, const char *d)
{
    size_t half = (size_t)c->z.n / 2;
    lend_two(c, HU1, (half - (size_t)c->z.ku) * row(half), 0);
    lend_two(c, HV1, (half - (size_t)c->z.kv) * row(half), 0);
    lend_two(c, B1, row(half), 0);
    lend_two(c, C1, row(half), 0);
    put_digits(c, HU1, half, hu);
    put_digits(c, HV1, half, hv);
    put_digits(c, B1, half, b);
    put_digits(c, C1, half, d);
}

static void count_all(call *c, int last)
{
    for (int i = 0; i < last; i++) c->count[i] = c->l[i].count;
}

static void open_build(call *c, wave_sizes z, const char *hu, const char *hv, const char *b, const char *d, const char *start)
{
    size_t k = (size_t)(z.ku + z.kv);
    c->z = z;
    lend_secret(c, hu, hv, b, d);
    lend(c->l + START, (size_t)z.n, 2, 0);
    put_places(c, START, start);
    lend(c->l + BP, (size_t)z.n, 2, 0x11);
    lend_two(c, K1, k * row(z.n - k), 0x22);
    lend_two(c, BW1, wave_build_work(z), 0x33);
    count_all(c, BUILD);
}

static void open_draw(call *c, wave_sizes z, const char *hu, const char *hv, const char *b, const char *d, const char *p, const char *y, const char *vo, const char *v, const char *uo, const char *u)
{
    size_t half = (size_t)z.n / 2, k = (size_t)(z.ku + z.kv);
    c->z = z;
    lend_secret(c, hu, hv, b, d);
    lend(c->l + P, (size_t)z.n, 2, 0);
    put_places(c, P, p);
    lend_two(c, Y1, row(z.n - k), 0);
    put_digits(c, Y1, (size_t)z.n - k, y);
    lend(c->l + VO, half, 2, 0);
    put_places(c, VO, vo);
    lend_two(c, V1, row(z.kv), 0);
    put_digits(c, V1, (size_t)z.kv, v);
    lend(c->l + UO, half, 2, 0);
    put_places(c, UO, uo);
    lend_two(c, U1, row(z.ku), 0);
    put_digits(c, U1, (size_t)z.ku, u);
    lend_two(c, E1, row(z.n), 0x22);
    lend_two(c, S1, row(k), 0x44);
    lend_two(c, DW1, wave_draw_work(z), 0x33);
    count_all(c, DRAW);
}

/* ---- what a call must leave */

/* refused: every buffer stays, but for a working space that is zero after 9 and above */
static void refused(call *c, uint64_t (*run)(call *), int work, uint64_t number)
{
    memset(words(c->l + work), 0x33, c->l[work].count * 8);
    memset(words(c->l + work + 1), 0x69, c->l[work + 1].count * 8);
    note_all();
    EXPECT(run(c) == number);
    for (int i = 0; i < work; i++) EXPECT(same(c->l + i));
    for (int i = work; i < work + 2; i++) EXPECT(number < 9 ? same(c->l + i) : all_zero(c->l + i));
}

/* not refused: what is only read stays, and the working space is zero */
static void answered(call *c, uint64_t (*run)(call *), int out, int work)
{
    memset(words(c->l + work), 0x33, c->l[work].count * 8);
    memset(words(c->l + work + 1), 0x69, c->l[work + 1].count * 8);
    note_all();
    EXPECT(run(c) == 0);
    for (int i = 0; i < out; i++) EXPECT(same(c->l + i));
    EXPECT(all_zero(c->l + work) && all_zero(c->l + work + 1));
}

static int digits_are(const call *c, int plane, size_t m, const char *digits)
{
    uint64_t o[8] = { 0 }, t[8] = { 0 };
    for (size_t i = 0; digits[i]; i++) {
        size_t bit = 64 * (i / m * row(m)) + i % m;
        if (digits[i] == '1') o[bit / 64] |= (uint64_t)1 << bit % 64;
        if (digits[i] == '2') t[bit / 64] |= (uint64_t)1 << bit % 64;
    }
    return !memcmp(o, words(c->l + plane), c->l[plane].count * 8) && !memcmp(t, words(c->l + plane + 1), c->l[plane + 1].count * 8);
}

/* ---- the build */

static const wave_sizes four = { 4, 1, 1, 0, 0, 4 };

static void keys(void)
{
    static const struct { const char *start, *p, *rows; } paper[] = { { "0123", "0123", "0222" }, { "1203", "1302", "2220" } };
    for (size_t i = 0; i < 2; i++) {
        call c;
        open_build(&c, four, "11", "12", "01", "12", paper[i].start);
        answered(&c, build, BP, BW1);
        for (size_t j = 0; j < 4; j++) EXPECT(places(c.l + BP)[j] == paper[i].p[j] - '0');
        EXPECT(digits_are(&c, K1, 2, paper[i].rows));
        take_back_all();
    }
}

/* sizes out of their ranges, in both calls alike */
static void sizes(call *c, uint64_t (*run)(call *), int work)
{
    static const wave_sizes bad[] = {
        { 2, 1, 1, 0, 0, 1 }, { 0, 1, 1, 0, 0, 1 }, { 5, 1, 1, 0, 0, 4 }, { 16386, 1, 1, 0, 0, 4 }, { 4, 0, 1, 0, 0, 4 }, { 4, 2, 1, 0, 0, 4 },
        { 4, 1, 0, 0, 0, 4 }, { 4, 1, 2, 0, 0, 4 }, { 4, 1, 1, 2, 0, 4 }, { 4, 1, 1, 0, 2, 4 }, { 4, 1, 1, 0, 0, 0 }, { 4, 1, 1, 0, 0, 5 },
        { UINT64_MAX, 1, 1, 0, 0, 4 }, { 4, UINT64_MAX, 1, 0, 0, 4 }, { 4, 1, UINT64_MAX, 0, 0, 4 }, { 4, 1, 1, UINT64_MAX, 0, 4 },
        { 4, 1, 1, 0, UINT64_MAX, 4 }, { 4, 1, 1, 0, 0, UINT64_MAX },
        /* five numbers, as they were with one gap */
        { 4, 1, 1, 0, 4, 0 },
        /* a gap may be above the k of the other half, and not above its own */
        { 16, 2, 5, 6, 0, 1 }, { 16, 2, 5, 0, 3, 1 }, { 16, 5, 2, 3, 0, 1 }, { 16, 5, 2, 0, 6, 1 },
    };
    wave_sizes z = c->z;
    for (size_t i = 0; i < sizeof bad / sizeof bad[0]; i++) {
        c->z = bad[i];
        refused(c, run, work, 1);
    }
    /* these pass the first test, the largest sizes among them, and the lengths do not fit them */
    static const wave_sizes other[] = { { 16384, 8191, 8191, 8191, 8191, 16384 }, { 16, 2, 5, 5, 0, 1 }, { 16, 2, 5, 0, 2, 1 }, { 16, 5, 2, 2, 5, 1 } };
    for (size_t i = 0; i < sizeof other / sizeof other[0]; i++) {
        c->z = other[i];
        refused(c, run, work, 2);
    }
    c->z = z;
}

/* each length one more and one less */
static void lengths(call *c, uint64_t (*run)(call *), int last, int work)
{
    for (int i = 0; i < last; i++) {
        c->count[i]++;
        refused(c, run, work, 2);
        c->count[i] -= 2;
        refused(c, run, work, 2);
        c->count[i]++;
    }
}

/* a bit past the length, alone, in both planes, and beside a bit in both planes; then that bit alone */
static void planes(call *c, uint64_t (*run)(call *), int plane, int work)
{
    uint64_t *o = words(c->l + plane), *t = words(c->l + plane + 1), a = o[0], b = t[0];
    o[0] |= (uint64_t)1 << 63;
    refused(c, run, work, 4);
    t[0] |= (uint64_t)1 << 63;
    refused(c, run, work, 4);
    o[0] = a;
    refused(c, run, work, 4);
    o[0] |= 1;
    t[0] |= 1;
    refused(c, run, work, 4);
    o[0] = t[0] = 1;
    refused(c, run, work, 3);
    o[0] = a;
    t[0] = b;
}

static void order(call *c, uint64_t (*run)(call *), int which, int work)
{
    uint16_t *p = places(c->l + which), a = p[0];
    p[0] = p[1];
    refused(c, run, work, 7);
    p[0] = (uint16_t)c->l[which].count;
    refused(c, run, work, 7);
    p[0] = 65535;
    refused(c, run, work, 7);
    p[0] = a;
}

static void builds_refused(void)
{
    call c;
    open_build(&c, four, "11", "12", "01", "12", "0123");
    sizes(&c, build, BW1);
    lengths(&c, build, BUILD, BW1);
    for (int plane = HU1; plane <= C1; plane += 2) planes(&c, build, plane, BW1);
    order(&c, build, START, BW1);
    put_digits(&c, C1, 2, "10");
    refused(&c, build, BW1, 8);
    /* the buffers in their order: the earlier one is told */
    places(c.l + START)[0] = 1;
    refused(&c, build, BW1, 8);
    words(c.l + B1)[0] = 4;
    refused(&c, build, BW1, 4);
    words(c.l + HV1)[0] = words(c.l + HV2)[0] = 1;
    refused(&c, build, BW1, 3);
    words(c.l + HU1)[0] = 5;
    words(c.l + HU2)[0] = 1;
    refused(&c, build, BW1, 4);
    c.count[BW2]--;
    refused(&c, build, BW1, 2);
    take_back_all();
    open_build(&c, four, "00", "00", "01", "12", "0123");
    refused(&c, build, BW1, 9);
    put_digits(&c, HU1, 2, "01");
    refused(&c, build, BW1, 10);
    put_digits(&c, HV1, 2, "20");
    answered(&c, build, BP, BW1);
    take_back_all();
}

/* ---- the draw */

static void draws(void)
{
    static const struct { uint64_t w; const char *v, *u, *word; } paper[] = { { 4, "2", "1", "2111" }, { 4, "0", "2", "2221" }, { 2, "0", "1", "0102" } };
    call c;
    for (size_t i = 0; i < 3; i++) {
        open_draw(&c, (wave_sizes){ 4, 1, 1, 0, 0, paper[i].w }, "11", "12", "01", "12", "0123", "12", "01", paper[i].v, "01", paper[i].u);
        answered(&c, draw, E1, DW1);
        EXPECT(digits_are(&c, E1, 4, paper[i].word));
        EXPECT(digits_are(&c, S1, 2, paper[i].word + 2));
        take_back_all();
    }
    /* with a gap of U and none of V, or one of both, U value 0 makes 1200 at w = 2 */
    for (uint64_t gv = 0; gv < 2; gv++) {
        open_draw(&c, (wave_sizes){ 4, 1, 1, gv, 1, 2 }, "11", "12", "01", "12", "0123", "12", "01", "2", "01", "0");
        answered(&c, draw, E1, DW1);
        EXPECT(digits_are(&c, E1, 4, "1200"));
        EXPECT(digits_are(&c, S1, 2, "00"));
        take_back_all();
    }
    open_draw(&c, four, "11", "12", "01", "12", "0123", "12", "01", "1", "01", "1");
    refused(&c, draw, DW1, 14);
    take_back_all();
    /* under a p that is not its own inverse: x is 0,1,0,2 in secret places, so x_V = 0,0 and x_U = 0,1; V trit 0 makes e_V = 0,0, U value 2 makes e_U = 2,2;
       the word is 2,2,2,1 in secret places */
    open_draw(&c, four, "11", "12", "01", "12", "1302", "12", "01", "0", "01", "2");
    answered(&c, draw, E1, DW1);
    EXPECT(digits_are(&c, E1, 4, "2122"));
    EXPECT(digits_are(&c, S1, 2, "22"));
    take_back_all();
}

static void draws_refused(void)
{
    call c;
    open_draw(&c, four, "11", "12", "01", "12", "0123", "12", "01", "2", "01", "1");
    sizes(&c, draw, DW1);
    lengths(&c, draw, DRAW, DW1);
    static const int pairs[] = { HU1, HV1, B1, C1, Y1, V1, U1 }, orders[] = { P, VO, UO };
    for (size_t i = 0; i < 7; i++) planes(&c, draw, pairs[i], DW1);
    for (size_t i = 0; i < 3; i++) order(&c, draw, orders[i], DW1);
    put_digits(&c, U1, 1, "0");
    refused(&c, draw, DW1, 8);
    /* the buffers in their order: the earlier one is told */
    words(c.l + U1)[0] = 2;
    refused(&c, draw, DW1, 4);
    places(c.l + UO)[0] = 1;
    refused(&c, draw, DW1, 7);
    words(c.l + V1)[0] = words(c.l + V2)[0] = 1;
    refused(&c, draw, DW1, 3);
    places(c.l + VO)[0] = 1;
    refused(&c, draw, DW1, 7);
    words(c.l + Y1)[0] = 4;
    refused(&c, draw, DW1, 4);
    places(c.l + P)[0] = 1;
    refused(&c, draw, DW1, 7);
    put_digits(&c, C1, 2, "01");
    refused(&c, draw, DW1, 8);
    words(c.l + B1)[0] = words(c.l + B2)[0] = 5;
    refused(&c, draw, DW1, 4);
    words(c.l + HV1)[0] = words(c.l + HV2)[0] = 1;
    refused(&c, draw, DW1, 3);
    words(c.l + HU1)[0] |= 4;
    refused(&c, draw, DW1, 4);
    c.count[E1]++;
    refused(&c, draw, DW1, 2);
    take_back_all();
    /* the first part lacks rank in V, then in U; it has it when the order begins with the other place, or when the half's own gap takes both in */
    open_draw(&c, four, "01", "01", "01", "12", "0123", "12", "01", "2", "01", "1");
    refused(&c, draw, DW1, 12);
    put_places(&c, VO, "10");
    refused(&c, draw, DW1, 13);
    put_places(&c, UO, "10");
    uint64_t got = draw(&c);
    EXPECT(got == 0 || got == 14);
    put_places(&c, VO, "01");
    put_places(&c, UO, "01");
    /* each gap takes both places of its own order in, and not of the other */
    c.z.gu = 1;
    refused(&c, draw, DW1, 12);
    c.z.gu = 0;
    c.z.gv = 1;
    refused(&c, draw, DW1, 13);
    c.z.gu = 1;
    got = draw(&c);
    EXPECT(got == 0 || got == 14);
    /* with the gap k_U of U, and not with that of V, no U value is bound to be other than 0 */
    put_digits(&c, U1, 1, "0");
    got = draw(&c);
    EXPECT(got == 0 || got == 14);
    c.z.gu = 0;
    refused(&c, draw, DW1, 8);
    take_back_all();
}

int main(void)
{
    keys();
    builds_refused();
    draws();
    draws_refused();
    printf("signer host: %lu tests passed\n", passed);
    return 0;
}
