/* A host of the module's half: it links the archive alone. Expected values are worked out from the paper, by hand or
 * by the plain trit-by-trit check below; those of SHAKE256 are published ones or come from Python's hashlib. Every
 * buffer stands between guard words, which are looked at after each call. */
#include "lent.h"
#include "wave_checker.h"

/* ---- the paper's packing, trit by trit */

static void pack_digits(const char *digits, uint8_t *out)
{
    static const int times[5] = { 1, 3, 9, 27, 81 };
    size_t m = strlen(digits);
    memset(out, 0, WAVE_BYTES(m));
    for (size_t i = 0; i < m; i++) out[i / 5] = (uint8_t)(out[i / 5] + (digits[i] - '0') * times[i % 5]);
}

static void pack_trits(const unsigned char *trits, size_t m, uint8_t *out)
{
    static const int times[5] = { 1, 3, 9, 27, 81 };
    memset(out, 0, WAVE_BYTES(m));
    for (size_t i = 0; i < m; i++) out[i / 5] = (uint8_t)(out[i / 5] + trits[i] * times[i % 5]);
}

/* ---- a syndrome, byte by byte and trit by trit */

#define TEXT_MOST 300
#define STREAM_MOST (16384 + 136)

/* the output of wave_shake256 for the salt and then the text */
static const uint8_t *stream_of(const uint8_t *salt, const uint8_t *text, size_t text_bytes, size_t stream_bytes)
{
    static uint8_t message[WAVE_SALT_BYTES + TEXT_MOST], stream[STREAM_MOST];
    memcpy(message, salt, WAVE_SALT_BYTES);
    if (text_bytes > 0) memcpy(message + WAVE_SALT_BYTES, text, text_bytes);
    wave_shake256(message, WAVE_SALT_BYTES + text_bytes, stream, stream_bytes);
    return stream;
}

/* the m trits of a text with its salt */
static void syndrome_trits(const uint8_t *salt, const uint8_t *text, size_t text_bytes, size_t m, unsigned char *trits)
{
    const uint8_t *stream = stream_of(salt, text, text_bytes, m + 136);
    size_t taken = 0;
    for (size_t i = 0; i < m + 136; i++) {
        if (stream[i] >= 243) continue;
        for (unsigned k = 0, b = stream[i]; k < 5 && taken < m; k++, b /= 3) trits[taken++] = (unsigned char)(b % 3);
    }
    EXPECT(taken == m);
}

/* these planes hold these trits, and nothing past them */
static int hold(const lent *ones, const lent *twos, const unsigned char *trits, size_t m)
{
    for (size_t i = 0; i < 64 * WAVE_WORDS(m); i++) {
        unsigned t = (unsigned)(words(ones)[i / 64] >> i % 64 & 1) + 2 * (unsigned)(words(twos)[i / 64] >> i % 64 & 1);
        if (t != (i < m ? trits[i] : 0)) return 0;
    }
    return 1;
}

/* ---- a module: its state and everything that it lends */

typedef struct { wave_held held; lent ones, twos, row, y, salt, text, s, wo, wt; } module;

static void open_module(module *m, uint64_t number, uint64_t n, uint64_t k, uint64_t w)
{
    size_t row = WAVE_WORDS(n - k);
    wave_held none = { 0, 0, 0, 0, 0, 0 };
    wave_stored got = wave_begin(none, number, n, k, w);
    EXPECT(got.refusal == 0);
    EXPECT(got.held.begun == 1 && got.held.number == number && got.held.n == n && got.held.k == k && got.held.w == w && got.held.rows == 0);
    m->held = got.held;
    lend(&m->ones, k * row, 8, 0x5C);
    lend(&m->twos, k * row, 8, 0xC5);
    lend(&m->row, WAVE_BYTES(n - k), 1, 0);
    lend(&m->y, WAVE_BYTES(n - k), 1, 0);
    lend(&m->salt, WAVE_SALT_BYTES, 1, 0x53);
    lend(&m->text, TEXT_MOST, 1, 0x74);
    lend(&m->s, WAVE_BYTES(k), 1, 0);
    lend(&m->wo, row, 8, 0x77);
    lend(&m->wt, row, 8, 0x7F);
}

/* lengths are given apart from the buffers, so that they can be off by one */
typedef struct { size_t ones, twos, row, y, salt, text, s, wo, wt; } counts;

static counts right(const module *m)
{
    counts c = { m->ones.count, m->twos.count, m->row.count, m->y.count, m->salt.count, m->text.count, m->s.count,
                 m->wo.count, m->wt.count };
    return c;
}

static wave_stored offer(const module *m, wave_held held, counts c)
{
    wave_stored got = wave_store_row(held, words(&m->ones), c.ones, words(&m->twos), c.twos, bytes(&m->row), c.row);
    EXPECT(all_guarded());
    return got;
}

/* a check: of y, or of the text with its salt */
typedef wave_checked asking(const module *m, wave_held held, uint64_t number, counts c);

static wave_checked ask_y(const module *m, wave_held held, uint64_t number, counts c)
{
    wave_checked got = wave_check(held, number, words(&m->ones), c.ones, words(&m->twos), c.twos, bytes(&m->y), c.y,
                                  bytes(&m->s), c.s, words(&m->wo), c.wo, words(&m->wt), c.wt);
    EXPECT(all_guarded());
    return got;
}

static wave_checked ask_text(const module *m, wave_held held, uint64_t number, counts c)
{
    wave_checked got = wave_check_text(held, number, words(&m->ones), c.ones, words(&m->twos), c.twos,
                                       bytes(&m->salt), c.salt, bytes(&m->text), c.text, bytes(&m->s), c.s,
                                       words(&m->wo), c.wo, words(&m->wt), c.wt);
    EXPECT(all_guarded());
    return got;
}

static int same_held(wave_held a, wave_held b)
{
    return a.begun == b.begun && a.number == b.number && a.n == b.n && a.k == b.k && a.w == b.w && a.rows == b.rows;
}

/* a row that must be stored */
static void store(module *m)
{
    uint64_t before = m->held.rows;
    wave_held want = m->held;
    want.rows = before + 1;
    wave_stored got = offer(m, m->held, right(m));
    EXPECT(got.refusal == 0);
    EXPECT(same_held(got.held, want));
    m->held = got.held;
}

static void store_digits(module *m, const char *digits)
{
    pack_digits(digits, bytes(&m->row));
    store(m);
}

/* a row that must be refused: the state and every buffer stay */
static void refused_row(const module *m, wave_held held, counts c, uint64_t number)
{
    note_all();
    wave_stored got = offer(m, held, c);
    EXPECT(got.refusal == number);
    EXPECT(same_held(got.held, held));
    EXPECT(all_same());
}

/* a check that must be refused: yes, ones and twos are 0 and every buffer stays, the working space too */
static void refused_by(asking *ask, const module *m, wave_held held, uint64_t number, counts c, uint64_t refusal)
{
    memset(words(&m->wo), 0x77, m->wo.count * 8);
    memset(words(&m->wt), 0x7F, m->wt.count * 8);
    note_all();
    wave_checked got = ask(m, held, number, c);
    EXPECT(got.refusal == refusal);
    EXPECT(got.yes == 0 && got.ones == 0 && got.twos == 0);
    EXPECT(all_same());
}

/* for what both checks are lent */
static void refused_check(const module *m, wave_held held, uint64_t number, counts c, uint64_t refusal)
{
    refused_by(ask_y, m, held, number, c, refusal);
    refused_by(ask_text, m, held, number, c, refusal);
}

/* for the length or the contents of y */
static void refused_y(const module *m, counts c, uint64_t refusal)
{
    refused_by(ask_y, m, m->held, m->held.number, c, refusal);
}

/* a check that comes to a verdict: the working space is zero and every other buffer stays */
static void verdict_by(asking *ask, const module *m, counts c, uint64_t ones, uint64_t twos, uint64_t yes)
{
    memset(words(&m->wo), 0x77, m->wo.count * 8);
    memset(words(&m->wt), 0x7F, m->wt.count * 8);
    note_all();
    wave_checked got = ask(m, m->held, m->held.number, c);
    EXPECT(got.refusal == 0);
    EXPECT(got.ones == ones);
    EXPECT(got.twos == twos);
    EXPECT(got.yes == yes);
    EXPECT(all_zero(&m->wo) && all_zero(&m->wt));
    EXPECT(same(&m->ones) && same(&m->twos) && same(&m->y) && same(&m->salt) && same(&m->text) && same(&m->s));
}

static void verdict(const module *m, uint64_t ones, uint64_t twos, uint64_t yes)
{
    verdict_by(ask_y, m, right(m), ones, twos, yes);
}

static void verdict_text(const module *m, size_t text_bytes, uint64_t ones, uint64_t twos, uint64_t yes)
{
    counts c = right(m);
    c.text = text_bytes;
    verdict_by(ask_text, m, c, ones, twos, yes);
}

/* ---- the tests */

/* sizes: the edges of each range */
static void beginnings(void)
{
    static const struct { uint64_t number, n, k, w, refusal; } cases[] = {
        { 0, 4, 2, 1, 0 }, { 255, 4, 2, 4, 0 }, { 256, 4, 2, 4, 0 }, { 65535, 4, 2, 4, 0 }, { 65536, 4, 2, 4, 0 }, { UINT32_MAX, 4, 2, 4, 0 },
        { 7, 16384, 2, 16384, 0 }, { 7, 16384, 16382, 1, 0 }, { 7, 8576, 4288, 7668, 0 },
        { 7, 2, 2, 1, 1 }, { 7, 2, 1, 1, 1 }, { 7, 0, 2, 1, 1 }, { 7, 5, 2, 1, 1 }, { 7, 16386, 2, 1, 1 }, { 7, 16383, 2, 1, 1 },
        { UINT32_MAX + UINT64_C(1), 4, 2, 1, 1 }, { UINT32_MAX + UINT64_C(8), 4, 2, 1, 1 }, { UINT64_C(1) << 63, 4, 2, 1, 1 },
        { 7, 4, 1, 1, 1 }, { 7, 4, 0, 1, 1 }, { 7, 4, 3, 1, 1 }, { 7, 6, 5, 1, 1 }, { 7, 4, 2, 0, 1 }, { 7, 4, 2, 5, 1 },
        { UINT64_MAX, 4, 2, 1, 1 }, { 7, UINT64_MAX, 2, 1, 1 }, { 7, 4, UINT64_MAX, 1, 1 }, { 7, 4, 2, UINT64_MAX, 1 },
    };
    static const wave_held old[] = {
        { 0, 0, 0, 0, 0, 0 }, { 1, 9, 6, 2, 3, 1 }, { 5, 999, 7, 77, 777, 7777 },
    };
    for (size_t i = 0; i < sizeof cases / sizeof cases[0]; i++)
        for (size_t j = 0; j < sizeof old / sizeof old[0]; j++) {
            wave_stored got = wave_begin(old[j], cases[i].number, cases[i].n, cases[i].k, cases[i].w);
            wave_held want = { 1, cases[i].number, cases[i].n, cases[i].k, cases[i].w, 0 };
            EXPECT(got.refusal == cases[i].refusal);
            EXPECT(same_held(got.held, cases[i].refusal == 0 ? want : old[j]));
        }
}

/* the paper's example: key 7, rows 02 and 22, y = 12 */
static void example(void)
{
    module m;
    open_module(&m, 7, 4, 2, 4);
    store_digits(&m, "02");
    EXPECT(words(&m.ones)[0] == 0 && words(&m.twos)[0] == 2);
    EXPECT(words(&m.ones)[1] == 0x5C5C5C5C5C5C5C5C && words(&m.twos)[1] == 0xC5C5C5C5C5C5C5C5);
    store_digits(&m, "22");
    EXPECT(words(&m.ones)[0] == 0 && words(&m.twos)[0] == 2);
    EXPECT(words(&m.ones)[1] == 0 && words(&m.twos)[1] == 3);
    pack_digits("12", bytes(&m.y));
    pack_digits("11", bytes(&m.s));
    verdict(&m, 3, 1, 1);
    pack_digits("12", bytes(&m.s));
    verdict(&m, 1, 2, 0);
    pack_digits("11", bytes(&m.s));
    refused_check(&m, m.held, 8, right(&m), 22);
    /* at w = 2, s = 00 is accepted */
    m.held.w = 2;
    pack_digits("00", bytes(&m.s));
    verdict(&m, 1, 1, 1);
    /* s = 22 makes 0022; a trit past the length in s or in y is 15 */
    pack_digits("22", bytes(&m.s));
    verdict(&m, 0, 2, 1);
    bytes(&m.s)[0] = 242;
    refused_check(&m, m.held, 7, right(&m), 15);
    pack_digits("22", bytes(&m.s));
    bytes(&m.y)[0] = 7 + 1 * 81;
    refused_y(&m, right(&m), 15);
    take_back_all();
}

/* the example under each of these key numbers: stored, checked, and refused under the others */
static void numbers(void)
{
    static const uint64_t taken[] = { 0, 7, 255, 256, 65535, 65536, UINT32_MAX - UINT32_C(1), UINT32_MAX };
    enum { count = sizeof taken / sizeof taken[0] };
    for (size_t i = 0; i < count; i++) {
        module m;
        open_module(&m, taken[i], 4, 2, 4);
        store_digits(&m, "02");
        store_digits(&m, "22");
        pack_digits("12", bytes(&m.y));
        pack_digits("11", bytes(&m.s));
        for (size_t j = 0; j < count; j++)
            if (j != i) refused_check(&m, m.held, taken[j], right(&m), 22);
        refused_check(&m, m.held, taken[i] + (UINT64_C(1) << 32), right(&m), 22);
        refused_check(&m, m.held, UINT64_MAX, right(&m), 22);
        verdict(&m, 3, 1, 1);
        take_back_all();
    }
}

/* the refusals of a row */
static void rows_refused(void)
{
    module m;
    wave_held held, none = { 0, 0, 0, 0, 0, 0 };
    counts c;
    open_module(&m, 7, 200, 70, 100);
    c = right(&m);
    EXPECT(c.ones == 70 * 3 && c.row == 26 && c.s == 14 && c.wo == 3);

    refused_row(&m, none, c, 20);
    held = m.held; held.begun = 0; refused_row(&m, held, c, 20);
    held = m.held; held.begun = 0; held.n = 5; held.rows = 71; refused_row(&m, held, c, 20);
    held = m.held; held.begun = 2; refused_row(&m, held, c, 1);
    held = m.held; held.number = UINT32_MAX + UINT64_C(1); refused_row(&m, held, c, 1);
    held = m.held; held.number = UINT32_MAX + UINT64_C(8); refused_row(&m, held, c, 1);
    held = m.held; held.n = 201; refused_row(&m, held, c, 1);
    held = m.held; held.n = UINT64_MAX - 1; refused_row(&m, held, c, 1);
    held = m.held; held.k = 1; refused_row(&m, held, c, 1);
    held = m.held; held.k = 199; refused_row(&m, held, c, 1);
    held = m.held; held.k = UINT64_MAX; refused_row(&m, held, c, 1);
    held = m.held; held.w = 0; refused_row(&m, held, c, 1);
    held = m.held; held.w = 201; refused_row(&m, held, c, 1);
    held = m.held; held.rows = 71; refused_row(&m, held, c, 1);
    held = m.held; held.rows = UINT64_MAX; refused_row(&m, held, c, 1);
    held = m.held; held.rows = 70; refused_row(&m, held, c, 21);

    c = right(&m); c.ones++; refused_row(&m, m.held, c, 2);
    c = right(&m); c.ones--; refused_row(&m, m.held, c, 2);
    c = right(&m); c.twos++; refused_row(&m, m.held, c, 2);
    c = right(&m); c.twos--; refused_row(&m, m.held, c, 2);
    c = right(&m); c.row++; refused_row(&m, m.held, c, 2);
    c = right(&m); c.row--; refused_row(&m, m.held, c, 2);
    c = right(&m); c.ones = c.twos = c.row = 0; refused_row(&m, m.held, c, 2);
    c = right(&m); c.row++; held = m.held; held.rows = 70; refused_row(&m, held, c, 21);

    c = right(&m);
    bytes(&m.row)[25] = 243; refused_row(&m, m.held, c, 5);
    bytes(&m.row)[25] = 0; bytes(&m.row)[0] = 255; refused_row(&m, m.held, c, 5);
    c.ones++; refused_row(&m, m.held, c, 2);
    bytes(&m.row)[0] = 242;
    store(&m);
    take_back_all();
}

/* the refusals of a check */
static void checks_refused(void)
{
    module m;
    wave_held held, none = { 0, 0, 0, 0, 0, 0 };
    counts c;
    open_module(&m, 7, 200, 70, 100);
    c = right(&m);
    for (int i = 0; i < 69; i++) store(&m);
    refused_check(&m, m.held, 7, c, 20);
    refused_check(&m, m.held, 8, c, 20);
    store(&m);
    refused_row(&m, m.held, c, 21);
    verdict(&m, 0, 0, 0);

    refused_check(&m, none, 7, c, 20);
    refused_check(&m, none, 0, c, 20);
    held = m.held; held.begun = 0; held.w = 0; refused_check(&m, held, 8, c, 20);
    held = m.held; held.begun = 2; refused_check(&m, held, 7, c, 1);
    held = m.held; held.begun = UINT64_MAX; refused_check(&m, held, 7, c, 1);
    held = m.held; held.number = UINT32_MAX + UINT64_C(1); refused_check(&m, held, held.number, c, 1);
    held = m.held; held.number = UINT32_MAX; refused_check(&m, held, 7, c, 22);
    held = m.held; held.n = 2; refused_check(&m, held, 7, c, 1);
    held = m.held; held.n = 201; refused_check(&m, held, 7, c, 1);
    held = m.held; held.n = 16386; refused_check(&m, held, 7, c, 1);
    held = m.held; held.k = 1; held.rows = 1; refused_check(&m, held, 7, c, 1);
    held = m.held; held.k = 199; held.rows = 199; refused_check(&m, held, 7, c, 1);
    held = m.held; held.w = 0; refused_check(&m, held, 7, c, 1);
    held = m.held; held.w = 201; refused_check(&m, held, 7, c, 1);
    held = m.held; held.rows = 71; refused_check(&m, held, 7, c, 1);
    held = m.held; held.rows = 69; refused_check(&m, held, 8, c, 20);
    held = m.held; held.rows = 0; refused_check(&m, held, 7, c, 20);
    refused_check(&m, m.held, 8, c, 22);
    refused_check(&m, m.held, 256, c, 22);
    refused_check(&m, m.held, 7 + 256, c, 22);
    refused_check(&m, m.held, UINT32_MAX, c, 22);
    refused_check(&m, m.held, UINT32_MAX + UINT64_C(8), c, 22);
    refused_check(&m, m.held, UINT64_MAX, c, 22);

    c = right(&m); c.ones++; refused_check(&m, m.held, 7, c, 2); refused_check(&m, m.held, 8, c, 22);
    c = right(&m); c.ones--; refused_check(&m, m.held, 7, c, 2);
    c = right(&m); c.twos++; refused_check(&m, m.held, 7, c, 2);
    c = right(&m); c.twos--; refused_check(&m, m.held, 7, c, 2);
    c = right(&m); c.y++; refused_y(&m, c, 2);
    c = right(&m); c.y--; refused_y(&m, c, 2);
    c = right(&m); c.s++; refused_check(&m, m.held, 7, c, 2);
    c = right(&m); c.s--; refused_check(&m, m.held, 7, c, 2);
    c = right(&m); c.wo++; refused_check(&m, m.held, 7, c, 2);
    c = right(&m); c.wo--; refused_check(&m, m.held, 7, c, 2);
    c = right(&m); c.wt++; refused_check(&m, m.held, 7, c, 2);
    c = right(&m); c.wt--; refused_check(&m, m.held, 7, c, 2);

    c = right(&m);
    /* a bit in both planes, in any word: 3, or 4 where it is past the length; a row's third word has two bits of it */
    for (size_t q = 0; q < m.ones.count; q += 11) {
        uint64_t bit = (uint64_t)1 << (q % 64);
        words(&m.ones)[q] |= bit; words(&m.twos)[q] |= bit;
        refused_check(&m, m.held, 7, c, q % 3 == 2 && q % 64 >= 2 ? 4 : 3);
        words(&m.ones)[q] ^= bit; words(&m.twos)[q] ^= bit;
    }
    /* 4 in one row, of the first, two others and the last, beside 3 in another row */
    for (size_t q = 2; q < m.ones.count; q += 69) {
        size_t other = q == 2 ? 209 : 0;
        words(&m.ones)[q] |= (uint64_t)1 << 63;
        refused_check(&m, m.held, 7, c, 4);
        words(&m.ones)[other] |= 1; words(&m.twos)[other] |= 1;
        refused_check(&m, m.held, 7, c, 4);
        words(&m.ones)[q] = 0;
        refused_check(&m, m.held, 7, c, 3);
        words(&m.ones)[other] = 0; words(&m.twos)[other] = 0;
    }
    verdict(&m, 0, 0, 0);
    /* 4 in each plane: a row of 130 trits uses two bits of its third word */
    for (size_t i = 0; i < 70; i += 23) {
        words(&m.twos)[3 * i + 2] = 4;
        refused_check(&m, m.held, 7, c, 4);
        words(&m.twos)[3 * i + 2] = 0;
        words(&m.ones)[3 * i + 2] = 4;
        refused_check(&m, m.held, 7, c, 4);
        /* before y and s, after every length */
        bytes(&m.y)[0] = 243; bytes(&m.s)[0] = 243;
        refused_check(&m, m.held, 7, c, 4);
        c.wt++; refused_check(&m, m.held, 7, c, 2); c.wt--;
        bytes(&m.y)[0] = 0; bytes(&m.s)[0] = 0;
        words(&m.ones)[3 * i + 2] = 0;
    }
    bytes(&m.y)[25] = 243; refused_y(&m, c, 5); bytes(&m.y)[25] = 0;
    bytes(&m.y)[0] = 255; refused_y(&m, c, 5); bytes(&m.y)[0] = 0;
    bytes(&m.s)[13] = 243; refused_check(&m, m.held, 7, c, 5); bytes(&m.s)[13] = 0;
    bytes(&m.s)[0] = 243; refused_check(&m, m.held, 7, c, 5); bytes(&m.s)[0] = 242;
    verdict(&m, 0, 5, 0);
    take_back_all();
}

/* a nonzero trit past the length: two trits are in the last byte of a row and of y, three in that of s */
static void past_the_length(void)
{
    module m;
    counts c;
    open_module(&m, 7, 200, 68, 100);
    c = right(&m);
    EXPECT(c.row == 27 && c.s == 14);
    for (unsigned b = 9; b < 256; b++) {
        bytes(&m.row)[26] = (uint8_t)b;
        refused_row(&m, m.held, c, b > 242 ? 5 : 15);
    }
    /* after 5 wherever that stands, and after every length */
    bytes(&m.row)[26] = 9; bytes(&m.row)[0] = 243; refused_row(&m, m.held, c, 5);
    bytes(&m.row)[0] = 0; refused_row(&m, m.held, c, 15);
    c.twos++; refused_row(&m, m.held, c, 2); c.twos--;
    bytes(&m.row)[26] = 8;
    for (int i = 0; i < 68; i++) store(&m);

    for (unsigned b = 9; b < 256; b++) {
        bytes(&m.y)[26] = (uint8_t)b;
        refused_y(&m, c, b > 242 ? 5 : 15);
    }
    /* y's 15 before s's 5, after y's own 5 and after the held rows */
    bytes(&m.y)[26] = 162; bytes(&m.s)[0] = 243; refused_y(&m, c, 15);
    bytes(&m.y)[0] = 243; refused_y(&m, c, 5);
    bytes(&m.y)[0] = 0;
    words(&m.twos)[2] |= 16; refused_check(&m, m.held, 7, c, 4); words(&m.twos)[2] ^= 16;
    bytes(&m.y)[26] = 8; refused_check(&m, m.held, 7, c, 5);
    bytes(&m.s)[0] = 0;
    for (unsigned b = 27; b < 256; b++) {
        bytes(&m.s)[13] = (uint8_t)b;
        refused_check(&m, m.held, 7, c, b > 242 ? 5 : 15);
    }
    /* the largest last bytes that pass: y ends with 22, s with 222, and three rows twice over take nothing from y */
    bytes(&m.s)[13] = 26;
    verdict(&m, 0, 5, 0);
    take_back_all();
}

/* the paper's verdict on random keys, trit by trit: y - s times the key, then s */
static unsigned trit_of(uint64_t *seed)
{
    *seed = *seed * 6364136223846793005u + 1442695040888963407u;
    return (unsigned)((*seed >> 33) % 3);
}

/* stores random rows, and keeps their trits */
static void random_key(module *m, unsigned char *key, uint64_t *seed)
{
    size_t k = m->held.k, r = m->held.n - k;
    for (size_t i = 0; i < k; i++) {
        for (size_t j = 0; j < r; j++) key[i * r + j] = (unsigned char)trit_of(seed);
        pack_trits(key + i * r, r, bytes(&m->row));
        store(m);
    }
}

/* the trits of the full word by their value */
static void count_trits(size_t r, size_t k, const unsigned char *key, const unsigned char *y, const unsigned char *s,
                        uint64_t *counts)
{
    memset(counts, 0, 3 * sizeof *counts);
    for (size_t j = 0; j < r; j++) {
        unsigned t = y[j];
        for (size_t i = 0; i < k; i++) t += 2u * s[i] * key[i * r + j];
        counts[t % 3]++;
    }
    for (size_t i = 0; i < k; i++) counts[s[i]]++;
}

static void against_trits(uint64_t n, uint64_t k, uint64_t seed)
{
    module m;
    size_t r = n - k;
    unsigned char *key = malloc(k * r), *y = malloc(r), *s = malloc(k);
    if (!key || !y || !s) exit(2);
    open_module(&m, 200, n, k, n / 2);
    random_key(&m, key, &seed);
    for (int round = 0; round < 3; round++) {
        uint64_t counts[3];
        for (size_t j = 0; j < r; j++) y[j] = (unsigned char)trit_of(&seed);
        for (size_t i = 0; i < k; i++) s[i] = (unsigned char)(round == 2 ? 0 : trit_of(&seed));
        count_trits(r, k, key, y, s, counts);
        pack_trits(y, r, bytes(&m.y));
        pack_trits(s, k, bytes(&m.s));
        uint64_t weight = counts[1] + counts[2];
        m.held.w = weight == 0 ? 1 : weight;
        verdict(&m, counts[1], counts[2], weight != 0);
        m.held.w = weight == n ? n - 1 : weight + 1;
        verdict(&m, counts[1], counts[2], 0);
        /* the ones alone, or the twos alone, are no yes where the sum is another number */
        if (counts[1] > 0 && counts[2] > 0) {
            m.held.w = counts[1];
            verdict(&m, counts[1], counts[2], 0);
            m.held.w = counts[2];
            verdict(&m, counts[1], counts[2], 0);
        }
    }
    free(key); free(y); free(s);
    take_back_all();
}

/* packing and the stream */
static void packings(void)
{
    lent ones, twos, packed;
    lend(&ones, 1, 8, 0); lend(&twos, 1, 8, 0); lend(&packed, 1, 1, 0x33);
    /* trits 1,2,0,0,1 pack to 88 */
    words(&ones)[0] = 17; words(&twos)[0] = 2;
    EXPECT(wave_pack(5, words(&ones), 1, words(&twos), 1, bytes(&packed), 1) == 0);
    EXPECT(bytes(&packed)[0] == 88 && all_guarded());
    words(&ones)[0] = words(&twos)[0] = UINT64_MAX;
    EXPECT(wave_unpack(5, bytes(&packed), 1, words(&ones), 1, words(&twos), 1) == 0);
    EXPECT(words(&ones)[0] == 17 && words(&twos)[0] == 2 && all_guarded());
    /* 242 reads 2,2,2,2,2; 243 gives 5 and the planes stay */
    bytes(&packed)[0] = 242;
    EXPECT(wave_unpack(5, bytes(&packed), 1, words(&ones), 1, words(&twos), 1) == 0);
    EXPECT(words(&ones)[0] == 0 && words(&twos)[0] == 31);
    /* every byte at every length: what is read packs to the byte, and nothing else is written */
    for (unsigned m = 1, power = 3; m <= 5; m++, power *= 3) {
        for (unsigned b = 0; b < 256; b++) {
            bytes(&packed)[0] = (uint8_t)b;
            words(&ones)[0] = 0x5C5C; words(&twos)[0] = 0xC5C5;
            uint64_t code = wave_unpack(m, bytes(&packed), 1, words(&ones), 1, words(&twos), 1);
            EXPECT(code == (b > 242 ? 5 : b >= power ? 15 : 0));
            if (code) {
                EXPECT(words(&ones)[0] == 0x5C5C && words(&twos)[0] == 0xC5C5);
            } else {
                bytes(&packed)[0] = 255;
                EXPECT(wave_pack(m, words(&ones), 1, words(&twos), 1, bytes(&packed), 1) == 0);
                EXPECT(bytes(&packed)[0] == b);
            }
        }
    }
    EXPECT(all_guarded());
    bytes(&packed)[0] = 243;
    note_all();
    EXPECT(wave_unpack(5, bytes(&packed), 1, words(&ones), 1, words(&twos), 1) == 5);
    EXPECT(wave_unpack(5, bytes(&packed), 0, words(&ones), 1, words(&twos), 1) == 2);
    EXPECT(wave_unpack(5, bytes(&packed), 2, words(&ones), 1, words(&twos), 1) == 2);
    EXPECT(wave_unpack(5, bytes(&packed), 1, words(&ones), 0, words(&twos), 1) == 2);
    EXPECT(wave_unpack(5, bytes(&packed), 1, words(&ones), 2, words(&twos), 1) == 2);
    EXPECT(wave_unpack(5, bytes(&packed), 1, words(&ones), 1, words(&twos), 0) == 2);
    EXPECT(wave_unpack(5, bytes(&packed), 1, words(&ones), 1, words(&twos), 2) == 2);
    EXPECT(wave_unpack(16385, bytes(&packed), 1, words(&ones), 1, words(&twos), 1) == 1);
    EXPECT(wave_pack(16385, words(&ones), 1, words(&twos), 1, bytes(&packed), 1) == 1);
    EXPECT(wave_pack(5, words(&ones), 0, words(&twos), 1, bytes(&packed), 1) == 2);
    EXPECT(wave_pack(5, words(&ones), 2, words(&twos), 1, bytes(&packed), 1) == 2);
    EXPECT(wave_pack(5, words(&ones), 1, words(&twos), 0, bytes(&packed), 1) == 2);
    EXPECT(wave_pack(5, words(&ones), 1, words(&twos), 2, bytes(&packed), 1) == 2);
    EXPECT(wave_pack(5, words(&ones), 1, words(&twos), 1, bytes(&packed), 0) == 2);
    EXPECT(wave_pack(5, words(&ones), 1, words(&twos), 1, bytes(&packed), 2) == 2);
    EXPECT(all_same());
    /* 4 before 3, with the same bit or another; each alone */
    words(&ones)[0] = 1; words(&twos)[0] = 33;
    EXPECT(wave_pack(5, words(&ones), 1, words(&twos), 1, bytes(&packed), 1) == 4);
    words(&ones)[0] = 32; words(&twos)[0] = 32;
    EXPECT(wave_pack(5, words(&ones), 1, words(&twos), 1, bytes(&packed), 1) == 4);
    words(&ones)[0] = 0;
    EXPECT(wave_pack(5, words(&ones), 1, words(&twos), 1, bytes(&packed), 1) == 4);
    words(&ones)[0] = 1; words(&twos)[0] = 1;
    EXPECT(wave_pack(5, words(&ones), 1, words(&twos), 1, bytes(&packed), 1) == 3);
    EXPECT(bytes(&packed)[0] == 243 && all_guarded());
    take_back_all();

    /* bytes of 243 or more are skipped, and what follows the last trit is not looked at */
    static const uint8_t stream[] = { 255, 88, 243, 242, 250, 255 };
    lend(&ones, 1, 8, 0xFF); lend(&twos, 1, 8, 0xFF);
    EXPECT(wave_from_stream(7, stream, 6, words(&ones), 1, words(&twos), 1) == 0);
    EXPECT(words(&ones)[0] == 17 && words(&twos)[0] == (2 | 32 | 64) && all_guarded());
    EXPECT(wave_from_stream(0, stream, 0, words(&ones), 0, words(&twos), 0) == 0);
    /* nor what the byte of the last trit holds past it: 242 gives two trits of 2 above, one here */
    EXPECT(wave_from_stream(6, stream, 6, words(&ones), 1, words(&twos), 1) == 0);
    EXPECT(words(&ones)[0] == 17 && words(&twos)[0] == (2 | 32) && all_guarded());
    note_all();
    EXPECT(wave_from_stream(11, stream, 6, words(&ones), 1, words(&twos), 1) == 6);
    EXPECT(wave_from_stream(7, stream, 3, words(&ones), 1, words(&twos), 1) == 6);
    EXPECT(wave_from_stream(7, stream, 6, words(&ones), 0, words(&twos), 1) == 2);
    EXPECT(wave_from_stream(7, stream, 6, words(&ones), 2, words(&twos), 1) == 2);
    EXPECT(wave_from_stream(7, stream, 6, words(&ones), 1, words(&twos), 0) == 2);
    EXPECT(wave_from_stream(7, stream, 6, words(&ones), 1, words(&twos), 2) == 2);
    EXPECT(wave_from_stream(16385, stream, 6, words(&ones), 1, words(&twos), 1) == 1);
    EXPECT(all_same());
    take_back_all();
}

/* ---- the hash, the syndrome of a text, and the check of a text */

/* of no message, and of 200 bytes a3: the first 300 bytes; of abc: the first 64 */
static const char of_nothing[] =
    "46b9dd2b0ba88d13233b3feb743eeb243fcd52ea62b81b82b50c27646ed5762fd75dc4ddd8c0f200cb05019d67b592f6fc82"
    "1c49479ab48640292eacb3b7c4be141e96616fb13957692cc7edd0b45ae3dc07223c8e92937bef84bc0eab862853349ec755"
    "46f58fb7c2775c38462c5010d846c185c15111e595522a6bcd16cf86f3d122109e3b1fdd943b6aec468a2d621a7c06c6a957"
    "c62b54dafc3be87567d677231395f6147293b68ceab7a9e0c58d864e8efde4e1b9a46cbe854713672f5caaae314ed9083dab"
    "4b099f8e300f01b8650f1f4b1d8fcf3f3cb53fb8e9eb2ea203bdc970f50ae55428a91f7f53ac266b28419c3778a15fd248d3"
    "39ede785fb7f5a1aaa96d313eacc890936c173cdcd0fab882c45755feb3aed96d477ff96390bf9a66d1368b208e21f7c10d0";
static const char of_a3[] =
    "cd8a920ed141aa0407a22d59288652e9d9f1a7ee0c1e7c1ca699424da84a904d2d700caae7396ece96604440577da4f3aa22"
    "aeb8857f961c4cd8e06f0ae6610b1048a7f64e1074cd629e85ad7566048efc4fb500b486a3309a8f26724c0ed628001a1099"
    "422468de726f1061d99eb9e93604d5aa7467d4b1bd6484582a384317d7f47d750b8f5499512bb85a226c4243556e696f6bd0"
    "72c5aa2d9b69730244b56853d16970ad817e213e470618178001c9fb56c54fefa5fee67d2da524bb3b0b61ef0e9114a92cdb"
    "b6cccb98615cfe76e3510dd88d1cc28ff99287512f24bfafa1a76877b6f37198e3a641c68a7c42d45fa7acc10dae5f3cefb7"
    "b735f12d4e589f7a456e78c0f5e4c4471fffa5e4fa0514ae974d8c2648513b5db494cea847156d277ad0e141c24c7839064c";
static const char of_abc[] =
    "483366601360a8771c6863080cc4114d8db44530f8f1e1ee4f94ea37e78b5739"
    "d5a15bef186a5386c75744c0527e1faa9f8726e462a12a4feb06bd8801e751e4";

/* the bytes of a text in hex, and how many they are */
static size_t from_hex(const char *hex, uint8_t *out)
{
    static const char digits[] = "0123456789abcdef";
    size_t count = strlen(hex) / 2;
    for (size_t i = 0; i < count; i++)
        out[i] = (uint8_t)(16 * (strchr(digits, hex[2 * i]) - digits) + (strchr(digits, hex[2 * i + 1]) - digits));
    return count;
}

/* outputs of every length up to that of hex: their bytes, and not a byte more, are written */
static void shaken(const uint8_t *message, size_t message_bytes, const char *hex)
{
    uint8_t value[300], left[300];
    size_t most = from_hex(hex, value);
    lent output;
    lend(&output, most, 1, 0);
    for (size_t n = 0; n <= most; n++) {
        memset(bytes(&output), 0x3C, most);
        memset(left, 0x3C, most);
        memcpy(left, value, n);
        wave_shake256(message, message_bytes, bytes(&output), n);
        EXPECT(memcmp(bytes(&output), left, most) == 0 && all_guarded());
    }
    take_back(1);
}

static void published(void)
{
    lent none, abc, a3;
    lend(&none, 0, 1, 0);
    lend(&abc, 3, 1, 0);
    lend(&a3, 200, 1, 0xA3);
    memcpy(bytes(&abc), "abc", 3);
    note_all();
    shaken(bytes(&none), 0, of_nothing);
    shaken(NULL, 0, of_nothing);
    shaken(bytes(&a3), 200, of_a3);
    shaken(bytes(&abc), 3, of_abc);
    EXPECT(same(&none) && same(&abc) && same(&a3));
    take_back_all();
}

/* many bytes, held to one value: the 32 bytes of their own hash */
static void hashed_to(const uint8_t *many, size_t count, const char *hex)
{
    uint8_t value[32], got[32];
    from_hex(hex, value);
    wave_shake256(many, count, got, 32);
    EXPECT(memcmp(got, value, 32) == 0);
}

/* 32 bytes for each message of 0 to 408 bytes, which is three blocks; and an output as long as any stream */
static void long_values(void)
{
    static uint8_t message[408], outputs[409 * 32], stream[STREAM_MOST];
    for (size_t n = 0; n <= 408; n++) {
        for (size_t i = 0; i < n; i++) message[i] = (uint8_t)(7 * i + n);
        wave_shake256(message, n, outputs + 32 * n, 32);
    }
    hashed_to(outputs, sizeof outputs, "bf26c02847403ba12c22c1f2529b0bdce69e088fdf469fb9b01a890d31e3ba51");
    wave_shake256((const uint8_t *)"abc", 3, stream, sizeof stream);
    hashed_to(stream, sizeof stream, "6b440dc67fcb5fdbcc375fd62ffb7420cacb63b0ee88d46bf2e27b907b4a5aae");
}

/* a syndrome that must be made: its planes, and no other buffer, change; the stream call reads the same trits */
static void made(size_t m, const lent *salt, const lent *text, size_t text_bytes, const unsigned char *trits)
{
    lent ones, twos;
    lend(&ones, WAVE_WORDS(m), 8, 0xFF);
    lend(&twos, WAVE_WORDS(m), 8, 0xFF);
    note_all();
    EXPECT(wave_syndrome(m, bytes(salt), WAVE_SALT_BYTES, bytes(text), text_bytes,
                         words(&ones), ones.count, words(&twos), twos.count) == 0);
    EXPECT(hold(&ones, &twos, trits, m) && all_guarded());
    EXPECT(same(salt) && same(text));
    note_all();
    EXPECT(wave_from_stream(m, stream_of(bytes(salt), bytes(text), text_bytes, m + 136), m + 136,
                            words(&ones), ones.count, words(&twos), twos.count) == 0);
    EXPECT(all_same());
    take_back(2);
}

/* bytes 0, 1, 2 and so on */
static void count_up(const lent *l)
{
    for (size_t i = 0; i < l->count; i++) bytes(l)[i] = (uint8_t)i;
}

/* a text whose stream begins with four bytes that are skipped, where the salt counts up */
static const char skipping[] = "formula 486800";

/* syndromes written out; the salt counts up */
static void written_syndromes(void)
{
    static const struct { const char *text, *digits; } cases[] = {
        { "formula 0", "" },
        { "formula 1", "1" },
        { "formula 4", "2021" },
        { "formula 63", "112011221100011100110221021221210220200211011020221010112110220" },
        { "formula 64", "1122220022111212210211202220121010212101120201002012112000210021" },
        { "formula 65", "22121201200220122200021100121102200202111120011201120101111111010" },
        { "formula 425", "222220" }, /* its stream begins with 242 */
        { "formula 351", "210200" }, /* and with 243 */
        { skipping, "1" },
        { skipping, "12110" },
    };
    lent salt, text;
    lend(&salt, WAVE_SALT_BYTES, 1, 0);
    lend(&text, TEXT_MOST, 1, 0);
    count_up(&salt);
    for (size_t i = 0; i < sizeof cases / sizeof cases[0]; i++) {
        unsigned char trits[65];
        size_t m = strlen(cases[i].digits), n = strlen(cases[i].text);
        for (size_t j = 0; j < m; j++) trits[j] = (unsigned char)(cases[i].digits[j] - '0');
        memcpy(bytes(&text), cases[i].text, n);
        made(m, &salt, &text, n, trits);
    }
    take_back_all();
}

static void random_bytes(const lent *l, uint64_t *seed)
{
    for (size_t i = 0; i < l->count; i++) {
        *seed = *seed * 6364136223846793005u + 1442695040888963407u;
        bytes(l)[i] = (uint8_t)(*seed >> 56);
    }
}

/* syndromes byte by byte: of these lengths with some texts, and of 65 trits with texts of every length */
static void plain_syndromes(void)
{
    static const size_t lengths[] = { 0, 1, 4, 63, 64, 65, 640, 16384 }, texts[] = { 0, 1, 103, 104, 105, 240, 300 };
    static unsigned char trits[16384];
    uint64_t seed = 12;
    lent salt, text;
    lend(&salt, WAVE_SALT_BYTES, 1, 0);
    lend(&text, TEXT_MOST, 1, 0);
    for (size_t i = 0; i < sizeof lengths / sizeof lengths[0]; i++)
        for (size_t j = 0; j < sizeof texts / sizeof texts[0]; j++) {
            random_bytes(&salt, &seed);
            random_bytes(&text, &seed);
            syndrome_trits(bytes(&salt), bytes(&text), texts[j], lengths[i], trits);
            made(lengths[i], &salt, &text, texts[j], trits);
        }
    for (size_t n = 0; n <= TEXT_MOST; n++) {
        syndrome_trits(bytes(&salt), bytes(&text), n, 65, trits);
        made(65, &salt, &text, n, trits);
    }
    take_back_all();
}

/* the refusals of a syndrome, but for 6: no salt and text are known that come to it */
static void syndromes_refused(void)
{
    static const struct { size_t m, salt, ones, twos; uint64_t refusal; } cases[] = {
        { 16385, 32, 257, 257, 1 }, { 16385, 32, 256, 256, 1 }, { SIZE_MAX, 32, 2, 2, 1 }, { 16385, 31, 2, 2, 1 },
        { 65, 0, 2, 2, 2 }, { 65, 31, 2, 2, 2 }, { 65, 33, 2, 2, 2 }, { 65, 64, 2, 2, 2 },
        { 65, 32, 1, 2, 2 }, { 65, 32, 3, 2, 2 }, { 65, 32, 2, 1, 2 }, { 65, 32, 2, 3, 2 }, { 65, 32, 0, 0, 2 },
        { 64, 32, 2, 2, 2 }, { 0, 32, 1, 0, 2 }, { 0, 32, 0, 1, 2 }, { 0, 31, 0, 0, 2 }, { 16384, 32, 255, 256, 2 },
    };
    lent salt, text, ones, twos;
    lend(&salt, 64, 1, 0x53); lend(&text, TEXT_MOST, 1, 0x74);
    lend(&ones, 257, 8, 0x5C); lend(&twos, 257, 8, 0xC5);
    note_all();
    for (size_t i = 0; i < sizeof cases / sizeof cases[0]; i++) {
        EXPECT(wave_syndrome(cases[i].m, bytes(&salt), cases[i].salt, bytes(&text), 12, words(&ones), cases[i].ones,
                             words(&twos), cases[i].twos) == cases[i].refusal);
        EXPECT(all_same());
    }
    /* a text of no bytes is none of them, wherever it stands */
    EXPECT(wave_syndrome(65, bytes(&salt), 32, NULL, 0, words(&ones), 2, words(&twos), 2) == 0);
    note_all();
    EXPECT(wave_syndrome(65, bytes(&salt), 32, bytes(&text), 0, words(&ones), 2, words(&twos), 2) == 0);
    EXPECT(all_same());
    take_back_all();
}

/* the verdict on so many bytes of the text is the one on its y, packed; told is that one */
static wave_checked text_as_y(const module *m, size_t text_bytes)
{
    uint64_t ones[256], twos[256];
    size_t r = m->held.n - m->held.k, w = WAVE_WORDS(r);
    EXPECT(wave_syndrome(r, bytes(&m->salt), WAVE_SALT_BYTES, bytes(&m->text), text_bytes, ones, w, twos, w) == 0);
    EXPECT(wave_pack(r, ones, w, twos, w, bytes(&m->y), m->y.count) == 0);
    wave_checked told = ask_y(m, m->held, m->held.number, right(m));
    verdict_text(m, text_bytes, told.ones, told.twos, told.yes);
    return told;
}

/* every signature on a text under the paper's key: how many are right */
static unsigned try_all(const module *m, size_t text_bytes)
{
    unsigned rights = 0;
    for (uint8_t s = 0; s < 9; s++) {
        bytes(&m->s)[0] = s;
        rights += (unsigned)text_as_y(m, text_bytes).yes;
    }
    return rights;
}

/* random texts under the paper's key: some signature is right, and only the four without a 0 can be */
static void texts(void)
{
    uint64_t seed = 7;
    module m;
    open_module(&m, 7, 4, 2, 4);
    store_digits(&m, "02");
    store_digits(&m, "22");
    for (size_t n = 0; n <= TEXT_MOST; n += 20) {
        random_bytes(&m.salt, &seed);
        random_bytes(&m.text, &seed);
        unsigned rights = try_all(&m, n);
        EXPECT(rights > 0 && rights <= 4);
    }
    count_up(&m.salt);
    memcpy(bytes(&m.text), skipping, strlen(skipping));
    EXPECT(try_all(&m, strlen(skipping)) > 0);
    take_back_all();
}

/* the signature 11 on a text, and on the same changed, longer, cut, and with one bit of the salt changed */
static void changed_texts(void)
{
    static const struct { const char *text; size_t at; uint8_t bit; uint64_t ones, twos, yes; } cases[] = {
        { "formula 12: white 250, red 12, blue 3", 0, 0, 3, 1, 1 },
        { "formula 12: white 250, red 21, blue 3", 0, 0, 2, 1, 0 },
        { "formula 12: white 250, red 12, blue 3 ", 0, 0, 3, 0, 0 },
        { "formula 12: white 250, red 12, blue 3\n", 0, 0, 2, 0, 0 },
        { "formula 12: white 250, red 12, blu", 0, 0, 3, 0, 0 },
        { "formula 12: white 250, red 12, blue 3", 0, 1, 2, 0, 0 },
        { "formula 12: white 250, red 12, blue 3", 31, 16, 2, 1, 0 },
    };
    module m;
    open_module(&m, 7, 4, 2, 4);
    store_digits(&m, "02");
    store_digits(&m, "22");
    pack_digits("11", bytes(&m.s));
    from_hex("4ce5e736bb261c9c1bce84fdfe7f142b6748f2aa723176c5926477e4d98df007", bytes(&m.salt));
    for (size_t i = 0; i < sizeof cases / sizeof cases[0]; i++) {
        size_t n = strlen(cases[i].text);
        memcpy(bytes(&m.text), cases[i].text, n);
        bytes(&m.salt)[cases[i].at] ^= cases[i].bit;
        verdict_text(&m, n, cases[i].ones, cases[i].twos, cases[i].yes);
        bytes(&m.salt)[cases[i].at] ^= cases[i].bit;
    }
    take_back_all();
}

/* random keys: y is the syndrome of a random text, and the verdict is the one trit by trit */
static void texts_against_trits(uint64_t n, uint64_t k, size_t text_bytes, uint64_t seed)
{
    module m;
    size_t r = n - k;
    unsigned char *key = malloc(k * r), *y = malloc(r), *s = malloc(k);
    if (!key || !y || !s) exit(2);
    open_module(&m, 200, n, k, n / 2);
    random_key(&m, key, &seed);
    for (int round = 0; round < 3; round++) {
        uint64_t counts[3];
        random_bytes(&m.salt, &seed);
        random_bytes(&m.text, &seed);
        syndrome_trits(bytes(&m.salt), bytes(&m.text), text_bytes, r, y);
        for (size_t i = 0; i < k; i++) s[i] = (unsigned char)(round == 2 ? 0 : trit_of(&seed));
        count_trits(r, k, key, y, s, counts);
        pack_trits(s, k, bytes(&m.s));
        m.held.w = counts[1] + counts[2] == 0 ? 1 : counts[1] + counts[2];
        verdict_text(&m, text_bytes, counts[1], counts[2], counts[1] + counts[2] != 0);
        EXPECT(text_as_y(&m, text_bytes).yes == (counts[1] + counts[2] != 0));
        m.held.w = m.held.w == n ? n - 1 : m.held.w + 1;
        verdict_text(&m, text_bytes, counts[1], counts[2], 0);
    }
    free(key); free(y); free(s);
    take_back_all();
}

/* the refusals of a text in the order of the header, but for 6: all is wrong at once, and is put right one by one */
static void texts_refused(void)
{
    module m;
    open_module(&m, 7, 200, 68, 100);
    for (int i = 0; i < 68; i++) store(&m);
    wave_held held = m.held;
    counts c = right(&m);
    held.begun = 0; held.n = 201; held.rows = 67;
    words(&m.ones)[5] = (uint64_t)1 << 63;
    words(&m.ones)[9] = words(&m.twos)[9] = 1;
    bytes(&m.s)[0] = 243;
    bytes(&m.s)[13] = 27;

    c.salt = 31;
    refused_by(ask_text, &m, held, 8, c, 20); held.begun = 1;
    refused_by(ask_text, &m, held, 8, c, 1); held.n = 200;
    refused_by(ask_text, &m, held, 8, c, 20); held.rows = 68;
    refused_by(ask_text, &m, held, 8, c, 22);
    refused_by(ask_text, &m, held, 7, c, 2); c.salt = 32;
    refused_by(ask_text, &m, held, 7, c, 4); words(&m.ones)[5] = 0;
    refused_by(ask_text, &m, held, 7, c, 3); words(&m.ones)[9] = words(&m.twos)[9] = 0;
    refused_by(ask_text, &m, held, 7, c, 5); bytes(&m.s)[0] = 0;
    refused_by(ask_text, &m, held, 7, c, 15); bytes(&m.s)[13] = 26;

    /* a salt of another length, and nothing else */
    static const size_t others[] = { 0, 31, 33, 64 };
    for (size_t i = 0; i < sizeof others / sizeof others[0]; i++) {
        c.salt = others[i];
        refused_by(ask_text, &m, m.held, 7, c, 2);
    }
    take_back_all();
}

/* texts of every length; that of no bytes may stand anywhere */
static void text_lengths(void)
{
    uint64_t seed = 12;
    module m;
    open_module(&m, 7, 200, 70, 100);
    for (int i = 0; i < 70; i++) store(&m);
    random_bytes(&m.salt, &seed);
    random_bytes(&m.text, &seed);
    for (size_t n = 1; n <= TEXT_MOST; n++) text_as_y(&m, n);
    wave_checked told = text_as_y(&m, 0);
    m.text.at = NULL;
    verdict_text(&m, 0, told.ones, told.twos, told.yes);
    take_back_all();
}

int main(void)
{
    beginnings();
    example();
    numbers();
    rows_refused();
    checks_refused();
    past_the_length();
    packings();
    against_trits(4, 2, 1);
    against_trits(6, 4, 2);
    against_trits(130, 2, 3);
    against_trits(256, 128, 4);
    against_trits(256, 192, 5);
    against_trits(300, 99, 6);
    against_trits(514, 385, 7);
    against_trits(16384, 16382, 8);
    against_trits(16384, 3, 9);
    published();
    long_values();
    written_syndromes();
    plain_syndromes();
    syndromes_refused();
    texts();
    changed_texts();
    text_lengths();
    texts_refused();
    texts_against_trits(4, 2, 0, 1);
    texts_against_trits(130, 2, 37, 2);
    texts_against_trits(256, 128, 104, 3);
    texts_against_trits(300, 99, 105, 4);
    texts_against_trits(514, 385, 240, 5);
    texts_against_trits(16384, 16382, 1, 6);
    texts_against_trits(16384, 3, 300, 7);
    printf("checker host: %lu tests passed\n", passed);
    return 0;
}
