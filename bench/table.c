/* Times our calls against the same in plain C at gcc -O3 and at gcc -O3 -march=native, in one run that takes turns, and
   prints four tables: the two published sizes, growth with n, rows of other lengths, and the hash. Build, draw and
   unpack have two more sides in plain C, those that go step by step, with rows of their own. All sides' answers and buffers are
   compared byte for byte in each turn. An argument is the least number of turns.
   With BEFORE defined, build and draw have one side more, those of an earlier revision, and a fifth table. */
#include "clock.h"
#include "plain.h"
#include <stdio.h>
#include <stdlib.h>
#include <string.h>

#define SECONDS 1.0     /* turns are taken for so long, and at least `turns` of them */
#define LEAST 1e5       /* nanoseconds between two readings of the clock, from the second turn on */
#define TIMES 10000     /* rows summed or weighed in one call */
#define WEIGHTS 20      /* weighings worked out in one call that makes its tests once */
#define TEXT 1000       /* bytes of the text that is checked */
#define MESSAGE 1048576 /* bytes of the message that is hashed */
#define OUTPUT 64       /* bytes that are taken of its hash */
#define STREAM(m) (2 * WAVE_BYTES(m)) /* bytes of a stream that m trits are taken from: twice as many as a packed row */
static int turns = 3;
static double steps; /* of the time stamp counter in a nanosecond */

static const side ours = {bench_sum, bench_weight, bench_both_set, bench_past_end, wave_unpack, wave_pack,
                          wave_from_stream, bench_check, wave_check, bench_weigh, bench_weigh_packed, wave_shake256,
                          wave_syndrome, wave_check_text, wave_build, wave_draw, wave_build_work, wave_draw_work, 0};
#ifdef BEFORE
/* the calls of an earlier revision, whose archive has its names changed so, and its lengths, by `before.c` */
extern __typeof__(wave_build) before_wave_build;
extern __typeof__(wave_draw) before_wave_draw;
size_t before_build_work(wave_sizes), before_draw_work(wave_sizes);
static const side before = {.build = before_wave_build, .draw = before_wave_draw, .build_work = before_build_work,
                            .draw_work = before_draw_work};
static const side *const sides[] = {&ours, &plain_o3, &plain_native, &steps_o3, &steps_native, &before};
#else
static const side *const sides[] = {&ours, &plain_o3, &plain_native, &steps_o3, &steps_native};
#endif
enum { OURS, O3, NATIVE, STEPS_O3, STEPS_NATIVE, EARLIER, SIDES = sizeof sides / sizeof *sides };

/* ---- what goes in */

/* rows in two planes, n words each; as four arguments */
typedef struct { uint64_t *ones, *twos; size_t n; } planes;
#define P(x) (x).ones, (x).n, (x).twos, (x).n

typedef struct {
    wave_sizes z;              /* of a build, and of a draw that releases its word */
    wave_held held, text_held; /* of a check of y, and of one of salt and text, that says yes */
    size_t half, rows_u, rows_v, k, m;
    planes hu, hv, b, c, v, u, key, y, s;
    uint8_t *key_bytes, *y_bytes, *s_bytes, *salt, *text, *stream;
    uint16_t *order, *v_order, *u_order;
} input;

/* zeros from the start of a line of the cache on */
static void *room(size_t n, size_t size) {
    size_t bytes = (n * size + 63) / 64 * 64;
    void *p = aligned_alloc(64, bytes);
    if (!p) exit(1);
    return memset(p, 0, bytes);
}

static int bit(const uint64_t *plane, size_t p) {
    return plane[p / 64] >> p % 64 & 1;
}

static void put(planes a, size_t p, int t) {
    if (t) (t == 1 ? a.ones : a.twos)[p / 64] |= (uint64_t)1 << p % 64;
}

/* rows of m trits that are drawn; with `full`, none is 0 */
static planes rows(size_t count, size_t m, int full) {
    size_t w = WAVE_WORDS(m), n = count * w;
    planes a = {room(n, 8), room(n, 8), n};
    for (size_t i = 0; i < count; i++)
        for (size_t q = 0; q < m; q++) put(a, 64 * i * w + q, full ? 1 + chance() % 2 : chance() % 3);
    return a;
}

static uint8_t *packed(planes a, size_t count, size_t m) {
    static const int power[] = {1, 3, 9, 27, 81};
    uint8_t *bytes = room(count, WAVE_BYTES(m));
    for (size_t i = 0; i < count; i++)
        for (size_t q = 0; q < m; q++) {
            size_t p = 64 * i * WAVE_WORDS(m) + q;
            bytes[i * WAVE_BYTES(m) + q / 5] += (bit(a.ones, p) + 2 * bit(a.twos, p)) * power[q % 5];
        }
    return bytes;
}

static uint16_t *order(size_t n) {
    uint16_t *p = room(n, 2);
    for (size_t i = 0; i < n; i++) p[i] = i;
    for (size_t i = n - 1; i > 0; i--) {
        size_t j = chance() % (i + 1);
        uint16_t x = p[i];
        p[i] = p[j], p[j] = x;
    }
    return p;
}

/* s and the syndrome y of a drawn word of weight w under the key, trit by trit */
static void sign(input *a, size_t w) {
    size_t n = a->z.n, m = a->m;
    uint8_t *word = room(n, 1), *y = room(m, 1);
    uint16_t *at = order(n);
    for (size_t i = 0; i < w; i++) word[at[i]] = 1 + chance() % 2;
    memcpy(y, word, m);
    a->y = (planes){room(WAVE_WORDS(m), 8), room(WAVE_WORDS(m), 8), WAVE_WORDS(m)};
    a->s = (planes){room(WAVE_WORDS(a->k), 8), room(WAVE_WORDS(a->k), 8), WAVE_WORDS(a->k)};
    for (size_t i = 0; i < a->k; i++) {
        put(a->s, i, word[m + i]);
        for (size_t q = 0; q < m; q++) {
            size_t p = 64 * i * a->y.n + q;
            y[q] = (y[q] + (bit(a->key.ones, p) + 2 * bit(a->key.twos, p)) * word[m + i]) % 3;
        }
    }
    for (size_t q = 0; q < m; q++) put(a->y, q, y[q]);
    free(word), free(y), free(at);
}

/* n bytes that are not drawn, so that the inputs of the other calls stay as they were */
static uint8_t *counted(size_t n) {
    uint8_t *bytes = room(n, 1);
    for (size_t i = 0; i < n; i++) bytes[i] = 7 * i;
    return bytes;
}

/* a salt and a text for the same key and s; w is the weight that their word comes to */
static void add_text(input *a) {
    size_t w = a->y.n;
    uint64_t *work = room(2 * w, 8);
    a->salt = counted(WAVE_SALT_BYTES), a->text = counted(TEXT);
    wave_checked c = plain_o3.check_text(a->held, 7, P(a->key), a->salt, WAVE_SALT_BYTES, a->text, TEXT, a->s_bytes,
                                         WAVE_BYTES(a->k), work, w, work + w, w);
    a->text_held = a->held;
    a->text_held.w = c.ones + c.twos;
    free(work);
}

/* a stream of all byte values, the text's hash, so that nothing is drawn for it */
static void add_stream(input *a) {
    a->stream = room(STREAM(a->m), 1);
    plain_o3.shake256(a->text, TEXT, a->stream, STREAM(a->m));
}

/* what a call leaves: its answer, 0 for as it should be, a number or two more, and from HEAD on its buffers */
#define HEAD 8
static planes next(uint64_t **at, size_t n) {
    planes a = {*at, *at + n, n};
    *at += 2 * n;
    return a;
}

static size_t run_draw(const side *f, const input *a, uint64_t *out) {
    uint64_t *at = out + HEAD;
    planes word = next(&at, WAVE_WORDS(a->z.n)), s = next(&at, a->s.n), work = next(&at, f->draw_work(a->z));
    *out = f->draw(a->z, P(a->hu), P(a->hv), P(a->b), P(a->c), a->order, a->z.n, P(a->y), a->v_order, a->half, P(a->v), a->u_order, a->half, P(a->u), P(word), P(s), P(work));
    return at - out;
}

/* words that are enough for what any call of any side leaves */
static size_t space(const input *a) {
    size_t most = 0;
    for (int s = 0; s < SIDES; s++) {
        size_t words = sides[s]->build_work(a->z) + sides[s]->draw_work(a->z);
        if (words > most) most = words;
    }
    return 1024 + a->z.n + 2 * (a->key.n + most);
}

static input make(wave_sizes z) {
    size_t half = z.n / 2, k = z.ku + z.kv;
    input a = {.z = z, .held = {1, 7, z.n, k, z.w, k}, .half = half, .rows_u = half - z.ku, .rows_v = half - z.kv, .k = k, .m = z.n - k};
    a.hu = rows(a.rows_u, half, 0), a.hv = rows(a.rows_v, half, 0), a.b = rows(1, half, 0), a.c = rows(1, half, 1), a.v = rows(1, z.kv, 0), a.u = rows(1, z.ku, 1);
    a.key = rows(k, a.m, 0), a.order = order(z.n), a.v_order = order(half), a.u_order = order(half);
    sign(&a, z.w);
    a.key_bytes = packed(a.key, k, a.m), a.y_bytes = packed(a.y, 1, a.m), a.s_bytes = packed(a.s, 1, k);
    add_text(&a);
    add_stream(&a);
    uint64_t *out = room(space(&a), 8);
    run_draw(&plain_o3, &a, out);
    a.z.w = *plain_o3.made;
    free(out);
    return a;
}

/* ---- the calls: each returns how many words it leaves */

static size_t run_sum(const side *f, const input *a, uint64_t *out) {
    uint64_t *at = out + HEAD;
    planes row = next(&at, a->y.n);
    *out = f->sum(P(row), P(a->y), TIMES);
    return at - out;
}

static size_t run_weight(const side *f, const input *a, uint64_t *out) {
    for (int i = 0; i < TIMES; i++) out[1] = f->weight(P(a->y));
    return HEAD;
}

static size_t run_both_set(const side *f, const input *a, uint64_t *out) {
    for (int i = 0; i < TIMES; i++) *out = f->both_set(P(a->y));
    return HEAD;
}

static size_t run_past_end(const side *f, const input *a, uint64_t *out) {
    for (int i = 0; i < TIMES; i++) *out = f->past_end(P(a->key), a->k, a->m);
    return HEAD;
}

static size_t run_unpack(const side *f, const input *a, uint64_t *out) {
    uint64_t *at = out + HEAD;
    planes key = next(&at, a->key.n);
    size_t w = WAVE_WORDS(a->m), b = WAVE_BYTES(a->m);
    for (size_t i = 0; i < a->k; i++) *out |= f->unpack(a->m, a->key_bytes + i * b, b, key.ones + i * w, w, key.twos + i * w, w);
    return at - out;
}

static size_t run_pack(const side *f, const input *a, uint64_t *out) {
    size_t w = WAVE_WORDS(a->m), b = WAVE_BYTES(a->m);
    uint8_t *bytes = (uint8_t *)(out + HEAD);
    for (size_t i = 0; i < a->k; i++)
        *out |= f->pack(a->m, a->key.ones + i * w, w, a->key.twos + i * w, w, bytes + i * b, b);
    return HEAD + (a->k * b + 7) / 8;
}

static size_t run_from_stream(const side *f, const input *a, uint64_t *out) {
    uint64_t *at = out + HEAD;
    planes row = next(&at, a->y.n);
    *out = f->from_stream(a->m, a->stream, STREAM(a->m), P(row));
    return at - out;
}

static size_t told(wave_checked c, uint64_t *out, const uint64_t *at) {
    out[0] = c.refusal ? c.refusal : !c.yes;
    out[1] = c.ones;
    out[2] = c.twos;
    return at - out;
}

static size_t run_check(const side *f, const input *a, uint64_t *out) {
    uint64_t *at = out + HEAD;
    planes work = next(&at, a->y.n);
    return told(f->check(a->held, 7, P(a->key), P(a->y), P(a->s), P(work)), out, at);
}

static size_t run_check_packed(const side *f, const input *a, uint64_t *out) {
    uint64_t *at = out + HEAD;
    planes work = next(&at, a->y.n);
    return told(f->check_packed(a->held, 7, P(a->key), a->y_bytes, WAVE_BYTES(a->m), a->s_bytes, WAVE_BYTES(a->k), P(work)), out, at);
}

static size_t run_weigh(const side *f, const input *a, uint64_t *out) {
    uint64_t *at = out + HEAD;
    planes work = next(&at, a->y.n);
    return told(f->weigh(a->held, 7, P(a->key), P(a->y), P(a->s), P(work), WEIGHTS), out, at);
}

static size_t run_weigh_packed(const side *f, const input *a, uint64_t *out) {
    uint64_t *at = out + HEAD;
    planes work = next(&at, a->y.n);
    return told(f->weigh_packed(a->held, 7, P(a->key), a->y_bytes, WAVE_BYTES(a->m), a->s_bytes, WAVE_BYTES(a->k), P(work), WEIGHTS), out, at);
}

static size_t run_shake(const side *f, const input *a, uint64_t *out) {
    f->shake256(a->text, MESSAGE, (uint8_t *)(out + HEAD), OUTPUT);
    return HEAD + OUTPUT / 8;
}

static size_t run_syndrome(const side *f, const input *a, uint64_t *out) {
    uint64_t *at = out + HEAD;
    planes y = next(&at, a->y.n);
    *out = f->syndrome(a->m, a->salt, WAVE_SALT_BYTES, a->text, TEXT, P(y));
    return at - out;
}

static size_t run_check_text(const side *f, const input *a, uint64_t *out) {
    uint64_t *at = out + HEAD;
    planes work = next(&at, a->y.n);
    return told(f->check_text(a->text_held, 7, P(a->key), a->salt, WAVE_SALT_BYTES, a->text, TEXT, a->s_bytes,
                              WAVE_BYTES(a->k), P(work)), out, at);
}

static size_t run_build(const side *f, const input *a, uint64_t *out) {
    uint64_t *at = out + HEAD;
    uint16_t *p = (uint16_t *)at;
    at += (a->z.n + 3) / 4;
    planes key = next(&at, a->key.n), work = next(&at, f->build_work(a->z));
    *out = f->build(a->z, P(a->hu), P(a->hv), P(a->b), P(a->c), a->order, a->z.n, p, a->z.n, P(key), P(work));
    return at - out;
}

/* by_steps: the name of its row beside plain C that goes step by step, if there is one */
typedef struct { const char *name; size_t (*run)(const side *, const input *, uint64_t *); size_t times; const char *by_steps; } act;
enum { SUM, WEIGHT, UNPACK, PACK, FROM_STREAM, CHECK, WEIGH, CHECK_PACKED, WEIGH_PACKED, SYNDROME, CHECK_TEXT, BUILD,
       DRAW, BOTH_SET, PAST_END, SHAKE, ACTS };
static const act acts[ACTS] = {
    [SUM] = {"sum of two rows", run_sum, TIMES, 0},
    [WEIGHT] = {"weight of a row", run_weight, TIMES, 0},
    [UNPACK] = {"unpack of a whole key", run_unpack, 1, "unpack, byte by byte in C"},
    [PACK] = {"pack of a whole key", run_pack, 1, 0},
    [FROM_STREAM] = {"row of a stream", run_from_stream, 1, 0},
    [CHECK] = {"check in planes", run_check, 1, 0},
    [WEIGH] = {"check in planes, counts only", run_weigh, WEIGHTS, 0},
    [CHECK_PACKED] = {"check packed", run_check_packed, 1, 0},
    [WEIGH_PACKED] = {"check packed, counts only", run_weigh_packed, WEIGHTS, 0},
    [SYNDROME] = {"syndrome of salt and text", run_syndrome, 1, 0},
    [CHECK_TEXT] = {"check of salt and text", run_check_text, 1, 0},
    [BUILD] = {"build", run_build, 1, "build, plain steps in C"},
    [DRAW] = {"draw", run_draw, 1, "draw, plain steps in C"},
    [BOTH_SET] = {"bit in both planes (3)", run_both_set, TIMES, 0},
    [PAST_END] = {"bits past 64 rows (4)", run_past_end, TIMES, 0},
    [SHAKE] = {"SHAKE256 of 1 MiB, each byte", run_shake, MESSAGE, 0},
};

/* ---- the clock */

/* of each side: the least own time, for one of the call's many */
typedef struct { double ns[EARLIER + 1]; } figures;

/* how many sides have the call: an earlier revision has build and draw alone */
static int having(const act *c) {
    return c->run == run_build || c->run == run_draw ? SIDES : c->by_steps ? EARLIER : STEPS_O3;
}

/* a side that leaves fewer words than another has zeros after them, as all working space is at the end */
static figures measure(const act *c, const input *a) {
    figures f;
    uint64_t *out[SIDES];
    double began = now();
    size_t again = 1, left = 0;
    int count = having(c);
    for (int s = 0; s < count; s++) f.ns[s] = 1e30, out[s] = room(space(a), 8);
    for (int turn = 0; turn < turns || now() - began < SECONDS * 1e9; turn++) {
        for (int s = 0; s < count; s++) {
            double t = own();
            size_t words = 0;
            for (size_t i = 0; i < again; i++) words = c->run(sides[s], a, out[s]);
            t = (own() - t) / again / c->times;
            if (t < f.ns[s]) f.ns[s] = t;
            if (words > left) left = words;
        }
        if (turn == 0) again = 1 + LEAST / (f.ns[O3] * c->times);
        for (int s = 0; s < count; s++)
            if (*out[s] || memcmp(out[0], out[s], 8 * left)) {
                printf("%s at n %llu: the answer of side %d is %llu, and its results %s ours\n", c->name, (unsigned long long)a->z.n, s, (unsigned long long)*out[s],
                       memcmp(out[0], out[s], 8 * left) ? "differ from" : "are the same as");
                exit(1);
            }
    }
    for (int s = 0; s < count; s++) free(out[s]);
    return f;
}

/* ---- the tables */

/* a number with its thousands parted */
static const char *number(double x) {
    static char text[8][32];
    static int used;
    char *t = text[used++ % 8], plain[32];
    int n = snprintf(plain, sizeof plain, x < 1000 && x != (int)x ? "%.1f" : "%.0f", x), k = 0;
    for (int i = 0; i < n; i++) {
        t[k++] = plain[i];
        if (x >= 1000 && i < n - 1 && (n - 1 - i) % 3 == 0) t[k++] = ',';
    }
    t[k] = 0;
    return t;
}

static void head(const char *size) {
    printf("\n| %-28s | %5s | %13s | %13s | %13s | %5s | %6s | %14s | %14s | %14s | published cycles |\n", "call", size, "ours, ns", "gcc -O3, ns", "native, ns", "/ -O3", "/ nat.", "ours, cycles",
           "gcc -O3", "native");
    printf("|---|---|---|---|---|---|---|---|---|---|---|\n");
}

/* ours beside plain C: the side o3, and native after it */
static void line(const char *name, size_t size, const figures *f, int o3, const char *published) {
    double our = f->ns[OURS], plain = f->ns[o3], native = f->ns[o3 + 1];
    printf("| %-28s | %5s | %13s | %13s | %13s | %5.2f | %6.2f | %14s | %14s | %14s | %s |\n", name, number(size),
           number(our), number(plain), number(native), our / plain, our / native, number(our * steps), number(plain * steps), number(native * steps), published ? published : "");
    fflush(stdout);
}

/* all calls at a published size; the figures are kept in f */
static void published_size(const input *a, const char *const *published, figures *f) {
    for (int i = SUM; i <= DRAW; i++) {
        f[i] = measure(&acts[i], a);
        line(acts[i].name, a->z.n, &f[i], O3, published[i]);
        if (acts[i].by_steps) line(acts[i].by_steps, a->z.n, &f[i], STEPS_O3, 0);
    }
}

/* ours beside plain C, the side o3 and native after it, and how each grew from the size before, if there is one */
static void grown_line(const char *name, const wave_sizes *z, const figures *f, const figures *smaller, int o3) {
    const int shown[] = {OURS, o3, o3 + 1};
    printf("| %-23s | %6s | %5s | %5s | %3s | %3s |", name, number(z->n), number(z->ku), number(z->kv), number(z->gv),
           number(z->gu));
    for (int i = 0; i < 3; i++) {
        printf(" %14s |", number(f->ns[shown[i]]));
        if (smaller) printf(" %7.2f |", f->ns[shown[i]] / smaller->ns[shown[i]]);
        else printf(" %7s |", "");
    }
    printf(" %5.2f | %6.2f |\n", f->ns[OURS] / f->ns[o3], f->ns[OURS] / f->ns[o3 + 1]);
}

/* how three calls grow, each n twice the one before; the largest was timed above */
static void growth(const figures *largest) {
    static const int grown[] = {BUILD, DRAW, CHECK_PACKED};
    wave_sizes z[4];
    figures f[4][ACTS];
    for (int j = 0; j < 4; j++) {
        size_t n = 1072u << j, ku = (2966 * n + 4288) / 8576;
        z[j] = (wave_sizes){n, ku, n / 2 - ku, 40 * n / 8576, 40 * n / 8576, 7668 * n / 8576};
        if (j == 3) memcpy(f[3], largest, sizeof f[3]);
        else {
            input a = make(z[j]);
            for (int i = 0; i < 3; i++) f[j][grown[i]] = measure(&acts[grown[i]], &a);
        }
    }
    printf("\n| %-23s | %6s | %5s | %5s | %3s | %3s | %14s | %7s | %14s | %7s | %14s | %7s | %5s | %6s |\n", "call", "n",
           "k_U", "k_V", "g_V", "g_U", "ours, ns", "growth", "gcc -O3, ns", "growth", "native, ns", "growth", "/ -O3", "/ nat.");
    printf("|---|---|---|---|---|---|---|---|---|---|---|---|---|---|\n");
    for (int i = 0; i < 3; i++) {
        const act *c = &acts[grown[i]];
        for (int j = 0; j < 4; j++) grown_line(c->name, &z[j], &f[j][grown[i]], j ? &f[j - 1][grown[i]] : 0, O3);
        for (int j = 0; j < 4 && c->by_steps; j++)
            grown_line(c->by_steps, &z[j], &f[j][grown[i]], j ? &f[j - 1][grown[i]] : 0, STEPS_O3);
    }
}

/* the row functions at other lengths, one trit less than whole words, 64 rows of them */
static void lengths(void) {
    static const int acted[] = {SUM, WEIGHT, BOTH_SET, PAST_END}, words[] = {4, 67, 256};
    head("words");
    for (int i = 0; i < 4; i++)
        for (int j = 0; j < 3; j++) {
            size_t m = 64 * words[j] - 1;
            input a = {.k = 64, .m = m, .key = rows(64, m, 0), .y = rows(1, m, 0)};
            figures f = measure(&acts[acted[i]], &a);
            line(acts[acted[i]].name, words[j], &f, O3, 0);
        }
}

/* the hash of one long message; the figures are for each of its bytes */
static void hashing(void) {
    input a = {.text = counted(MESSAGE)};
    figures f = measure(&acts[SHAKE], &a);
    head("bytes");
    line(acts[SHAKE].name, MESSAGE, &f, O3, 0);
}

/* build and draw beside those of an earlier revision, at the two published sizes */
static void earlier(const input *a, const figures *f) {
    for (int i = BUILD; i <= DRAW; i++)
        printf("| %-5s | %5s | %13s | %13s | %12.2f |\n", acts[i].name, number(a->z.n), number(f[i].ns[EARLIER]), number(f[i].ns[OURS]), f[i].ns[OURS] / f[i].ns[EARLIER]);
}

int main(int count, char **argument) {
    static const char *const submission[ACTS] = {
        [UNPACK] = "205,829,565 (with a check)", [CHECK] = "1,230,598", [CHECK_PACKED] = "1,230,598",
        [CHECK_TEXT] = "1,230,598", [BUILD] = "14,468,000,043", [DRAW] = "1,160,793,621"};
    static const char *const wavelet[ACTS] = {[BUILD] = "7,403,069,461", [DRAW] = "1,644,281,062"};
    figures first[ACTS], second[ACTS];
    if (count > 1) turns = atoi(argument[1]);
    steps = rate();
    printf("time stamp counter: %.0f MHz; at least %d turns of each call\n", steps * 1000, turns);
    input a = make((wave_sizes){8576, 2966, 1322, 40, 40, 7668}), b = make((wave_sizes){8492, 3558, 2047, 81, 81, 7980});
    head("n");
    published_size(&a, submission, first);
    published_size(&b, wavelet, second);
    growth(first);
    lengths();
    hashing();
    if (SIDES > EARLIER) {
        printf("\n| call  |     n |    before, ns |       now, ns | now / before |\n|---|---|---|---|---|\n");
        earlier(&a, first), earlier(&b, second);
    }
    return 0;
}
