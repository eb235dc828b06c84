/* What the table times: the calls of our archives, and the same calls in plain C, which `plain.c` makes twice. */
#include "../include/wave_checker.h"
#include "../include/wave_signer.h"

/* Exported by the crates `bench` and `bench_check` for this table only. Each slice is a pointer and a count. */
uint64_t bench_sum(uint64_t *ones, size_t, uint64_t *twos, size_t, const uint64_t *so, size_t, const uint64_t *st, size_t, size_t times);
uint64_t bench_weight(const uint64_t *ones, size_t, const uint64_t *twos, size_t);
uint64_t bench_both_set(const uint64_t *ones, size_t, const uint64_t *twos, size_t);
uint64_t bench_past_end(const uint64_t *ones, size_t, const uint64_t *twos, size_t, size_t rows, size_t m);
wave_checked bench_check(wave_held held, uint64_t number, const uint64_t *ones, size_t, const uint64_t *twos, size_t, const uint64_t *y_ones, size_t, const uint64_t *y_twos, size_t,
                         const uint64_t *s_ones, size_t, const uint64_t *s_twos, size_t, uint64_t *work_ones, size_t, uint64_t *work_twos, size_t);
/* the check with all tests made once and the ones and twos worked out so many times */
wave_checked bench_weigh(wave_held held, uint64_t number, const uint64_t *ones, size_t, const uint64_t *twos, size_t, const uint64_t *y_ones, size_t, const uint64_t *y_twos, size_t,
                         const uint64_t *s_ones, size_t, const uint64_t *s_twos, size_t, uint64_t *work_ones, size_t, uint64_t *work_twos, size_t, size_t times);
wave_checked bench_weigh_packed(wave_held held, uint64_t number, const uint64_t *ones, size_t, const uint64_t *twos, size_t, const uint8_t *y, size_t, const uint8_t *s, size_t,
                                uint64_t *work_ones, size_t, uint64_t *work_twos, size_t, size_t times);

/* one side: ours, or plain C at gcc -O3 or at gcc -O3 -march=native; its build and draw take pivots twelve at a time, as ours do */
typedef struct {
    __typeof__(bench_sum) *sum;
    __typeof__(bench_weight) *weight;
    __typeof__(bench_both_set) *both_set;
    __typeof__(bench_past_end) *past_end;
    __typeof__(wave_unpack) *unpack;
    __typeof__(wave_pack) *pack;
    __typeof__(wave_from_stream) *from_stream;
    __typeof__(bench_check) *check;
    __typeof__(wave_check) *check_packed;
    __typeof__(bench_weigh) *weigh;
    __typeof__(bench_weigh_packed) *weigh_packed;
    __typeof__(wave_shake256) *shake256;
    __typeof__(wave_syndrome) *syndrome;
    __typeof__(wave_check_text) *check_text;
    __typeof__(wave_build) *build;
    __typeof__(wave_draw) *draw;
    size_t (*build_work)(wave_sizes), (*draw_work)(wave_sizes); /* the words of one working plane that these two are lent */
    const size_t *made;                                         /* of plain C: the weight of the word that its last draw made */
} side;

extern const side plain_o3, plain_native;

/* build and draw by plain steps, one pivot at a time, and unpack a byte at a time; no other call */
extern const side steps_o3, steps_native;
