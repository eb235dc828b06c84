/* Two clocks in nanoseconds, the time stamp counter, and pseudorandom words. */
#include <stddef.h>
#include <stdint.h>
#include <time.h>
#include <x86intrin.h>

static double read_clock(clockid_t which) {
    struct timespec t;
    clock_gettime(which, &t);
    return t.tv_sec * 1e9 + t.tv_nsec;
}

static double now(void) {
    return read_clock(CLOCK_MONOTONIC);
}

/* the time that the processor worked for this program */
static double own(void) {
    return read_clock(CLOCK_PROCESS_CPUTIME_ID);
}

/* steps of the time stamp counter in a nanosecond */
static double rate(void) {
    double t = now();
    uint64_t steps = __rdtsc();
    while (now() - t < 1e8);
    return (__rdtsc() - steps) / (now() - t);
}

static uint64_t chance(void) {
    static uint64_t seed = 88172645463325252u;
    seed ^= seed << 13;
    seed ^= seed >> 7;
    seed ^= seed << 17;
    return seed;
}
