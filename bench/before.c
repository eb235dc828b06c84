/* The lengths of working space of an earlier revision, by its own header. */
#include <wave_signer.h>

size_t before_build_work(wave_sizes z) {
    return wave_build_work(z);
}

size_t before_draw_work(wave_sizes z) {
    return wave_draw_work(z);
}
