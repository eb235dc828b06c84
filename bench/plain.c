/* The calls in plain C, one file to the compiler so that nothing is inlined into the table. It is compiled twice, and
   SIDE and STEPS are the names of what it then exports. */
#include "plain.h"
#include "grid_c.h"
#include "rows_c.c"
#include "packing_c.c"
#include "shake_c.c"
#include "check_c.c"
#include "build_c.c"
#include "draw_c.c"
#include "fast_c.h"
#include "fast_build_c.c"
#include "fast_draw_c.c"

const side SIDE = {c_sum, c_weight, c_both_set, c_past_end, c_unpack, c_pack, c_from_stream, c_check, c_check_packed,
                   c_weigh, c_weigh_packed, c_shake256, c_syndrome, c_check_text, fast_build, fast_draw, wave_build_work,
                   wave_draw_work, &made};
const side STEPS = {.unpack = c_unpack_bytes, .build = c_build, .draw = c_draw, .build_work = wave_build_work,
                    .draw_work = wave_draw_work};
