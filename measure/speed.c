/* Times the bench's scalar functions beside Berkeley SoftFloat 3 and the hardware, in one run, on the same operands.
   First it compares all answers bit by bit (a NaN matches a NaN). Built and run by ./run. */
#include <math.h>
#include "softfloat.h"
#include "timing.h"
#include "../include/bench.h"

#define SOFT(b) ((float32_t){b})
#define HARD __attribute__((target("fma,sse4.1")))

/* One call of each function, by whom it is answered. */
FORM(own_sqrt) { (void)b; (void)c; return u(bench_sqrt(f(a & 0x7fffffff))); }
FORM(soft_sqrt) { (void)b; (void)c; return f32_sqrt(SOFT(a & 0x7fffffff)).v; }
HARD FORM(hard_sqrt) { (void)b; (void)c; return u(__builtin_sqrtf(f(a & 0x7fffffff))); }
FORM(own_mul_add) { return u(bench_mul_add(f(a), f(b), f(c))); }
FORM(soft_mul_add) { return f32_mulAdd(SOFT(a), SOFT(b), SOFT(c)).v; }
HARD FORM(hard_mul_add) { return u(__builtin_fmaf(f(a), f(b), f(c))); }
FORM(own_trunc) { (void)b; (void)c; return u(bench_trunc(f(a))); }
FORM(soft_trunc) { (void)b; (void)c; return f32_roundToInt(SOFT(a), softfloat_round_minMag, 0).v; }
HARD FORM(hard_trunc) { (void)b; (void)c; return u(__builtin_truncf(f(a))); }
FORM(own_floor) { (void)b; (void)c; return u(bench_floor(f(a))); }
FORM(soft_floor) { (void)b; (void)c; return f32_roundToInt(SOFT(a), softfloat_round_min, 0).v; }
HARD FORM(hard_floor) { (void)b; (void)c; return u(__builtin_floorf(f(a))); }
FORM(own_round) { (void)b; (void)c; return u(bench_round(f(a))); }
FORM(soft_round) { (void)b; (void)c; return f32_roundToInt(SOFT(a), softfloat_round_near_even, 0).v; }
HARD FORM(hard_round) { (void)b; (void)c; return u(__builtin_rintf(f(a))); }

#define REPORT(name, label)                                                     \
    {                                                                           \
        struct figure own = {1e9, 1e9}, soft = own, hard = own;                 \
        for (int t = 0; t < TURNS; t++) {                                       \
            TURN(own, own_##name)                                               \
            TURN(soft, soft_##name)                                             \
            TURN(hard, hard_##name)                                             \
        }                                                                       \
        printf("| %s | %.1f / %.1f | %.1f / %.1f | %.1f / %.1f | %.2f / %.2f |\n", label, own.independent, own.chained, soft.independent, \
               soft.chained, hard.independent, hard.chained, own.independent / soft.independent, own.chained / soft.chained); \
    }

#define COMPARE(name) AGREE(#name, own_##name, soft_##name, hard_##name)

/* `ordinary`: exponents within 2^-27 and 2^27 of 1. Otherwise any bits: subnormals, infinities and NaNs among them. */
static void fill(int ordinary)
{
    uint32_t *all[3] = {x, y, z};
    for (int k = 0; k < 3; k++)
        for (int i = 0; i < COUNT; i++) {
            uint32_t b = draw();
            all[k][i] = ordinary ? (b & 0x807fffff) | ((100 + draw() % 54) << 23) : b;
        }
}

int main(void)
{
    for (int t = 0; t < BLOCKS; t++) {
        fill(t % 2);
        COMPARE(sqrt) COMPARE(mul_add) COMPARE(trunc) COMPARE(floor) COMPARE(round)
    }
    printf("The answers of the three are equal on %d operands of each function.\n", BLOCKS * COUNT);
    for (int ordinary = 1; ordinary >= 0; ordinary--) {
        fill(ordinary);
        printf("\n%s, ns a call, independent / chained:\n\n", ordinary ? "Ordinary operands" : "Any bits");
        printf("| function | bench | SoftFloat | hardware | bench to SoftFloat |\n|---|---|---|---|---|\n");
        REPORT(sqrt, "root")
        REPORT(mul_add, "fused product")
        REPORT(trunc, "`trunc`")
        REPORT(floor, "`floor`")
        REPORT(round, "`round`")
    }
    return sink == 1 ? 2 : 0;
}
