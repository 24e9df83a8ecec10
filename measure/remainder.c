/* Times `bench_rem` beside the C library's fmodf and Rust's operator `%`, in one run, on the same operands.
   First it compares all answers bit by bit (a NaN matches a NaN). Built and run by ./run. */
#include <math.h>
#include "timing.h"
#include "../include/bench.h"

float rust_rem(float, float);

FORM(own_rem) { (void)c; return u(bench_rem(f(a), f(b))); }
FORM(c_rem) { (void)c; return u(fmodf(f(a), f(b))); }
FORM(rust_rem_of) { (void)c; return u(rust_rem(f(a), f(b))); }

static uint32_t from(uint32_t low, uint32_t high) { return low + draw() % (high - low + 1); }

/* A sign and a significand by the draw, with the exponent field e. */
static uint32_t normal(uint32_t e) { return (draw() & 0x807fffff) | e << 23; }

/* A sign and up to 23 bits, at least one of them set. */
static uint32_t subnormal(void) { return (draw() & 0x80000000) | (draw() & 0x7fffff) >> from(0, 20) | 1; }

/* The dividend's exponent less the divisor's, from low to high; the divisor's exponent field lies where both fit. */
struct class { const char *label; int low, high; uint32_t least, most; };
static const struct class classes[] = {
    {"exponents within 3", -3, 3, 100, 153},
    {"a below b", -20, -1, 100, 153},
    {"any bits", 0, 0, 0, 0},
    {"30 to 40 apart", 30, 40, 100, 153},
    {"100 to 250 apart", 100, 250, 1, 4},
    {"both subnormal", 0, 0, 0, 1},
};
enum { CLASSES = sizeof classes / sizeof classes[0], ANY = 2, SUBNORMAL = 5 };

static void fill(int class)
{
    const struct class *k = &classes[class];
    for (int i = 0; i < COUNT; i++) {
        uint32_t e = from(k->least, k->most);
        int apart = k->low + (int)from(0, (uint32_t)(k->high - k->low));
        x[i] = class == ANY ? draw() : class == SUBNORMAL ? subnormal() : normal((uint32_t)((int)e + apart));
        y[i] = class == ANY ? draw() : class == SUBNORMAL ? subnormal() : normal(e);
    }
}

int main(void)
{
    for (int t = 0; t < BLOCKS; t++) {
        fill(t % CLASSES);
        AGREE("remainder", own_rem, c_rem, rust_rem_of)
    }
    printf("\nThe remainders of the three are equal on %d operands.\n", BLOCKS * COUNT);
    printf("\nRemainder, ns a call, independent / chained:\n\n");
    printf("| operands | bench | `fmodf` | Rust's `%%` | bench to `fmodf` | bench to Rust's `%%` |\n|---|---|---|---|---|---|\n");
    for (int class = 0; class < CLASSES; class++) {
        struct figure own = {1e9, 1e9}, c = own, rust = own;
        fill(class);
        for (int t = 0; t < TURNS; t++) {
            TURN(own, own_rem)
            TURN(c, c_rem)
            TURN(rust, rust_rem_of)
        }
        printf("| %s | %.1f / %.1f | %.1f / %.1f | %.1f / %.1f | %.2f / %.2f | %.2f / %.2f |\n", classes[class].label, own.independent, own.chained,
               c.independent, c.chained, rust.independent, rust.chained, own.independent / c.independent, own.chained / c.chained,
               own.independent / rust.independent, own.chained / rust.chained);
    }
    return sink == 1 ? 2 : 0;
}
