/* What the measurements in C share: operands, and the time of a call.
   Each figure is the least of many short turns, those that are held against each other taken in turn, so that other work on the machine
   disturbs few of them. Independent calls: each has operands of its own. Chained calls: the last bit of an answer goes into the next
   call's operand. */
#include <stdint.h>
#include <stdio.h>
#include <stdlib.h>
#include <string.h>
#include <time.h>

enum { COUNT = 4096, TURNS = 600, BLOCKS = 200 };

static uint32_t x[COUNT], y[COUNT], z[COUNT];
static uint32_t sink;

static uint64_t state = 88172645463325252ull;
static uint32_t draw(void)
{
    state ^= state << 13;
    state ^= state >> 7;
    state ^= state << 17;
    return (uint32_t)(state >> 16);
}

static float f(uint32_t b) { float v; memcpy(&v, &b, 4); return v; }
static uint32_t u(float v) { uint32_t b; memcpy(&b, &v, 4); return b; }

/* One call of a function on the operands a, b, c. */
#define FORM(name) static uint32_t name(uint32_t a, uint32_t b, uint32_t c)

static double now(void)
{
    struct timespec t;
    clock_gettime(CLOCK_MONOTONIC, &t);
    return (double)t.tv_sec + 1e-9 * (double)t.tv_nsec;
}

/* The least nanoseconds a call so far. */
struct figure { double independent, chained; };
static double least(double a, double b) { return a < b ? a : b; }

#define TURN(figure, call)                                                      \
    {                                                                           \
        double start = now();                                                   \
        for (int i = 0; i < COUNT; i++)                                         \
            sink ^= call(x[i], y[i], z[i]);                                     \
        figure.independent = least(figure.independent, (now() - start) * 1e9 / COUNT); \
        uint32_t last = 0;                                                      \
        start = now();                                                          \
        for (int i = 0; i < COUNT; i++)                                         \
            last = call(x[i] ^ (last & 1), y[i], z[i]);                         \
        figure.chained = least(figure.chained, (now() - start) * 1e9 / COUNT);  \
        sink ^= last;                                                           \
    }

static int nan_bits(uint32_t b) { return (b & 0x7fffffff) > 0x7f800000; }
static int same(uint32_t a, uint32_t b) { return a == b || (nan_bits(a) && nan_bits(b)); }

/* Ends the program where the first function's answer on an operand is not that of both others. */
#define AGREE(name, own, other, third)                                          \
    for (int i = 0; i < COUNT; i++) {                                           \
        uint32_t answer = own(x[i], y[i], z[i]);                                \
        if (!same(answer, other(x[i], y[i], z[i])) || !same(answer, third(x[i], y[i], z[i]))) { \
            printf("differs: " name " of %08x %08x %08x\n", x[i], y[i], z[i]);  \
            exit(1);                                                            \
        }                                                                       \
    }
