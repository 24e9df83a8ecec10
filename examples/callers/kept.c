/* Keeps a sheet over several calls from C: commands one by one, a line, a list, a command that is refused, one that is taken back, and a plane.
   compare/built capi && mkdir -p target && gcc -I include examples/callers/kept.c crates/capi/out/libcapi.a -o target/kept && target/kept */
#include "bench.h"
#include <inttypes.h>
#include <stdio.h>
#include <stdlib.h>
#include <string.h>

/* The bits of a float. */
static uint32_t bits(float x)
{
    uint32_t n;
    memcpy(&n, &x, sizeof n);
    return n;
}

/* The float of bits. */
static float number(uint32_t n)
{
    float x;
    memcpy(&x, &n, sizeof x);
    return x;
}

static void show(const char *what, const uint32_t answer[BENCH_ANSWER])
{
    if (answer[0] != 0)
        printf("%s: refused by %" PRIu32 "\n", what, answer[0]);
    else if (answer[2] == 4)
        printf("%s: %" PRIu32 "\n", what, answer[3]);
    else if (answer[2] == 3)
        printf("%s: %g\n", what, number(answer[3]));
    else if (answer[2] == 5)
        printf("%s: %g, an exact root\n", what, number(answer[3]));
    else
        printf("%s: row %" PRIu32 " of kind %" PRIu32 " is (%g, %g, %g)\n", what, answer[1], answer[2], number(answer[3]), number(answer[4]), number(answer[5]));
}

int main(void)
{
    size_t words = bench_words();
    uint32_t *sheet = malloc(words * sizeof *sheet);
    if (sheet == NULL || bench_fresh(sheet, words) != 0)
        return 1;

    /* the points (3, 4, 0) and (0, 0, 12) into rows 0 and 1, and their distance */
    uint32_t answer[BENCH_ANSWER];
    bench_step(sheet, words, 1, 0, 0, 0, bits(3), bits(4), bits(0), answer, BENCH_ANSWER);
    show("a point", answer);
    bench_step(sheet, words, 1, 1, 0, 0, bits(0), bits(0), bits(12), answer, BENCH_ANSWER);
    show("a point", answer);
    bench_step(sheet, words, 27, 0, 0, 1, 0, 0, 0, answer, BENCH_ANSWER);
    show("their distance", answer);

    /* row 0 less row 2, which is empty: refused by 4, and row 0 is as it was */
    if (bench_step(sheet, words, 4, 0, 0, 2, 0, 0, 0, answer, BENCH_ANSWER) != 0)
        show("row 0 less row 2", answer);
    bench_step(sheet, words, 32, 0, 0, 0, 0, 0, 0, answer, BENCH_ANSWER);
    show("row 0", answer);

    /* the direction of row 1 into row 0, where row 2 was meant: 33 takes it back, and shows row 0, which is the point again */
    bench_step(sheet, words, 2, 0, 1, 0, 0, 0, 0, answer, BENCH_ANSWER);
    show("a mistyped target", answer);
    bench_step(sheet, words, 33, 0, 0, 0, 0, 0, 0, answer, BENCH_ANSWER);
    show("taken back", answer);

    /* the direction of row 0 into row 2, as a line; its answer is a line too, with a line feed */
    const char *line = "  2  2  0  0          0          0          0";
    uint8_t text[BENCH_ANSWER_LINE];
    bench_respond(sheet, words, (const uint8_t *)line, strlen(line), text, sizeof text);
    printf("the line '%s'\nis answered by '%.42s'\n", line, (const char *)text);

    /* a list: two directions orthogonal to row 2 into rows 3 and 4, the dot product of rows 2 and 4, and the greatest component of row 1 */
    const uint32_t commands[] = {
        24, 3, 2, 0, 0, 0, 0,
        25, 0, 2, 4, 0, 0, 0,
        30, 0, 1, 0, 0, 0, 0,
    };
    uint32_t answers[3 * BENCH_ANSWER];
    uint32_t refusal = bench_run_on(sheet, words, commands, 3 * BENCH_COMMAND, answers, 3 * BENCH_ANSWER);
    if (refusal != 0)
        printf("the list is refused by %" PRIu32 "\n", refusal);
    for (int i = 0; refusal == 0 && i < 3; i++)
        show("in the list", answers + i * BENCH_ANSWER);

    /* the plane through row 0 with the direction in row 2 as its normal into row 5, how far row 1 is over it, and where the line from row 1 along row 2 meets it: u is the number of the plane's row */
    bench_step(sheet, words, 34, 5, 0, 2, 0, 0, 0, answer, BENCH_ANSWER);
    show("a plane, by its normal", answer);
    bench_step(sheet, words, 35, 0, 1, 5, 0, 0, 0, answer, BENCH_ANSWER);
    show("row 1 over the plane", answer);
    bench_step(sheet, words, 36, 6, 1, 2, 5, 0, 0, answer, BENCH_ANSWER);
    show("where the line meets it", answer);

    free(sheet);
    return 0;
}
