/* Runs document 01's listing from C: the point (3, 4, 0), its length, its direction.
   compare/built capi && mkdir -p target && gcc -I include examples/callers/list.c crates/capi/out/libcapi.a -o target/list && target/list */
#include "bench.h"
#include <stdio.h>

int main(void)
{
    const uint32_t commands[] = {
        1, 0, 0, 0, 1077936128, 1082130432, 0,
        26, 0, 0, 0, 0, 0, 0,
        2, 1, 0, 0, 0, 0, 0,
    };
    uint32_t answers[18];
    uint32_t refusal = bench_run(commands, 21, answers, 18);
    if (refusal != 0) {
        printf("refused by %u\n", refusal);
        return 1;
    }
    for (int i = 0; i < 18; i += 6)
        printf("%u %u %u %u %u %u\n", answers[i], answers[i + 1], answers[i + 2], answers[i + 3], answers[i + 4], answers[i + 5]);
    return 0;
}
