/* The exponential series modulo 7: y' = y, y(0) = 1. Seven terms are there; an eighth would have to be divided by 7. */
#include "pealvixen.h"

#include <inttypes.h>
#include <stdio.h>

enum { TERMS = 7 };

int main(void)
{
    const uint32_t a[TERMS] = {1};
    const uint32_t b[TERMS] = {0};
    const uint32_t v[1] = {1};
    uint32_t y[TERMS];
    uint32_t work[16 * TERMS];

    uint64_t answer = pealvixen_system_halving(1, TERMS, 7, a, TERMS, b, TERMS, v, 1, y, TERMS, work, 16 * TERMS);
    if (answer != 0) {
        printf("refused %" PRIu64 "\n", PEALVIXEN_NUMBER(answer));
        return 1;
    }
    for (int k = 0; k < TERMS; k++) {
        printf("y_%d = %" PRIu32 "\n", k, y[k]);
    }

    answer = pealvixen_system_halving(1, TERMS + 1, 7, a, TERMS, b, TERMS, v, 1, y, TERMS, work, 16 * TERMS);
    printf("with %d terms: refused %" PRIu64 "\n", TERMS + 1, PEALVIXEN_NUMBER(answer));

    answer = pealvixen_system_halving(1, TERMS, 7, a, TERMS, b, TERMS - 1, v, 1, y, TERMS, work, 16 * TERMS);
    printf("with a short b: refused %" PRIu64 " at buffer %" PRIu64 "\n", PEALVIXEN_NUMBER(answer),
           PEALVIXEN_FIRST(answer));
    return 0;
}
