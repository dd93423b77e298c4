/* `m4ri_rows ROWS COLUMNS` fills rows by chance as aea_gauss_bench does, reduces them by M4RI, and prints their digest
   and the processor seconds of the reduction. */

#include <m4ri/m4ri.h>
#include <stdint.h>
#include <stdio.h>
#include <stdlib.h>
#include <time.h>

static uint64_t step(uint64_t x)
{
    return x * 6364136223846793005u + 1442695040888963407u;
}

static uint64_t chance(uint64_t *x)
{
    *x = step(*x);
    uint64_t high = *x >> 32;
    *x = step(*x);
    return (high << 32) | (*x >> 32);
}

int main(int count, char **words)
{
    if (count != 3)
        return 2;
    int rows = atoi(words[1]), wide = atoi(words[2]) / 64;
    mzd_t *matrix = mzd_init(rows, wide * 64);
    uint64_t x = 1, sum = 0;
    for (int i = 0; i < rows; i++)
        for (int k = 0; k < wide; k++)
            matrix->rows[i][k] = chance(&x);
    clock_t start = clock();
    mzd_echelonize(matrix, 1);
    double seconds = (double)(clock() - start) / CLOCKS_PER_SEC;
    for (int i = 0; i < rows; i++) {
        uint64_t digest = 0, any = 0;
        for (int k = 0; k < wide; k++) {
            digest = step(digest ^ matrix->rows[i][k]);
            any |= matrix->rows[i][k];
        }
        if (any)
            sum += digest;
    }
    printf("%llu %.3f\n", (unsigned long long)sum, seconds);
    mzd_free(matrix);
    return 0;
}
