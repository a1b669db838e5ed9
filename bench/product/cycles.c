// Cycles for one product of two polynomials modulo 8192: the library's two calls, their questions included, beside a
// plain product in C. The three take turns on the same input, and their products are compared.
#include <saber.h>
#include <stdio.h>
#include <stdlib.h>
#include <string.h>
#include <x86intrin.h>

enum { N = 256, RUNS = 2001 };
enum { SABER_PLAIN, SABER_KARATSUBA, PLAIN_C, PRODUCTS };
static const char *const names[PRODUCTS] = {"poly_mul", "poly_mul_karatsuba", "plain C"};

static uint8_t plain(const uint16_t *a, const uint16_t *b, uint16_t *product) {
    uint16_t sums[2 * N] = {0};
    for (int i = 0; i < N; i++)
        for (int j = 0; j < N; j++)
            sums[i + j] += (uint16_t)((uint32_t)a[i] * b[j]);
    for (int k = 0; k < N; k++)
        product[k] = (uint16_t)(sums[k] - sums[k + N]) % 8192;
    return 0;
}

static uint8_t multiply(int which, const uint16_t *a, const uint16_t *b, uint16_t *product) {
    switch (which) {
    case SABER_PLAIN:
        return saber_poly_mul(8192, a, N, b, N, product, N);
    case SABER_KARATSUBA:
        return saber_poly_mul_karatsuba(8192, a, N, b, N, product, N);
    default:
        return plain(a, b, product);
    }
}

static int rising(const void *x, const void *y) {
    uint64_t a = *(const uint64_t *)x, b = *(const uint64_t *)y;
    return (a > b) - (a < b);
}

int main(void) {
    static uint16_t a[N], b[N], product[PRODUCTS][N];
    static uint64_t cycles[PRODUCTS][RUNS];
    uint32_t state = 1;
    for (int i = 0; i < N; i++) {
        state = state * 1664525 + 1013904223;
        a[i] = state >> 19;
        b[i] = (state >> 3) % 8192;
    }
    for (int run = 0; run < RUNS; run++) {
        for (int which = 0; which < PRODUCTS; which++) {
            uint64_t start = __rdtsc();
            if (multiply(which, a, b, product[which]) != 0)
                return 1;
            cycles[which][run] = __rdtsc() - start;
            if (memcmp(product[which], product[0], sizeof product[0]) != 0)
                return 1;
        }
        a[run % N] = product[0][(run + 1) % N];
    }
    printf("%-20s %9s %9s %15s\n", "product", "least", "median", "least/plain C");
    for (int which = 0; which < PRODUCTS; which++)
        qsort(cycles[which], RUNS, sizeof *cycles[which], rising);
    for (int which = 0; which < PRODUCTS; which++)
        printf("%-20s %9llu %9llu %15.2f\n", names[which], (unsigned long long)cycles[which][0],
               (unsigned long long)cycles[which][RUNS / 2], (double)cycles[which][0] / cycles[PLAIN_C][0]);
    printf("poly_mul_karatsuba / poly_mul, least: %.2f\n",
           (double)cycles[SABER_KARATSUBA][0] / cycles[SABER_PLAIN][0]);
    return 0;
}
