// Cycles for the secret of a seed, in each set: the library's gen_secret, its questions included, beside its SHAKE-128
// of as many bytes alone, and beside the same bytes weighed in plain C. The three take turns on the same seeds, and the
// secrets are compared.
#include <saber.h>
#include <stdio.h>
#include <stdlib.h>
#include <string.h>
#include <x86intrin.h>

enum { N = 256, RUNS = 2001, MOST = N * FIRESABER_RANK };
enum { GEN_SECRET, SHAKE128, PLAIN_C, WAYS };

static const struct {
    const char *name;
    int number, rank, mu;
} sets[] = {
    {"LightSaber", SABER_SET_LIGHTSABER, LIGHTSABER_RANK, 10},
    {"Saber", SABER_SET_SABER, SABER_RANK, 8},
    {"FireSaber", SABER_SET_FIRESABER, FIRESABER_RANK, 6},
};

// The ones of a piece of mu/2 bits minus those of the piece that follows.
static void weigh(const uint8_t *bytes, int mu, int8_t *secret, int count) {
    uint32_t buffer = 0, piece = (1u << mu / 2) - 1;
    int held = 0;
    for (int i = 0; i < count; i++) {
        for (; held < mu; held += 8)
            buffer |= (uint32_t)*bytes++ << held;
        secret[i] = (int8_t)(__builtin_popcount(buffer & piece) - __builtin_popcount(buffer >> mu / 2 & piece));
        buffer >>= mu;
        held -= mu;
    }
}

static int rising(const void *x, const void *y) {
    uint64_t a = *(const uint64_t *)x, b = *(const uint64_t *)y;
    return (a > b) - (a < b);
}

int main(void) {
    static uint8_t seed[32], bytes[MOST];
    static int8_t secret[MOST], plain[MOST];
    static uint64_t cycles[WAYS][RUNS];
    printf("%-12s%21s%21s%21s%14s\n", "", "gen_secret", "SHAKE-128 alone", "and plain C", "least/plain C");
    printf("%-12s%12s%9s%12s%9s%12s%9s\n", "secret", "least", "median", "least", "median", "least", "median");
    for (size_t set = 0; set < sizeof sets / sizeof *sets; set++) {
        int count = N * sets[set].rank, mu = sets[set].mu;
        size_t length = (size_t)count * mu / 8;
        for (int run = 0; run < RUNS; run++) {
            seed[run % 32]++;
            uint64_t start = __rdtsc();
            if (saber_gen_secret(sets[set].number, seed, 32, secret, count) != SABER_OK)
                return 1;
            uint64_t middle = __rdtsc();
            saber_shake128(seed, 32, bytes, length);
            uint64_t hashed = __rdtsc();
            weigh(bytes, mu, plain, count);
            uint64_t end = __rdtsc();
            cycles[GEN_SECRET][run] = middle - start;
            cycles[SHAKE128][run] = hashed - middle;
            cycles[PLAIN_C][run] = end - middle;
            if (memcmp(secret, plain, count) != 0)
                return 1;
        }
        printf("%-12s", sets[set].name);
        for (int way = 0; way < WAYS; way++) {
            qsort(cycles[way], RUNS, sizeof *cycles[way], rising);
            printf("%12llu%9llu", (unsigned long long)cycles[way][0], (unsigned long long)cycles[way][RUNS / 2]);
        }
        printf("%14.2f\n", (double)cycles[GEN_SECRET][0] / cycles[PLAIN_C][0]);
    }
    return 0;
}
