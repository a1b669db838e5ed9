// speed HASH BYTES SECONDS: hash a buffer of BYTES bytes again and again for SECONDS of processor time,
// and print the bytes a second. HASH is sha3-256 or shake128, which here gives 16 bytes as `openssl speed` has it.
#include <saber.h>
#include <stdio.h>
#include <stdlib.h>
#include <string.h>
#include <time.h>

static double processor_time(void) {
    struct timespec t;
    clock_gettime(CLOCK_PROCESS_CPUTIME_ID, &t);
    return t.tv_sec + t.tv_nsec * 1e-9;
}

int main(int argc, char **argv) {
    if (argc != 4) {
        fprintf(stderr, "usage: speed sha3-256|shake128 BYTES SECONDS\n");
        return 2;
    }
    int shake = strcmp(argv[1], "shake128") == 0;
    size_t n = strtoul(argv[2], NULL, 10);
    double limit = strtod(argv[3], NULL);
    uint8_t *input = calloc(n ? n : 1, 1);
    uint8_t output[32];
    double start = processor_time(), spent = 0;
    unsigned long hashed = 0;
    while (spent < limit) {
        for (int i = 0; i < 64; i++) {
            uint8_t r = shake ? saber_shake128(input, n, output, 16) : saber_sha3_256(input, n, output, 32);
            if (r != 0)
                return 1;
        }
        hashed += 64;
        spent = processor_time() - start;
    }
    printf("%.0f\n", hashed * (double)n / spent);
    free(input);
    return 0;
}
