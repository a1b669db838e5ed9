// keygen, encaps and decaps of this library and of the plain implementation, for run.py:
//   calls time          cycles and nanoseconds of each call, the two taking turns on the same input
//   calls stack         the bytes of stack that each call of the library needs
//   calls one SET CALL  that call of the library once, for callgrind
//   calls key SET       the key pair of the seeds 00 00 .., 01 01 .. and 02 02 .., in hex
#define _GNU_SOURCE
#include <stdio.h>
#include <stdlib.h>
#include <string.h>
#include <time.h>
#include <x86intrin.h>

#include "own_stack.h"
#include "plain.h"
#include "sets.h"

enum { WARM = 50, RUNS = 1001 };

enum { KEYGEN, ENCAPS, DECAPS, CALLS };
static const char *const names[CALLS] = {"keygen", "encaps", "decaps"};

// What the calls of one implementation read and write.
struct place {
    uint8_t seeds[4][32];
    uint8_t public_key[FIRESABER_PUBLIC_KEY_BYTES], secret_key[FIRESABER_SECRET_KEY_BYTES],
        ciphertext[FIRESABER_CIPHERTEXT_BYTES];
    uint8_t sent[32], opened[32];
};
static struct place ours, theirs;

static void fail(const char *what) {
    fprintf(stderr, "calls: %s\n", what);
    exit(1);
}

static void library(int set, int call) {
    size_t pk = sets[set].public_key, sk = sets[set].secret_key, ct = sets[set].ciphertext;
    struct place *p = &ours;
    uint8_t answer = SABER_OK;
    if (call == KEYGEN)
        answer =
            saber_keygen(set, p->seeds[0], 32, p->seeds[1], 32, p->seeds[2], 32, p->public_key, pk, p->secret_key, sk);
    if (call == ENCAPS)
        answer = saber_encaps(set, p->public_key, pk, p->seeds[3], 32, p->ciphertext, ct, p->sent, 32);
    if (call == DECAPS)
        answer = saber_decaps(set, p->secret_key, sk, p->ciphertext, ct, p->opened, 32);
    if (answer != SABER_OK)
        fail("a call refused");
}

static void plain(int set, int call) {
    struct place *p = &theirs;
    if (call == KEYGEN)
        plain_keygen(set, p->seeds[0], p->seeds[1], p->seeds[2], p->public_key, p->secret_key);
    if (call == ENCAPS)
        plain_encaps(set, p->public_key, p->seeds[3], p->ciphertext, p->sent);
    if (call == DECAPS)
        plain_decaps(set, p->secret_key, p->ciphertext, p->opened);
}

static uint64_t nanoseconds(void) {
    struct timespec t;
    clock_gettime(CLOCK_MONOTONIC, &t);
    return (uint64_t)t.tv_sec * 1000000000 + (uint64_t)t.tv_nsec;
}

static int rising(const void *x, const void *y) {
    uint64_t a = *(const uint64_t *)x, b = *(const uint64_t *)y;
    return (a > b) - (a < b);
}

// A line: implementation, set, call, least and median cycles.
static void print_cycles(const char *who, int set, int call, uint64_t *cycles) {
    qsort(cycles, RUNS, sizeof *cycles, rising);
    printf("%s %d %s %llu %llu\n", who, set, names[call], (unsigned long long)cycles[0],
           (unsigned long long)cycles[RUNS / 2]);
}

static void time_calls(void) {
    static uint64_t mine[CALLS][RUNS], other[CALLS][RUNS];
    uint64_t cycles = __rdtsc(), time = nanoseconds();
    for (int set = 1; set <= 3; set++) {
        for (int run = -WARM; run < RUNS; run++) {
            ours.seeds[run & 3][run & 31]++;
            memcpy(theirs.seeds, ours.seeds, sizeof ours.seeds);
            for (int call = 0; call < CALLS; call++) {
                uint64_t start = __rdtsc();
                library(set, call);
                uint64_t middle = __rdtsc();
                plain(set, call);
                uint64_t end = __rdtsc();
                if (run >= 0) {
                    mine[call][run] = middle - start;
                    other[call][run] = end - middle;
                }
            }
            if (memcmp(&ours, &theirs, sizeof ours) != 0)
                fail("the two differ");
            if (memcmp(ours.sent, ours.opened, 32) != 0)
                fail("decaps gave another secret");
        }
        for (int call = 0; call < CALLS; call++) {
            print_cycles("library", set, call, mine[call]);
            print_cycles("plain", set, call, other[call]);
        }
    }
    printf("megahertz %.0f\n", 1e3 * (double)(__rdtsc() - cycles) / (double)(nanoseconds() - time));
}

static int the_set, the_call;

static void on_stack(void) {
    if (the_call < CALLS)
        library(the_set, the_call);
}

// The bytes of a painted stack that a call leaves changed.
static size_t depth_of(int set, int call) {
    the_set = set;
    the_call = call;
    run_on_stack(on_stack);
    return depth();
}

static void print_stacks(void) {
    for (int set = 1; set <= 3; set++)
        for (int call = 0; call < CALLS; call++)
            printf("stack %d %s %zu\n", set, names[call], depth_of(set, call) - depth_of(set, CALLS));
}

static void print_hex(const uint8_t *bytes, size_t count) {
    for (size_t i = 0; i < count; i++)
        printf("%02x", bytes[i]);
}

int main(int count, char **words) {
    for (int i = 0; i < 4; i++)
        memset(ours.seeds[i], i, 32);
    if (count == 2 && strcmp(words[1], "time") == 0)
        time_calls();
    else if (count == 2 && strcmp(words[1], "stack") == 0)
        print_stacks();
    else if (count == 4 && strcmp(words[1], "one") == 0) {
        int last = atoi(words[3]);
        for (int call = 0; call <= last; call++)
            library(atoi(words[2]), call);
    } else if (count == 3 && strcmp(words[1], "key") == 0) {
        int set = atoi(words[2]);
        library(set, KEYGEN);
        print_hex(ours.public_key, sets[set].public_key);
        printf(" ");
        print_hex(ours.secret_key, sets[set].secret_key);
        printf("\n");
    } else
        fail("bad usage");
    return 0;
}
