// Every call that writes something, with its arguments; tests/interface.py holds the list against the oracle's table.
// What one call writes is what others take, so that calls may be made in any order, also on zeros once a record is
// begun.
#ifndef ALL_CALLS_H
#define ALL_CALLS_H

#include "sets.h"

enum { COEFFICIENTS = FIRESABER_RANK * SABER_N };
static uint32_t set;
static int damaged; // which ciphertext is decapsulated: 0 the one that was sent, 1 with a bit turned

static uint8_t seeds[4][32], public_key[FIRESABER_PUBLIC_KEY_BYTES], secret_key[FIRESABER_SECRET_KEY_BYTES];
static uint8_t ciphertext[2][FIRESABER_CIPHERTEXT_BYTES], shared[2][32];
static uint8_t m[2][32], kr[2][64]; // m, and k and r, of each ciphertext
static uint8_t bytes[416], digest[64];
static uint16_t matrix[FIRESABER_RANK * COEFFICIENTS], a[SABER_N], b[SABER_N], c[SABER_N];
static int8_t secret[COEFFICIENTS];
static uint8_t record[14 + FIRESABER_CIPHERTEXT_BYTES], has_door, has_time;
static uint64_t hour;
static uint32_t door, number;

// A form is the name of a call, the secrets that it knows, and its arguments.
enum { SECRET_SEED = 1, Z = 2, KEY = 4, SEED = 8, M = 16, K = 32, R = 64, SHARED = 128 };
enum { DECAPS = KEY | Z | M | K | R | SHARED };
#define ALL(x) x, sizeof(x) / sizeof *(x)
#define OF_SET(x) x, sets[set].x
#define CALLS(DO)                                                                                                      \
    DO(keygen, SECRET_SEED | Z | KEY, set, ALL(seeds[0]), ALL(seeds[1]), ALL(seeds[2]), OF_SET(public_key),            \
       OF_SET(secret_key))                                                                                             \
    DO(encaps, SEED | M | K | R | SHARED, set, OF_SET(public_key), ALL(seeds[3]), ciphertext[0], sets[set].ciphertext, \
       ALL(shared[0]))                                                                                                 \
    DO(decaps, DECAPS, set, OF_SET(secret_key), ciphertext[damaged], sets[set].ciphertext, ALL(shared[damaged]))       \
    DO(encrypt, M | R, set, OF_SET(public_key), ALL(m[0]), kr[0] + 32, 32, ciphertext[0], sets[set].ciphertext)        \
    DO(decrypt, KEY | M, set, secret_key, sets[set].plain_secret, ciphertext[0], sets[set].ciphertext, ALL(m[0]))      \
    DO(gen_matrix, 0, set, ALL(seeds[0]), matrix, SABER_N *sets[set].rank *sets[set].rank)                             \
    DO(gen_secret, SECRET_SEED | KEY, set, ALL(seeds[1]), secret, SABER_N * sets[set].rank)                            \
    DO(poly_mul, 0, 8192, matrix, SABER_N, matrix + SABER_N, SABER_N, ALL(a))                                          \
    DO(poly_mul_karatsuba, 0, 8192, matrix, SABER_N, matrix + SABER_N, SABER_N, ALL(a))                                \
    DO(round, 0, ALL(a), ALL(b))                                                                                       \
    DO(recon_data, 0, set, ALL(b), ALL(c))                                                                             \
    DO(recover, 0, set, ALL(b), ALL(c), ALL(a))                                                                        \
    DO(pack, 0, 13, matrix, SABER_N, ALL(bytes))                                                                       \
    DO(unpack, 0, 13, ALL(bytes), ALL(a))                                                                              \
    DO(shake128, 0, ALL(secret_key), ALL(bytes))                                                                       \
    DO(sha3_256, 0, ALL(secret_key), digest, 32)                                                                       \
    DO(sha3_512, 0, ALL(secret_key), ALL(digest))                                                                      \
    DO(write_record, 0, 1, 65536, 1, 3, set, ciphertext[0], sets[set].ciphertext, record, 14 + sets[set].ciphertext)   \
    DO(read_record, 0, record, 14 + sets[set].ciphertext, &has_door, &door, &has_time, &hour, &number, ciphertext[0],  \
       sets[set].ciphertext)

// The start of a record with a wide door and a time; the rest is its ciphertext.
static void begin_record(void) {
    record[0] = 30;
    record[3] = 1;
    record[13] = (uint8_t)set;
}

#endif
