// agree ROUNDS: random keys, ciphertexts and secrets of every set through the C interface, against the plain
// implementation (oracle/plain.c). A round makes keys, encapsulates, and decapsulates the ciphertext, one with a bit
// turned, one of random bytes, and the ciphertext with a secret key with a bit turned. It stops at the first difference
// with a line that sabercall can repeat. In further rounds a difference is planted, which has to be found.
#include "sets.h"
#include <plain.h>
#include <stdio.h>
#include <stdlib.h>
#include <string.h>

static uint64_t state = 1;

static uint8_t random_byte(void) {
    state = state * 6364136223846793005u + 1442695040888963407u;
    return (uint8_t)(state >> 56);
}

static void random_bytes(uint8_t *bytes, size_t count) {
    for (size_t i = 0; i < count; i++)
        bytes[i] = random_byte();
}

static void turn_bit(uint8_t *bytes, size_t count) {
    size_t place = ((size_t)random_byte() << 8 | random_byte()) % count;
    bytes[place] ^= (uint8_t)(1 << random_byte() % 8);
}

static void print_hex(const uint8_t *bytes, size_t count) {
    printf(" ");
    for (size_t i = 0; i < count; i++)
        printf("%02x", bytes[i]);
}

static uint8_t seeds[4][32], public_key[2][FIRESABER_PUBLIC_KEY_BYTES], secret_key[2][FIRESABER_SECRET_KEY_BYTES];
static uint8_t ciphertext[2][FIRESABER_CIPHERTEXT_BYTES], sent[2][32], opened[2][32];

// The comparisons of a round are numbered from 1. In the one that is planted, a bit of what the library gave is turned.
enum { COMPARISONS = 3 + 3 + 2 + 1 + 3 * 2 }; // keygen, encaps, decaps, what encaps sent, decaps
static int planted, compared;
static const char *planted_in;

static int same(const char *name, uint8_t *found, const uint8_t *expected, size_t count) {
    if (++compared == planted) {
        planted_in = name;
        found[count - 1] ^= 0x80;
    }
    return memcmp(found, expected, count) == 0;
}

static int accepted(const char *name, uint8_t answer) {
    const uint8_t ok = SABER_OK;
    return same(name, &answer, &ok, 1);
}

struct part {
    const uint8_t *bytes;
    size_t count;
};
static const uint8_t blank[FIRESABER_SECRET_KEY_BYTES];

// Prints the request of a difference that was not planted. Gives 0, for "they differ".
static int differ(const char *call, int set, const struct part *parts, int count) {
    if (planted)
        return 0;
    printf("they differ at this request, its outputs lent as zeros:\n%s %d", call, set);
    for (int i = 0; i < count; i++)
        print_hex(parts[i].bytes, parts[i].count);
    printf("\n");
    return 0;
}
#define DIFFER(call, set, ...)                            \
    differ(call, set, (const struct part[]){__VA_ARGS__}, \
           sizeof((const struct part[]){__VA_ARGS__}) / sizeof(struct part))

// Decapsulates with the first secret key and the first ciphertext. Do they agree?
static int decapsulate(int set) {
    size_t sk = sets[set].secret_key, ct = sets[set].ciphertext;
    uint8_t answer = saber_decaps(set, secret_key[0], sk, ciphertext[0], ct, opened[0], 32);
    plain_decaps(set, secret_key[0], ciphertext[0], opened[1]);
    if (!accepted("the answer of decaps", answer) || !same("the secret of decaps", opened[0], opened[1], 32))
        return DIFFER("decaps", set, {secret_key[0], sk}, {ciphertext[0], ct}, {blank, 32});
    return 1;
}

// Do they agree in a round?
static int round_of(int set) {
    size_t pk = sets[set].public_key, sk = sets[set].secret_key, ct = sets[set].ciphertext;
    compared = 0;
    random_bytes(seeds[0], sizeof seeds);
    uint8_t answer = saber_keygen(set, seeds[0], 32, seeds[1], 32, seeds[2], 32, public_key[0], pk, secret_key[0], sk);
    plain_keygen(set, seeds[0], seeds[1], seeds[2], public_key[1], secret_key[1]);
    if (!accepted("the answer of keygen", answer) || !same("the public key", public_key[0], public_key[1], pk) ||
        !same("the secret key", secret_key[0], secret_key[1], sk))
        return DIFFER("keygen", set, {seeds[0], 32}, {seeds[1], 32}, {seeds[2], 32}, {blank, pk}, {blank, sk});

    answer = saber_encaps(set, public_key[0], pk, seeds[3], 32, ciphertext[0], ct, sent[0], 32);
    plain_encaps(set, public_key[0], seeds[3], ciphertext[1], sent[1]);
    if (!accepted("the answer of encaps", answer) || !same("the ciphertext", ciphertext[0], ciphertext[1], ct) ||
        !same("the secret of encaps", sent[0], sent[1], 32))
        return DIFFER("encaps", set, {public_key[0], pk}, {seeds[3], 32}, {blank, ct}, {blank, 32});

    if (!decapsulate(set))
        return 0;
    if (!same("what encaps sent", sent[0], opened[0], 32))
        return DIFFER("decaps", set, {secret_key[0], sk}, {ciphertext[0], ct}, {blank, 32});
    turn_bit(ciphertext[0], ct);
    if (!decapsulate(set))
        return 0;
    random_bytes(ciphertext[0], ct);
    if (!decapsulate(set))
        return 0;
    memcpy(ciphertext[0], ciphertext[1], ct);
    turn_bit(secret_key[0], sk);
    return decapsulate(set);
}

int main(int count, char **words) {
    long rounds = count == 2 ? atol(words[1]) : 0;
    if (rounds <= 0) {
        fprintf(stderr, "usage: agree ROUNDS\n");
        return 2;
    }
    for (int set = 1; set <= 3; set++)
        for (long i = 0; i < rounds; i++)
            if (!round_of(set))
                return 1;
    if (compared != COMPARISONS) {
        printf("a round makes %d comparisons and not %d\n", compared, COMPARISONS);
        return 1;
    }
    for (planted = 1; planted <= COMPARISONS; planted++)
        for (int set = 1; set <= 3; set++)
            if (round_of(set) || compared != planted) {
                printf("set %d: a difference planted in %s was not found there\n", set, planted_in);
                return 1;
            }
    printf("plain implementation: %ld calls agree, %ld each of keygen and encaps and %ld of decaps; %d planted "
           "differences were found\n",
           18 * rounds, 3 * rounds, 12 * rounds, 3 * COMPARISONS);
    return 0;
}
