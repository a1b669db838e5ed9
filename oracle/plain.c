// Saber after the submission's section 10, with the readings of document 01.
#include "plain.h"

#include <stddef.h>
#include <string.h>

// Parameters: n = 256, q = 2^13, p = 2^10; the rest depends on the set.

enum { N = 256, Q_BITS = 13, P_BITS = 10, L_MAX = 4, MU_MAX = 10, CIPHERTEXT_MAX = 1472 };
enum { POLY_Q = 32 * Q_BITS, POLY_P = 32 * P_BITS }; // bytes of a packed polynomial

typedef struct {
    int l;    // polynomials in a vector
    int mu;   // bits sampled for a coefficient of a secret
    int bits; // of reconciliation data for a coefficient: 2^bits = 2t
} params;

static const params SETS[] = {{2, 10, 3}, {3, 8, 4}, {4, 6, 6}};

typedef struct {
    uint16_t c[N];
} poly;

// Hashes (FIPS 202). Lane (x, y) of the state is a[x + 5 * y].

static const uint64_t ROUND_CONSTANTS[24] = {
    0x0000000000000001, 0x0000000000008082, 0x800000000000808a, 0x8000000080008000, 0x000000000000808b,
    0x0000000080000001, 0x8000000080008081, 0x8000000000008009, 0x000000000000008a, 0x0000000000000088,
    0x0000000080008009, 0x000000008000000a, 0x000000008000808b, 0x800000000000008b, 0x8000000000008089,
    0x8000000000008003, 0x8000000000008002, 0x8000000000000080, 0x000000000000800a, 0x800000008000000a,
    0x8000000080008081, 0x8000000000008080, 0x0000000080000001, 0x8000000080008008};

static inline uint64_t rotl(uint64_t x, int n) { return x << n | x >> (-n & 63); }

static inline void chi(uint64_t e[5], uint64_t b0, uint64_t b1, uint64_t b2, uint64_t b3, uint64_t b4) {
    e[0] = b0 ^ (~b1 & b2);
    e[1] = b1 ^ (~b2 & b3);
    e[2] = b2 ^ (~b3 & b4);
    e[3] = b3 ^ (~b4 & b0);
    e[4] = b4 ^ (~b0 & b1);
}

static inline void keccak_round(uint64_t e[25], const uint64_t a[25], uint64_t constant) {
    uint64_t c[5], d[5];
    for (int x = 0; x < 5; x++)
        c[x] = a[x] ^ a[x + 5] ^ a[x + 10] ^ a[x + 15] ^ a[x + 20];
    for (int x = 0; x < 5; x++)
        d[x] = c[(x + 4) % 5] ^ rotl(c[(x + 1) % 5], 1);

    // The rest of theta, rho and pi: each lane with the place it comes from and its offset.
#define LANE(i, offset) rotl(a[i] ^ d[(i) % 5], offset)
    chi(e, LANE(0, 0), LANE(6, 44), LANE(12, 43), LANE(18, 21), LANE(24, 14));
    chi(e + 5, LANE(3, 28), LANE(9, 20), LANE(10, 3), LANE(16, 45), LANE(22, 61));
    chi(e + 10, LANE(1, 1), LANE(7, 6), LANE(13, 25), LANE(19, 8), LANE(20, 18));
    chi(e + 15, LANE(4, 27), LANE(5, 36), LANE(11, 10), LANE(17, 15), LANE(23, 56));
    chi(e + 20, LANE(2, 62), LANE(8, 55), LANE(14, 39), LANE(15, 41), LANE(21, 2));
#undef LANE
    e[0] ^= constant;
}

static void keccak_f(uint64_t a[25]) {
    uint64_t e[25];
    for (int i = 0; i < 24; i += 2) {
        keccak_round(e, a, ROUND_CONSTANTS[i]);
        keccak_round(a, e, ROUND_CONSTANTS[i + 1]);
    }
}

static void absorb(uint64_t a[25], const uint8_t *block, size_t rate) {
    for (size_t i = 0; i < rate / 8; i++) {
        uint64_t lane = 0;
        for (int j = 0; j < 8; j++)
            lane |= (uint64_t)block[8 * i + j] << 8 * j;
        a[i] ^= lane;
    }
    keccak_f(a);
}

static void sponge(uint8_t *out, size_t out_length, const uint8_t *in, size_t in_length, size_t rate, uint8_t domain) {
    uint64_t a[25] = {0};
    uint8_t block[168] = {0};

    for (; in_length >= rate; in += rate, in_length -= rate)
        absorb(a, in, rate);
    memcpy(block, in, in_length);
    block[in_length] = domain; // the domain bits and the first bit of the padding
    block[rate - 1] |= 0x80;
    absorb(a, block, rate);

    while (out_length > 0) {
        size_t part = out_length < rate ? out_length : rate;
        for (size_t i = 0; i < rate / 8; i++)
            for (int j = 0; j < 8; j++)
                block[8 * i + j] = (uint8_t)(a[i] >> 8 * j);
        memcpy(out, block, part);
        out += part;
        out_length -= part;
        if (out_length > 0)
            keccak_f(a);
    }
}

static void shake128(uint8_t *out, size_t n, const uint8_t *in, size_t len) { sponge(out, n, in, len, 168, 0x1f); }
static void sha3_256(uint8_t out[32], const uint8_t *in, size_t len) { sponge(out, 32, in, len, 136, 0x06); }
static void sha3_512(uint8_t out[64], const uint8_t *in, size_t len) { sponge(out, 64, in, len, 72, 0x06); }

// Packing: coefficient 0 first, least significant bit first, no gaps; 32 * width bytes a polynomial.

static inline void pack(uint8_t *out, const poly *a, int width) {
    uint32_t buffer = 0;
    int held = 0;
    for (int i = 0; i < N; i++) {
        buffer |= (uint32_t)a->c[i] << held;
        for (held += width; held >= 8; held -= 8) {
            *out++ = (uint8_t)buffer;
            buffer >>= 8;
        }
    }
}

static inline void unpack(poly *r, const uint8_t *in, int width) {
    uint32_t buffer = 0;
    int held = 0;
    for (int i = 0; i < N; i++) {
        for (; held < width; held += 8)
            buffer |= (uint32_t)*in++ << held;
        r->c[i] = (uint16_t)(buffer & ((1u << width) - 1));
        buffer >>= width;
        held -= width;
    }
}

// Sampling

static void gen_matrix(poly *a, int l, const uint8_t seed[32]) {
    uint8_t bytes[L_MAX * L_MAX * POLY_Q];
    shake128(bytes, l * l * POLY_Q, seed, 32);
    for (int i = 0; i < l * l; i++)
        unpack(&a[i], bytes + POLY_Q * i, Q_BITS);
}

static inline int hamming_weight(unsigned x) {
    int weight = 0;
    for (int i = 0; i < MU_MAX / 2; i++)
        weight += x >> i & 1;
    return weight;
}

static void gen_secret(poly *s, const params *set, const uint8_t seed[32]) {
    uint8_t bytes[L_MAX * 32 * MU_MAX];
    int mu = set->mu;
    shake128(bytes, set->l * 32 * mu, seed, 32);
    for (int i = 0; i < set->l; i++) {
        unpack(&s[i], bytes + 32 * mu * i, mu);
        for (int j = 0; j < N; j++) {
            unsigned x = s[i].c[j], first = x & ((1u << mu / 2) - 1), following = x >> mu / 2;
            s[i].c[j] = (uint16_t)(hamming_weight(first) - hamming_weight(following)) & 8191;
        }
    }
}

// The ring: modulo X^256 + 1, and modulo 2^16 until the caller reduces.

// The product of a and b, not yet folded by X^256 = -1, is added to c.
static void mul_add(uint16_t c[2 * N], const poly *a, const poly *b) {
    for (int i = 0; i < N; i++)
        for (int j = 0; j < N; j++)
            c[i + j] = (uint16_t)(c[i + j] + (uint32_t)a->c[i] * b->c[j]);
}

// The inner product of b and every step-th polynomial of a.
static void inner_product(poly *r, const poly *a, int step, const poly *b, int l) {
    uint16_t c[2 * N] = {0};
    for (int i = 0; i < l; i++)
        mul_add(c, &a[step * i], &b[i]);
    for (int i = 0; i < N; i++)
        r->c[i] = (uint16_t)(c[i] - c[i + N]);
}

static void round_poly(poly *a) {
    for (int i = 0; i < N; i++)
        a->c[i] = ((a->c[i] + 4) & 8191) >> 3;
}

// Encryption and decryption (algorithms 24 and 25)

static void encrypt(const params *set, const uint8_t *public_key, const uint8_t m[32], const uint8_t seed[32],
                    uint8_t *ciphertext) {
    poly a[L_MAX * L_MAX], s[L_MAX], b[L_MAX], b_prime, v, bit;
    int l = set->l;

    gen_matrix(a, l, public_key + POLY_P * l);
    gen_secret(s, set, seed);
    for (int i = 0; i < l; i++) { // b' = round(A s')
        inner_product(&b_prime, &a[l * i], 1, s, l);
        round_poly(&b_prime);
        pack(ciphertext + POLY_P * i, &b_prime, P_BITS);
    }

    for (int i = 0; i < l; i++)
        unpack(&b[i], public_key + POLY_P * i, P_BITS);
    inner_product(&v, b, 1, s, l);
    unpack(&bit, m, 1);
    for (int i = 0; i < N; i++)
        v.c[i] = ((v.c[i] + 512 * bit.c[i]) & 1023) >> (P_BITS - set->bits);
    pack(ciphertext + POLY_P * l, &v, set->bits);
}

static void decrypt(const params *set, const uint8_t *plain_secret, const uint8_t *ciphertext, uint8_t m[32]) {
    poly s[L_MAX], b[L_MAX], v, data;
    int l = set->l;
    unsigned g = 1u << (P_BITS - set->bits), margin = 256 - g / 2; // M

    for (int i = 0; i < l; i++) {
        unpack(&s[i], plain_secret + POLY_Q * i, Q_BITS);
        unpack(&b[i], ciphertext + POLY_P * i, P_BITS);
    }
    unpack(&data, ciphertext + POLY_P * l, set->bits);
    inner_product(&v, b, 1, s, l);
    for (int i = 0; i < N; i++)
        v.c[i] = ((v.c[i] - g * data.c[i] + margin) & 1023) >> 9;
    pack(m, &v, 1);
}

// The KEM (algorithms 26, 27 and 28)

void plain_keygen(int set_number, const uint8_t matrix_seed[32], const uint8_t secret_seed[32], const uint8_t z[32],
                  uint8_t *public_key, uint8_t *secret_key) {
    const params *set = &SETS[set_number - 1];
    poly a[L_MAX * L_MAX], s[L_MAX], b;
    int l = set->l, public_length = POLY_P * l + 32;

    shake128(public_key + POLY_P * l, 32, matrix_seed, 32);
    gen_matrix(a, l, public_key + POLY_P * l);
    gen_secret(s, set, secret_seed);
    for (int i = 0; i < l; i++) { // b = round(A^T s)
        inner_product(&b, &a[i], l, s, l);
        round_poly(&b);
        pack(public_key + POLY_P * i, &b, P_BITS);
        pack(secret_key + POLY_Q * i, &s[i], Q_BITS);
    }

    secret_key += POLY_Q * l;
    memcpy(secret_key, public_key, public_length);
    sha3_256(secret_key + public_length, public_key, public_length);
    memcpy(secret_key + public_length + 32, z, 32);
}

// What encapsulation and decapsulation share: k and r, one after the other, and the ciphertext of m.
static void encaps_message(const params *set, const uint8_t *public_key, const uint8_t hash_pk[32],
                           const uint8_t m[32], uint8_t *ciphertext, uint8_t kr[64]) {
    uint8_t buf[64];
    memcpy(buf, m, 32);
    memcpy(buf + 32, hash_pk, 32);
    sha3_512(kr, buf, 64);
    encrypt(set, public_key, m, kr + 32, ciphertext);
}

void plain_encaps(int set_number, const uint8_t *public_key, const uint8_t seed[32], uint8_t *ciphertext,
                  uint8_t shared_secret[32]) {
    const params *set = &SETS[set_number - 1];
    uint8_t m[32], hash_pk[32], kr[64];

    sha3_256(m, seed, 32);
    sha3_256(hash_pk, public_key, POLY_P * set->l + 32);
    encaps_message(set, public_key, hash_pk, m, ciphertext, kr);
    sha3_256(kr + 32, ciphertext, POLY_P * set->l + 32 * set->bits); // in the place of r
    sha3_256(shared_secret, kr, 64);
}

void plain_decaps(int set_number, const uint8_t *secret_key, const uint8_t *ciphertext, uint8_t shared_secret[32]) {
    const params *set = &SETS[set_number - 1];
    const uint8_t *public_key = secret_key + POLY_Q * set->l;
    const uint8_t *hash_pk = public_key + POLY_P * set->l + 32;
    const uint8_t *z = hash_pk + 32;
    int length = POLY_P * set->l + 32 * set->bits;
    uint8_t m[32], kr[64], again[CIPHERTEXT_MAX], different = 0;

    decrypt(set, secret_key, ciphertext, m);
    encaps_message(set, public_key, hash_pk, m, again, kr);
    for (int i = 0; i < length; i++)
        different |= again[i] ^ ciphertext[i];

    // k stays in its place if all bytes are equal, else z goes there, without a branch on which.
    uint8_t mask = (uint8_t)-(different != 0);
    for (int i = 0; i < 32; i++)
        kr[i] ^= mask & (kr[i] ^ z[i]);
    sha3_256(kr + 32, ciphertext, length);
    sha3_256(shared_secret, kr, 64);
}
