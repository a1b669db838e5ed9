// A round trip of every set through the C interface, with the signed secret beside the packed one of the secret key and
// the ciphertext put into a record and read out of it, and hashes of nothing and to nothing, for valgrind too: each
// buffer is a block of its own with exactly the bytes needed, and outputs are lent uninitialised.
#include "check.h"
#include "sets.h"
#include <stdio.h>
#include <stdlib.h>
#include <string.h>

enum { SEED = SABER_SEED_BYTES, MESSAGE = SABER_MESSAGE_BYTES, SECRET = SABER_SHARED_SECRET_BYTES };

static uint8_t *block(size_t count) {
    uint8_t *bytes = (uint8_t *)malloc(count);
    CHECK(bytes != NULL);
    return bytes;
}

// A seed for tests: never use bytes that can be guessed.
static uint8_t *seed_of(uint8_t first) {
    uint8_t *seed = block(SEED);
    for (int i = 0; i < SEED; i++)
        seed[i] = (uint8_t)(first + i);
    return seed;
}

static const uint32_t doors[] = {0, 0x0102, 65535, 65536, 0x01020304, UINT32_MAX};

// A record with a door, short or wide, and with a time or without.
static void record_trip(uint32_t number, const uint8_t *ciphertext, size_t ct, uint32_t written, uint8_t timed) {
    const uint8_t wide = written > 65535;
    const size_t count = 4 + 2 * wide + 8 * timed + ct;
    uint8_t *record = block(count), *copy = block(ct), has_door = 9, has_time = 9;
    uint64_t time = 9;
    uint32_t door = 9, set = 9;
    CHECK(saber_write_record(1, written, timed, UINT64_MAX, number, ciphertext, ct, record, count) == SABER_OK);
    CHECK(record[0] == (wide ? 28 : 13) + 2 * timed);
    for (int i = 0; i < 2 + 2 * wide; i++)
        CHECK(record[1 + i] == (uint8_t)(written >> 8 * i));
    CHECK(memcmp(record + count - ct, ciphertext, ct) == 0);

    // A refusal leaves all as it was; so is the time where it is missing.
    CHECK(saber_read_record(record, 0, &has_door, &door, &has_time, &time, &set, copy, ct) == SABER_RECORD_MAP);
    CHECK(saber_read_record(record, 3, &has_door, &door, &has_time, &time, &set, copy, ct) == SABER_RECORD_LENGTH);
    CHECK(saber_read_record(record, count, &has_door, &door, &has_time, &time, &set, copy, 0) == SABER_OUTPUT_LENGTH);
    const uint8_t map = record[0], high[2] = {record[3], record[4]};
    record[0] |= 17; // both door bits
    CHECK(saber_read_record(record, count, &has_door, &door, &has_time, &time, &set, copy, ct) == SABER_RECORD_MAP);
    record[0] = map;
    if (wide) { // a number for a short field
        record[3] = record[4] = 0;
        CHECK(saber_read_record(record, count, &has_door, &door, &has_time, &time, &set, copy, 0) == SABER_RECORD_DOOR);
        memcpy(record + 3, high, 2);
    }
    CHECK(has_door == 9 && door == 9 && has_time == 9 && time == 9 && set == 9);
    CHECK(saber_read_record(record, count, &has_door, &door, &has_time, &time, &set, copy, ct) == SABER_OK);
    CHECK(has_door == 1 && door == written && has_time == timed && time == (timed ? UINT64_MAX : 9));
    CHECK(set == (number == 0 ? 2 : number) && memcmp(copy, ciphertext, ct) == 0);
    free(record);
    free(copy);
}

// The secret is signed and small; its residues, packed, are the plain secret. A refusal leaves all as it was.
static void signed_secret(uint32_t number, const uint8_t *seed, const uint8_t *plain_secret) {
    static const int most[] = {4, 5, 4, 3}; // mu/2, by set number
    const size_t count = SABER_N * sets[number].rank, packed_count = sets[number].plain_secret / sets[number].rank;
    int8_t *secret = (int8_t *)block(count);
    uint8_t *packed = block(packed_count);
    CHECK(saber_gen_secret(number, seed, SEED, secret, count) == SABER_OK);
    for (size_t start = 0; start < count; start += SABER_N) {
        uint16_t residues[SABER_N];
        for (size_t i = 0; i < SABER_N; i++) {
            int coefficient = secret[start + i];
            CHECK(-most[number] <= coefficient && coefficient <= most[number]);
            residues[i] = (uint16_t)(coefficient < 0 ? coefficient + 8192 : coefficient);
        }
        CHECK(saber_pack(13, residues, SABER_N, packed, packed_count) == SABER_OK);
        CHECK(memcmp(packed, plain_secret + packed_count * (start / SABER_N), packed_count) == 0);
    }
    memset(secret, INT8_MIN, count);
    CHECK(saber_gen_secret(number, seed, SEED - 1, secret, count) == SABER_SEED_LENGTH);
    CHECK(saber_gen_secret(number, seed, SEED, secret, count - 1) == SABER_OUTPUT_LENGTH);
    for (size_t i = 0; i < count; i++)
        CHECK(secret[i] == INT8_MIN);
    free(secret);
    free(packed);
}

static void round_trip(uint32_t number) {
    const size_t pk = sets[number].public_key, sk = sets[number].secret_key, ct = sets[number].ciphertext;
    const size_t plain = sets[number].plain_secret;
    uint8_t *matrix_seed = seed_of(1), *secret_seed = seed_of(2), *z = seed_of(3), *seed = seed_of(4);
    uint8_t *public_key = block(pk), *secret_key = block(sk), *ciphertext = block(ct);
    uint8_t *sent = block(SECRET), *received = block(SECRET), *message = block(MESSAGE), *hashed = block(MESSAGE);

    CHECK(saber_keygen(number, matrix_seed, SEED, secret_seed, SEED, z, SEED, public_key, pk, secret_key, sk) ==
          SABER_OK);
    CHECK(saber_encaps(number, public_key, pk, seed, SEED, ciphertext, ct, sent, SECRET) == SABER_OK);
    CHECK(saber_decaps(number, secret_key, sk, ciphertext, ct, received, SECRET) == SABER_OK);
    CHECK(memcmp(sent, received, SECRET) == 0);
    signed_secret(number, secret_seed, secret_key);
    for (int i = 0; i < 12; i++)
        record_trip(number, ciphertext, ct, doors[i / 2], i % 2);

    // The message that encapsulation encrypts is the hash of its seed.
    CHECK(saber_decrypt(number, secret_key, plain, ciphertext, ct, message, MESSAGE) == SABER_OK);
    CHECK(saber_sha3_256(seed, SEED, hashed, MESSAGE) == SABER_OK);
    CHECK(memcmp(message, hashed, MESSAGE) == 0);

    size_t count;
    const uint8_t *inside = saber_public_key_of(number, secret_key, sk, &count);
    CHECK(inside == secret_key + plain && count == pk && memcmp(inside, public_key, count) == 0);
    inside = saber_public_key_of(number, secret_key, sk - 1, &count);
    CHECK(inside == secret_key && count == 0);

    // A refusal leaves the output as it was; a damaged ciphertext is no refusal and gives the rejected secret.
    CHECK(saber_decaps(number, secret_key, sk - 1, ciphertext, ct, received, SECRET) == SABER_SECRET_KEY_LENGTH);
    CHECK(saber_decaps(number, secret_key, sk, ciphertext, ct - 1, received, SECRET) == SABER_CIPHERTEXT_LENGTH);
    CHECK(memcmp(sent, received, SECRET) == 0);
    ciphertext[0] ^= 1;
    CHECK(saber_decaps(number, secret_key, sk, ciphertext, ct, received, SECRET) == SABER_OK);
    CHECK(memcmp(sent, received, SECRET) != 0);
    uint8_t *hashed_last = block(2 * SECRET);
    memcpy(hashed_last, z, SECRET);
    CHECK(saber_sha3_256(ciphertext, ct, hashed_last + SECRET, SECRET) == SABER_OK);
    CHECK(saber_sha3_256(hashed_last, 2 * SECRET, sent, SECRET) == SABER_OK);
    CHECK(memcmp(sent, received, SECRET) == 0);

    uint8_t *blocks[] = {matrix_seed, secret_seed, z,        seed,    public_key, secret_key,
                         ciphertext,  sent,        received, message, hashed,     hashed_last};
    for (size_t i = 0; i < sizeof blocks / sizeof *blocks; i++)
        free(blocks[i]);
    printf("%u %s: round trip, signed secret, records\n", (unsigned)number, sets[number].name);
}

// SHA3-256 of no bytes, the first of NIST's vectors.
static const uint8_t hash_of_nothing[32] = {
    0xa7, 0xff, 0xc6, 0xf8, 0xbf, 0x1e, 0xd7, 0x66, 0x51, 0xc1, 0x47, 0x56, 0xa0, 0x61, 0xd6, 0x62,
    0xf5, 0x80, 0xff, 0x4d, 0xe4, 0x3b, 0x49, 0xfa, 0x82, 0xd8, 0x0a, 0x4b, 0x80, 0xf8, 0x43, 0x4a,
};

static void empty_slices(void) {
    const uint8_t *nothing = (const uint8_t *)"";
    uint8_t *digest = block(sizeof hash_of_nothing);
    CHECK(saber_sha3_256(nothing, 0, digest, sizeof hash_of_nothing) == SABER_OK);
    CHECK(memcmp(digest, hash_of_nothing, sizeof hash_of_nothing) == 0);
    CHECK(saber_shake128(nothing, 0, digest, 0) == SABER_OK);
    CHECK(saber_sha3_256(nothing, 0, digest, 0) == SABER_OUTPUT_LENGTH);
    CHECK(memcmp(digest, hash_of_nothing, sizeof hash_of_nothing) == 0);
    free(digest);
    printf("hashes of nothing and to nothing\n");
}

int main(void) {
    for (uint32_t number = 0; number <= 3; number++)
        round_trip(number);
    empty_slices();
    return 0;
}
