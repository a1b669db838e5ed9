// secrets SET: every call on content that is marked as undefined, for valgrind's memcheck, which then reports each
// jump and each address that depends on it. tests/secrets.py runs this and compares the reports with a list.
//
// Seeds, messages, hash inputs, coefficients, and doors and times of records are marked, of a door its lower two bytes:
// the upper ones decide which field it has. Keys and ciphertexts are what the calls make of them, the public ones too.
// Outputs are lent defined, so what is undefined afterwards came from a mark. Each of their elements has to be so then,
// except a record's map and set bytes and a wide door's upper bytes, from which a reader's answer follows, and secrets
// that are read from a table. No answer may be undefined, except where Q8 asks about content. Prints each call with the
// number of reports that it gave. tests/interface.py compares the calls, and what their answers follow from, with the
// oracle's table.
#include "check.h"
#include "sets.h"
#include <stdio.h>
#include <stdlib.h>
#include <string.h>
#include <valgrind/memcheck.h>

static const uint16_t data_bounds[] = {16, 8, 16, 64}; // of reconciliation data, by set number

// How many of `count` elements hold an undefined bit.
static size_t undefined(const void *elements, size_t count, size_t size) {
    size_t found = 0;
    for (size_t i = 0; i < count; i++) {
        uint64_t bits = 0;
        CHECK(VALGRIND_GET_VBITS((const char *)elements + i * size, &bits, size) == 1);
        found += bits != 0;
    }
    return found;
}

#define ALL_SECRET(elements, count) CHECK(undefined(elements, count, sizeof *(elements)) == (count))
#define NONE_SECRET(elements, count) CHECK(undefined(elements, count, sizeof *(elements)) == 0)

// What an answer follows from: what is not marked, set numbers, lengths and those bytes of a record, or the content too
// where Q8 asks about it.
enum { BY_LENGTHS, BY_CONTENT };

#define ANSWERS(number, by, name, ...)                            \
    do {                                                          \
        unsigned before = VALGRIND_COUNT_ERRORS;                  \
        uint8_t answer = saber_##name(__VA_ARGS__);               \
        printf("%s %u\n", #name, VALGRIND_COUNT_ERRORS - before); \
        if (by == BY_LENGTHS)                                     \
            NONE_SECRET(&answer, 1);                              \
        VALGRIND_MAKE_MEM_DEFINED(&answer, 1);                    \
        CHECK(answer == (number));                                \
    } while (0)

// A call that writes its last output, each element of it from something marked.
#define WRITES(output, count, by, name, ...)                           \
    do {                                                               \
        VALGRIND_MAKE_MEM_DEFINED(output, (count) * sizeof *(output)); \
        ANSWERS(SABER_OK, by, name, __VA_ARGS__, output, count);       \
        ALL_SECRET(output, count);                                     \
    } while (0)

static void mark_bytes(uint8_t *bytes, size_t count) {
    static uint8_t next;
    for (size_t i = 0; i < count; i++)
        bytes[i] = next += 77;
    VALGRIND_MAKE_MEM_UNDEFINED(bytes, count);
}

static void mark_list(uint16_t *list, uint16_t bound) {
    for (unsigned i = 0; i < SABER_N; i++)
        list[i] = (uint16_t)((4099 * i + 17) % bound);
    VALGRIND_MAKE_MEM_UNDEFINED(list, SABER_N * sizeof *list);
}

// A jump and an address that depend on a marked byte, for memcheck to report.
static volatile uint8_t control;
static void control_jump(const uint8_t *byte) {
    if (*byte == 0)
        control = 1;
}
static void control_address(const uint8_t *byte) {
    static const uint8_t table[256];
    control = table[*byte];
}

// Set 2, which 0 means too, reads the coefficients of a secret from a table. Memcheck reports the address and takes
// what stands there for defined, so the marks end, and a secret that a call hands out is marked again. Behind that all
// sets run the same code, and sets 1 and 3 keep their marks.
static int reads_table(uint32_t set) { return set == 0 || set == 2; }

// Of a secret that a call wrote all is from something marked, or nothing where it was read from the table.
#define SAMPLED(elements, count, set)                                                              \
    do {                                                                                           \
        CHECK(undefined(elements, count, sizeof *(elements)) == (reads_table(set) ? 0 : (count))); \
        VALGRIND_MAKE_MEM_UNDEFINED(elements, (count) * sizeof *(elements));                       \
    } while (0)

static uint8_t seeds[4][SABER_SEED_BYTES], message[SABER_MESSAGE_BYTES];
static uint8_t sent[SABER_SHARED_SECRET_BYTES], opened[SABER_SHARED_SECRET_BYTES];
static uint8_t public_key[FIRESABER_PUBLIC_KEY_BYTES], secret_key[FIRESABER_SECRET_KEY_BYTES];
static uint8_t ciphertext[FIRESABER_CIPHERTEXT_BYTES];

static void scheme(uint32_t set) {
    size_t pk = sets[set].public_key, sk = sets[set].secret_key, ct = sets[set].ciphertext;
    size_t plain = sets[set].plain_secret;
    for (int i = 0; i < 4; i++)
        mark_bytes(seeds[i], 32);
    ANSWERS(SABER_OUTPUT_LENGTH, BY_LENGTHS, keygen, set, seeds[0], 32, seeds[1], 32, seeds[2], 32, public_key, pk,
            secret_key, sk - 1);
    NONE_SECRET(public_key, pk);
    NONE_SECRET(secret_key, sk);
    ANSWERS(SABER_OK, BY_LENGTHS, keygen, set, seeds[0], 32, seeds[1], 32, seeds[2], 32, public_key, pk, secret_key,
            sk);
    ALL_SECRET(public_key, pk);
    SAMPLED(secret_key, plain, set);
    ALL_SECRET(secret_key, sk);

    ANSWERS(SABER_OUTPUT_LENGTH, BY_LENGTHS, encaps, set, public_key, pk, seeds[3], 32, ciphertext, ct, sent, 31);
    NONE_SECRET(ciphertext, ct);
    NONE_SECRET(sent, 32);
    WRITES(sent, 32, BY_LENGTHS, encaps, set, public_key, pk, seeds[3], 32, ciphertext, ct);
    ALL_SECRET(ciphertext, ct);

    ANSWERS(SABER_OUTPUT_LENGTH, BY_LENGTHS, decaps, set, secret_key, sk, ciphertext, ct, opened, 31);
    NONE_SECRET(opened, 32);
    VALGRIND_MAKE_MEM_DEFINED(sent, 32);
    for (int damaged = 0; damaged < 2; damaged++) {
        ciphertext[0] ^= (uint8_t)damaged;
        WRITES(opened, 32, BY_LENGTHS, decaps, set, secret_key, sk, ciphertext, ct);
        VALGRIND_MAKE_MEM_DEFINED(opened, 32);
        CHECK((memcmp(sent, opened, 32) != 0) == damaged);
    }

    mark_bytes(message, 32);
    WRITES(ciphertext, ct, BY_LENGTHS, encrypt, set, public_key, pk, message, 32, seeds[3], 32);
    WRITES(message, 32, BY_LENGTHS, decrypt, set, secret_key, plain, ciphertext, ct);
}

static void layers(uint32_t set) {
    static const uint8_t widths[] = {1, 3, 4, 6, 10, 13};
    static const uint16_t moduli[] = {1024, 8192};
    static uint16_t a[SABER_N], b[SABER_N], list[SABER_N * FIRESABER_RANK * FIRESABER_RANK];
    static int8_t secret[SABER_N * FIRESABER_RANK];
    static uint8_t packed[32 * 13];
    size_t l = sets[set].rank;
    ANSWERS(SABER_OUTPUT_LENGTH, BY_LENGTHS, gen_secret, set, seeds[0], 32, secret, SABER_N * l - 1);
    NONE_SECRET(secret, SABER_N * l);
    ANSWERS(SABER_OK, BY_LENGTHS, gen_secret, set, seeds[0], 32, secret, SABER_N * l);
    SAMPLED(secret, SABER_N * l, set);
    WRITES(list, SABER_N * l * l, BY_LENGTHS, gen_matrix, set, seeds[0], 32);
    for (int i = 0; i < 2; i++) {
        mark_list(a, moduli[i]);
        mark_list(b, moduli[i]);
        WRITES(list, SABER_N, BY_CONTENT, poly_mul, moduli[i], a, SABER_N, b, SABER_N);
        WRITES(list, SABER_N, BY_CONTENT, poly_mul_karatsuba, moduli[i], a, SABER_N, b, SABER_N);
    }
    WRITES(list, SABER_N, BY_CONTENT, round, a, SABER_N);
    mark_list(a, 1024);
    mark_list(b, data_bounds[set]);
    WRITES(list, SABER_N, BY_CONTENT, recon_data, set, a, SABER_N);
    WRITES(list, SABER_N, BY_CONTENT, recover, set, a, SABER_N, b, SABER_N);
    for (int i = 0; i < 6; i++) {
        size_t count = 32 * widths[i];
        mark_list(a, (uint16_t)(1 << widths[i]));
        WRITES(packed, count, BY_CONTENT, pack, widths[i], a, SABER_N);
        WRITES(list, SABER_N, BY_LENGTHS, unpack, widths[i], packed, count);
    }
}

// Records with no door, a short one and a wide one, each with and without a time.
static void records(uint32_t set) {
    static const uint32_t doors[] = {0, 5, 0x30005}, door_sizes[] = {0, 2, 4};
    static uint8_t record[14 + FIRESABER_CIPHERTEXT_BYTES];
    size_t ct = sets[set].ciphertext;
    for (uint8_t fields = 0; fields < 6; fields++) {
        uint8_t has_door = fields % 3 > 0, has_time = fields / 3, has[2] = {0};
        uint32_t door = doors[fields % 3], door_size = door_sizes[fields % 3], door_read = 0;
        uint64_t time = 7, time_read = 0;
        uint32_t set_read = 0;
        size_t start = 2 + door_size + 8 * has_time, count = start + ct; // where the ciphertext starts, and all
        VALGRIND_MAKE_MEM_UNDEFINED(&door, 2);
        VALGRIND_MAKE_MEM_UNDEFINED(&time, sizeof time);
        mark_bytes(ciphertext, ct);
        VALGRIND_MAKE_MEM_DEFINED(record, count);
        ANSWERS(SABER_OUTPUT_LENGTH, BY_LENGTHS, write_record, has_door, door, has_time, time, set, ciphertext, ct,
                record, count - 1);
        NONE_SECRET(record, count);
        ANSWERS(SABER_OK, BY_LENGTHS, write_record, has_door, door, has_time, time, set, ciphertext, ct, record, count);
        NONE_SECRET(record, 1);
        ALL_SECRET(record + 1, 2 * has_door);
        NONE_SECRET(record + 1 + 2 * has_door, door_size - 2 * has_door);
        ALL_SECRET(record + 1 + door_size, 8 * has_time);
        NONE_SECRET(record + start - 1, 1);
        ALL_SECRET(record + start, ct);

        VALGRIND_MAKE_MEM_DEFINED(ciphertext, ct);
        ANSWERS(SABER_OUTPUT_LENGTH, BY_LENGTHS, read_record, record, count, &has[0], &door_read, &has[1], &time_read,
                &set_read, ciphertext, ct - 1);
        NONE_SECRET(ciphertext, ct);
        NONE_SECRET(&door_read, 1);
        NONE_SECRET(&time_read, 1);
        WRITES(ciphertext, ct, BY_LENGTHS, read_record, record, count, &has[0], &door_read, &has[1], &time_read,
               &set_read);
        NONE_SECRET(has, 2);
        NONE_SECRET(&set_read, 1);
        CHECK(undefined(&door_read, 1, sizeof door_read) == has_door);
        CHECK(undefined(&time_read, 1, sizeof time_read) == has_time);
        if (door_size == 4) { // a number for a short field
            memset(record + 3, 0, 2);
            ANSWERS(SABER_RECORD_DOOR, BY_LENGTHS, read_record, record, count, &has[0], &door_read, &has[1], &time_read,
                    &set_read, ciphertext, ct);
        }
    }
}

// Inputs about every rate. The hash of no bytes depends on no mark.
static void hashes(void) {
    static uint8_t input[200], output[200];
    ANSWERS(SABER_OK, BY_LENGTHS, shake128, input, 0, output, sizeof output);
    NONE_SECRET(output, sizeof output);
    for (size_t count = 1; count <= sizeof input; count++) {
        mark_bytes(input, count);
        WRITES(output, sizeof output, BY_LENGTHS, shake128, input, count);
        WRITES(output, 32, BY_LENGTHS, sha3_256, input, count);
        WRITES(output, 64, BY_LENGTHS, sha3_512, input, count);
    }
}

int main(int count, char **words) {
    uint32_t set = count == 2 ? (uint32_t)atol(words[1]) : 4;
    if (set > 3 || !RUNNING_ON_VALGRIND) {
        fprintf(stderr, "usage: valgrind secrets SET\n");
        return 2;
    }
    scheme(set);
    layers(set);
    records(set);
    hashes();
    control_jump(seeds[0]);
    control_address(seeds[0]);
    return 0;
}
