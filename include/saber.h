// Saber, a key encapsulation, in the three parameter sets of its submission.
//
// A slice is a pointer and then a count of elements: bytes, signed numbers of 8 bits, or coefficients of 16 bits, which start at an even
// address. A number that is handed back is lent as a pointer to one and is an output too. Each call asks its questions in the order of
// `enum saber_answer`, all but saber_read_record, which has an order of its own. It answers 0 with its outputs written, or the first
// refusal with no output changed, whatever the numbers, counts and contents. Calls keep nothing from one to the next and may run in
// several threads.
//
// What no call can test, and the caller sees to:
//
// - NO POINTER IS NULL, also where its count is 0. In C++ mind `data()` of an empty vector.
// - COUNTS ARE TRUE: a count is of elements, not of bytes, and no greater than what the pointer points to. A call that is refused for its
//   set, width or modulus, or for the count of an input, reads no buffer; saber_read_record alone reads the start of its record first. Any
//   other call may read and write as many elements as its counts say.
// - AN OUTPUT OVERLAPS NO OTHER BUFFER of its call, so no call works in place; what it would write then is not defined. Inputs may overlap.
// - SEEDS, z among them, ARE FRESH, UNPREDICTABLE AND USED ONCE: 32 bytes that the system's generator (getrandom, getentropy) gives for
//   this one call, kept secret and erased after it. The calls below say what goes wrong otherwise.
// - SECRETS STAY ON THE STACK. No call clears what it leaves below its caller's frame, less than SABER_STACK_BYTES. To clear it, call
//   saber_clear_stack() right after the call, from the same function, or run the calls on a stack of your own and erase that.
// - A THREAD THAT MAKES CALLS HAS A STACK OF SABER_THREAD_STACK_BYTES OR MORE, enough for each call, its clearing and what glibc keeps on
//   the same stack, the thread's descriptor and small thread-local storage. Measured under glibc on x86-64, with all that: 36 KiB are
//   enough for saber_keygen, saber_encaps, saber_decaps and saber_encrypt, 24 for saber_decrypt, 20 for any other call, and 44 with the
//   clearing.
// - SET 2 READS A TABLE OF 256 BYTES AT PLACES THAT SECRET BYTES DECIDE, in saber_keygen, saber_encaps, saber_decaps, saber_encrypt and
//   saber_gen_secret. Whoever can watch the processor's cache learns something about them. Sets 1 and 3 have no such address.
#ifndef SABER_H
#define SABER_H

#include <stddef.h>
#include <stdint.h>

#ifdef __cplusplus
extern "C" {
#endif

enum saber_answer {
    SABER_OK = 0,
    SABER_UNKNOWN_SET = 1,        // the set number is not 0, 1, 2 or 3, or a record's set byte not 1, 2 or 3
    SABER_UNKNOWN_NUMBER = 2,     // the packing width is not 1, 3, 4, 6, 10 or 13, or the modulus not 1024 or 8192
    SABER_SEED_LENGTH = 3,        // a seed, z or a message is not 32 bytes
    SABER_PUBLIC_KEY_LENGTH = 4,  // the public key does not have its set's length
    SABER_SECRET_KEY_LENGTH = 5,  // the secret key, or plain secret, does not have its set's length
    SABER_CIPHERTEXT_LENGTH = 6,  // the ciphertext does not have its set's length
    SABER_INPUT_LENGTH = 7,       // an input list is not 256 coefficients, or a string to unpack not 32 x width bytes
    SABER_COEFFICIENT_RANGE = 8,  // a coefficient is not below its modulus
    SABER_OUTPUT_LENGTH = 9,      // an output does not have the length of its result
    SABER_RECORD_MAP = 10,        // the record is empty, or its map has bits that no field has, has both doors, or lacks set or ciphertext
    SABER_RECORD_LENGTH = 11,     // the record does not have the length that its map and set byte require
    SABER_RECORD_DOOR = 12        // the record's door of 4 bytes is 65535 or less
};

// Set numbers. 0 means the same as 2.
enum { SABER_SET_DEFAULT = 0, SABER_SET_LIGHTSABER = 1, SABER_SET_SABER = 2, SABER_SET_FIRESABER = 3 };

// Sizes of every set: coefficients of a polynomial, and bytes.
enum { SABER_N = 256, SABER_SEED_BYTES = 32, SABER_MESSAGE_BYTES = 32, SABER_SHARED_SECRET_BYTES = 32 };

// Sizes of each set in bytes, and its rank, the count of polynomials in a vector. A plain secret is the start of a secret key.
enum {
    LIGHTSABER_RANK = 2,
    LIGHTSABER_PUBLIC_KEY_BYTES = 672,
    LIGHTSABER_SECRET_KEY_BYTES = 1568,
    LIGHTSABER_PLAIN_SECRET_BYTES = 832,
    LIGHTSABER_CIPHERTEXT_BYTES = 736
};
enum {
    SABER_RANK = 3,
    SABER_PUBLIC_KEY_BYTES = 992,
    SABER_SECRET_KEY_BYTES = 2304,
    SABER_PLAIN_SECRET_BYTES = 1248,
    SABER_CIPHERTEXT_BYTES = 1088
};
enum {
    FIRESABER_RANK = 4,
    FIRESABER_PUBLIC_KEY_BYTES = 1312,
    FIRESABER_SECRET_KEY_BYTES = 3040,
    FIRESABER_PLAIN_SECRET_BYTES = 1664,
    FIRESABER_CIPHERTEXT_BYTES = 1472
};

// The stack

enum { SABER_STACK_BYTES = 32768, SABER_THREAD_STACK_BYTES = 65536 };

// What overwrites needs a frame of its own where the call had its frame. So it is a function that is called through a volatile pointer:
// compilers cannot know which one it is, and do not inline it. A volatile write after the call keeps them from leaving the caller's frame
// first and jumping to the function. gcc, clang and MSVC are told too what to inline and what not.
#if defined __GNUC__
#define SABER_INLINED static inline __attribute__((always_inline))
#define SABER_NOT_INLINED static __attribute__((noinline, unused))
#elif defined _MSC_VER
#define SABER_INLINED static __forceinline
#define SABER_NOT_INLINED static __declspec(noinline)
#else
#define SABER_INLINED static inline
#define SABER_NOT_INLINED static inline
#endif

// A part of saber_clear_stack, not called otherwise.
SABER_NOT_INLINED void saber_overwrite_stack(void) {
    volatile uint64_t room[SABER_STACK_BYTES / 8];
    for (size_t i = 0; i < sizeof room / sizeof *room; i++)
        room[i] = 0;
}

// Overwrites SABER_STACK_BYTES below its caller's frame, and with them what a call left that the same function made just before.
SABER_INLINED void saber_clear_stack(void) {
    void (*volatile overwrite)(void) = saber_overwrite_stack;
    overwrite();
    overwrite = NULL;
}

#undef SABER_INLINED
#undef SABER_NOT_INLINED

// Key encapsulation

// Makes a key pair from two seeds and z, the bytes of which rejected secrets are made, 32 bytes each. Whoever guesses the secret seed has
// the secret key. Whoever guesses z can tell a rejected secret from a shared one. With a matrix seed used twice, work against one key also
// serves against the other. Refusals: 1, 3, 9.
uint8_t saber_keygen(uint32_t set, const uint8_t *matrix_seed, size_t matrix_seed_count, const uint8_t *secret_seed,
                     size_t secret_seed_count, const uint8_t *z, size_t z_count, uint8_t *public_key, size_t public_key_count,
                     uint8_t *secret_key, size_t secret_key_count);

// Encapsulation: from a public key and a seed of 32 bytes, a ciphertext and the shared secret of 32 bytes. Whoever guesses the seed has the
// shared secret, and a seed used twice with one key gives the same secret twice. Refusals: 1, 3, 4, 9.
uint8_t saber_encaps(uint32_t set, const uint8_t *public_key, size_t public_key_count, const uint8_t *seed, size_t seed_count,
                     uint8_t *ciphertext, size_t ciphertext_count, uint8_t *shared_secret, size_t shared_secret_count);

// Decapsulation: the shared secret of 32 bytes. A ciphertext that was not made for this key is no refusal: it gives the rejected secret,
// SHA3-256 of z followed by SHA3-256 of the ciphertext. Refusals: 1, 5, 6, 9.
uint8_t saber_decaps(uint32_t set, const uint8_t *secret_key, size_t secret_key_count, const uint8_t *ciphertext,
                     size_t ciphertext_count, uint8_t *shared_secret, size_t shared_secret_count);

// Where the public key starts in a secret key of secret_key_count bytes, and how many bytes it has. Both are 0 where the set is unknown or
// the count is not the set's.
size_t saber_public_key_offset(uint32_t set, size_t secret_key_count);
size_t saber_public_key_length(uint32_t set, size_t secret_key_count);

// The public key inside a secret key, as a part of that key and no copy; its length is stored in *public_key_count, 0 where the lookup
// refuses.
static inline const uint8_t *saber_public_key_of(uint32_t set, const uint8_t *secret_key, size_t secret_key_count,
                                                 size_t *public_key_count) {
    *public_key_count = saber_public_key_length(set, secret_key_count);
    return secret_key + saber_public_key_offset(set, secret_key_count);
}

// The encryption that encapsulation is built on. By itself it is not safe against chosen ciphertexts: whoever can have ciphertexts of their
// own decrypted and sees the messages finds the plain secret. Programs that exchange secrets use encapsulation.

// Encrypts a message of 32 bytes with a secret seed of 32 bytes. Whoever guesses the seed reads the message, and a seed used twice with one
// key shows in which bits two messages differ. Refusals: 1, 3, 4, 9.
uint8_t saber_encrypt(uint32_t set, const uint8_t *public_key, size_t public_key_count, const uint8_t *message, size_t message_count,
                      const uint8_t *seed, size_t seed_count, uint8_t *ciphertext, size_t ciphertext_count);

// Decrypts to a message of 32 bytes with the plain secret, the first 416 x rank bytes of a secret key. Refusals: 1, 5, 6, 9.
uint8_t saber_decrypt(uint32_t set, const uint8_t *plain_secret, size_t plain_secret_count, const uint8_t *ciphertext,
                      size_t ciphertext_count, uint8_t *message, size_t message_count);

// Records: one layout for a ciphertext with its set, and a door number and a time that may be missing. A record is a byte with a bit map
// and then the fields whose bit stands, low bytes first: door (bit 0, 2 bytes, up to 65535; or bit 4, 4 bytes, above), time (bit 1,
// 8 bytes, any value), set (bit 2, 1 byte), ciphertext (bit 3, its set's length). So it has 2 bytes, 2 more with a door up to 65535 or 4
// more with one above, 8 more with a time, and the ciphertext. An entry has one record, and writing and reading undo each other.

// Writes the record of an entry. Where has_door or has_time is 0 the field is missing and the number after the flag is not looked at; any
// other flag says that it is there. Set 0 is stored as the set that it means. Refusals: 1, 6, 9.
uint8_t saber_write_record(uint8_t has_door, uint32_t door, uint8_t has_time, uint64_t time, uint32_t set, const uint8_t *ciphertext,
                           size_t ciphertext_count, uint8_t *record, size_t record_count);

// Reads a record and copies its ciphertext out. On answer 0 *has_door and *has_time are 1 or 0; where one is 0 the number after it is left
// as it was, so that a missing field never reads as 0; *set is 1, 2 or 3. On a refusal no flag, number or byte changes. Whoever does not
// know the set finds the ciphertext's count from the record's: less 2, less 2 more if record[0] has bit 0, less 4 more if it has bit 4,
// less 8 more if it has bit 1. Where that is below 0 or more than can be lent, no read is accepted, and 0 bytes may be lent. The record's
// length is asked for twice, whether there is a set byte and, once that is known, whether all is there and no more. *door has 32 bits: a
// program that was compiled when it had 16 has to be compiled again. Refusals: 10, 11, 1, 11, 12, 9.
uint8_t saber_read_record(const uint8_t *record, size_t record_count, uint8_t *has_door, uint32_t *door, uint8_t *has_time,
                          uint64_t *time, uint32_t *set, uint8_t *ciphertext, size_t ciphertext_count);

// Sampling

// The matrix of a seed of 32 bytes: 256 x rank x rank coefficients below 8192, row by row. Refusals: 1, 3, 9.
uint8_t saber_gen_matrix(uint32_t set, const uint8_t *seed, size_t seed_count, uint16_t *matrix, size_t matrix_count);

// The secret of a seed of 32 bytes: 256 x rank signed coefficients, in -mu/2 .. mu/2: -5 .. 5 in set 1, -4 .. 4 in set 2, -3 .. 3 in
// set 3. No residue is written: before packing or multiplying, a caller adds the modulus to each negative one, 8192, or 1024 for a
// product modulo 1024. Refusals: 1, 3, 9.
uint8_t saber_gen_secret(uint32_t set, const uint8_t *seed, size_t seed_count, int8_t *secret, size_t secret_count);

// Polynomials of 256 coefficients. None of these works in place.

// The product of two polynomials below the modulus, 1024 or 8192, where X to the 256 is -1. Refusals: 2, 7, 8, 9.
uint8_t saber_poly_mul(uint32_t modulus, const uint16_t *a, size_t a_count, const uint16_t *b, size_t b_count, uint16_t *product,
                       size_t product_count);

// The same product, made by splitting its factors into halves. Refusals: 2, 7, 8, 9.
uint8_t saber_poly_mul_karatsuba(uint32_t modulus, const uint16_t *a, size_t a_count, const uint16_t *b, size_t b_count,
                                 uint16_t *product, size_t product_count);

// Rounds coefficients below 8192 to coefficients below 1024. Refusals: 7, 8, 9.
uint8_t saber_round(const uint16_t *x, size_t x_count, uint16_t *rounded, size_t rounded_count);

// Reconciliation data, below 1024 / g, of coefficients w below 1024. Refusals: 1, 7, 8, 9.
uint8_t saber_recon_data(uint32_t set, const uint16_t *w, size_t w_count, uint16_t *data, size_t data_count);

// Recovers message bits, a 0 or 1 a coefficient, from v below 1024 and data below 1024 / g. Refusals: 1, 7, 8, 9.
uint8_t saber_recover(uint32_t set, const uint16_t *v, size_t v_count, const uint16_t *data, size_t data_count, uint16_t *bits,
                      size_t bits_count);

// Packs 256 coefficients of `width` bits into 32 x width bytes, least significant bit first. Refusals: 2, 7, 8, 9.
uint8_t saber_pack(uint32_t width, const uint16_t *coefficients, size_t coefficients_count, uint8_t *bytes, size_t bytes_count);

// Unpacks 32 x width bytes into 256 coefficients of `width` bits. Refusals: 2, 7, 9.
uint8_t saber_unpack(uint32_t width, const uint8_t *bytes, size_t bytes_count, uint16_t *coefficients, size_t coefficients_count);

// Hashes of an input of any length. None works in place: the hash of a hash goes to a second buffer. An empty input or output has count 0
// and any pointer but NULL, as (const uint8_t *)"".

// SHAKE-128 fills an output of any length, 0 included. No refusal.
uint8_t saber_shake128(const uint8_t *input, size_t input_count, uint8_t *output, size_t output_count);

// SHA3-256, to 32 bytes. Refusals: 9.
uint8_t saber_sha3_256(const uint8_t *input, size_t input_count, uint8_t *digest, size_t digest_count);

// SHA3-512, to 64 bytes. Refusals: 9.
uint8_t saber_sha3_512(const uint8_t *input, size_t input_count, uint8_t *digest, size_t digest_count);

#ifdef __cplusplus
}
#endif

#endif
