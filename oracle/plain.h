// A plain Saber KEM, written from the papers alone: a second opinion for tests and the baseline of a benchmark.
#ifndef PLAIN_H
#define PLAIN_H

#include <stdint.h>

// `set` is 1, 2 or 3, and nothing is checked: each buffer has its set's length in bytes.
//
//   set             public key   secret key   ciphertext
//   1  LightSaber          672         1568          736
//   2  Saber               992         2304         1088
//   3  FireSaber          1312         3040         1472

// Makes a key pair from three seeds; z goes into the secret key as it is.
void plain_keygen(int set, const uint8_t matrix_seed[32], const uint8_t secret_seed[32], const uint8_t z[32],
                  uint8_t *public_key, uint8_t *secret_key);

// Makes a ciphertext to the public key, and the secret it carries.
void plain_encaps(int set, const uint8_t *public_key, const uint8_t seed[32], uint8_t *ciphertext,
                  uint8_t shared_secret[32]);

// Recovers that secret; a ciphertext that encaps would not have made gives another one.
void plain_decaps(int set, const uint8_t *secret_key, const uint8_t *ciphertext, uint8_t shared_secret[32]);

#endif
