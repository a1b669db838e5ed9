// counts SET DAMAGE: decapsulates once, for valgrind's callgrind: 0 the ciphertext that encapsulation made, 1 with its
// first bit turned, 2 with its last bit turned, 3 a ciphertext of other bytes. tests/counts.py runs this.
#include "check.h"
#include "sets.h"
#include <string.h>

static uint8_t seeds[4][SABER_SEED_BYTES], sent[SABER_SHARED_SECRET_BYTES], opened[SABER_SHARED_SECRET_BYTES];
static uint8_t public_key[FIRESABER_PUBLIC_KEY_BYTES], secret_key[FIRESABER_SECRET_KEY_BYTES];
static uint8_t ciphertext[FIRESABER_CIPHERTEXT_BYTES];

int main(int count, char **words) {
    CHECK(count == 3);
    unsigned set = (unsigned)atoi(words[1]), damage = (unsigned)atoi(words[2]);
    CHECK(set <= 3 && damage <= 3);
    size_t pk = sets[set].public_key, sk = sets[set].secret_key, ct = sets[set].ciphertext;
    for (int i = 0; i < 4; i++)
        memset(seeds[i], i, 32);
    CHECK(saber_keygen(set, seeds[0], 32, seeds[1], 32, seeds[2], 32, public_key, pk, secret_key, sk) == SABER_OK);
    CHECK(saber_encaps(set, public_key, pk, seeds[3], 32, ciphertext, ct, sent, 32) == SABER_OK);
    if (damage == 1)
        ciphertext[0] ^= 1;
    if (damage == 2)
        ciphertext[ct - 1] ^= 0x80;
    if (damage == 3)
        CHECK(saber_shake128(seeds[3], 32, ciphertext, ct) == SABER_OK);
    CHECK(saber_decaps(set, secret_key, sk, ciphertext, ct, opened, 32) == SABER_OK);
    CHECK((memcmp(sent, opened, 32) == 0) == (damage == 0));
    return 0;
}
