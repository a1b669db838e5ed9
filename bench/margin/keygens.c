// Reads what marginreport reads, a set's number and groups of 96 bytes, and makes a key pair of each group.
#include <stdio.h>

#include "sets.h"

int main(void) {
    static uint8_t seeds[96], public_key[FIRESABER_PUBLIC_KEY_BYTES], secret_key[FIRESABER_SECRET_KEY_BYTES];
    int set = getchar();
    if (set < 1 || set > 3)
        return 1;
    while (fread(seeds, sizeof seeds, 1, stdin) == 1)
        if (saber_keygen(set, seeds, 32, seeds + 32, 32, seeds + 64, 32, public_key, sets[set].public_key, secret_key,
                         sets[set].secret_key) != SABER_OK)
            return 1;
    return 0;
}
