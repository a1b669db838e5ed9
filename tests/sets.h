// The sets by their numbers, 0 among them, with the sizes that include/saber.h names.
#ifndef SETS_H
#define SETS_H

#include <saber.h>

#define SIZES(NAME) \
    NAME##_RANK, NAME##_PUBLIC_KEY_BYTES, NAME##_SECRET_KEY_BYTES, NAME##_PLAIN_SECRET_BYTES, NAME##_CIPHERTEXT_BYTES

static const struct set {
    const char *name;
    size_t rank, public_key, secret_key, plain_secret, ciphertext; // in bytes, but for the rank
} sets[] = {
    {"default", SIZES(SABER)},
    {"LightSaber", SIZES(LIGHTSABER)},
    {"Saber", SIZES(SABER)},
    {"FireSaber", SIZES(FIRESABER)},
};

#undef SIZES
#endif
