// The secret of one entry on its way from a reader at a door to the record office. Both sides are in this program. The
// office makes keys. The reader encapsulates a secret to the office's public key and writes a record with the door, the
// time, the set and the ciphertext. The office reads the record and opens the secret. run.sh builds and runs this file.
#define _DEFAULT_SOURCE // for explicit_bzero
#include <inttypes.h>
#include <saber.h>
#include <stdio.h>
#include <stdlib.h>
#include <string.h>
#include <sys/random.h>
#include <time.h>

enum { SET = SABER_SET_SABER, SEED = SABER_SEED_BYTES, SECRET = SABER_SHARED_SECRET_BYTES };
enum { PK = SABER_PUBLIC_KEY_BYTES, SK = SABER_SECRET_KEY_BYTES, CT = SABER_CIPHERTEXT_BYTES };
// A record has a byte for its map, 4 for a door above 65535, 8 for a time, 1 for the set, and the ciphertext.
enum { DOOR = 70001, RECORD = 1 + 4 + 8 + 1 + CT };

// What has to be erased: the four seeds, each drawn for one call, the secret key and both copies of the secret.
struct secrets {
    uint8_t matrix_seed[SEED], secret_seed[SEED], z[SEED], encaps_seed[SEED];
    uint8_t secret_key[SK], sent[SECRET], opened[SECRET];
};

// Fresh bytes of the system's generator.
static void draw(uint8_t *seed) {
    if (getrandom(seed, SEED, 0) != SEED) {
        perror("getrandom");
        exit(1);
    }
}

// Ends the program if a call refused. Such a call has changed no output.
static void check(const char *call, int answer) {
    if (answer != SABER_OK) {
        fprintf(stderr, "%s: refusal %d\n", call, answer);
        exit(1);
    }
}

// Prints the first bytes of what a call wrote: 16, and of a secret 8.
static void show(const char *call, const char *what, const uint8_t *bytes, size_t count) {
    printf("%-13s %s of %zu bytes, ", call, what, count);
    for (int i = 0; i < (count == SECRET ? 8 : 16); i++)
        printf("%02x", bytes[i]);
    puts("..");
}

int main(void) {
    struct secrets own;
    uint8_t public_key[PK], ciphertext[CT], record[RECORD], received[CT], has_door, has_time;
    uint32_t door = 0, set;
    uint64_t when = 0;

    // The office
    draw(own.matrix_seed);
    draw(own.secret_seed);
    draw(own.z);
    check("keygen", saber_keygen(SET, own.matrix_seed, SEED, own.secret_seed, SEED, own.z, SEED, public_key, PK,
                                 own.secret_key, SK));
    show("keygen", "public key", public_key, PK);

    // The reader
    draw(own.encaps_seed);
    check("encaps", saber_encaps(SET, public_key, PK, own.encaps_seed, SEED, ciphertext, CT, own.sent, SECRET));
    show("encaps", "ciphertext", ciphertext, CT);
    show("encaps", "secret", own.sent, SECRET);
    check("write_record", saber_write_record(1, DOOR, 1, (uint64_t)time(NULL), SET, ciphertext, CT, record, RECORD));
    show("write_record", "record", record, RECORD);

    // The office. It takes this set alone: the record of another set has a ciphertext of another length and is refused.
    check("read_record", saber_read_record(record, RECORD, &has_door, &door, &has_time, &when, &set, received, CT));
    printf("%-13s set %" PRIu32, "read_record", set);
    if (has_door)
        printf(", door %" PRIu32, door);
    if (has_time)
        printf(", time %" PRIu64, when);
    puts("");
    check("decaps", saber_decaps(set, own.secret_key, SK, received, CT, own.opened, SECRET));
    saber_clear_stack(); // here, in the function that made the calls
    show("decaps", "secret", own.opened, SECRET);

    // Both sides are here, so the two secrets can be compared.
    int equal = memcmp(own.sent, own.opened, SECRET) == 0;
    explicit_bzero(&own, sizeof own);
    puts(equal ? "the secret that was opened is the one that was sent" : "the two secrets differ");
    return !equal;
}
