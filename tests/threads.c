// threads SECONDS: keys, ciphertexts and secrets of every set made by THREADS threads at the same time, each from
// random seeds of its own, against the plain implementation (oracle/plain.c). Then a bit of each kind of result is
// turned, and the same comparison has to find it.
#define _XOPEN_SOURCE 700
#include "check.h"
#include "sets.h"
#include <plain.h>
#include <pthread.h>
#include <string.h>
#include <time.h>

enum { THREADS = 8 };
enum result { NONE, PUBLIC_KEY, SECRET_KEY, CIPHERTEXT, SENT, RECEIVED, REJECTED, RESULTS };
static const char *const names[] = {"none",        "public key",      "secret key",     "ciphertext",
                                    "sent secret", "received secret", "rejected secret"};

struct worker {
    uint64_t state;      // of its random bytes
    enum result planted; // the result in which a bit is turned
    enum result wrong;   // the first that differs
    int wrong_set;
    long calls;
};

static uint8_t random_byte(struct worker *w) {
    w->state = w->state * 6364136223846793005u + 1442695040888963407u;
    return (uint8_t)(w->state >> 56);
}

static void compare(struct worker *w, enum result result, int set, uint8_t *ours, const uint8_t *theirs, size_t count) {
    if (w->planted == result)
        ours[random_byte(w) % count] ^= 1;
    if (w->wrong == NONE && memcmp(ours, theirs, count) != 0) {
        w->wrong = result;
        w->wrong_set = set;
    }
}

static void expect_ok(struct worker *w, enum result result, int set, uint8_t answer) {
    w->calls++;
    if (w->wrong == NONE && answer != SABER_OK) {
        w->wrong = result;
        w->wrong_set = set;
    }
}

static void round_of(struct worker *w, int set) {
    size_t pk = sets[set].public_key, sk = sets[set].secret_key, ct = sets[set].ciphertext;
    uint8_t seeds[4][32], public_key[2][FIRESABER_PUBLIC_KEY_BYTES], secret_key[2][FIRESABER_SECRET_KEY_BYTES];
    uint8_t ciphertext[2][FIRESABER_CIPHERTEXT_BYTES], secret[2][32];
    for (int i = 0; i < 128; i++)
        seeds[i / 32][i % 32] = random_byte(w);

    expect_ok(w, PUBLIC_KEY, set,
              saber_keygen(set, seeds[0], 32, seeds[1], 32, seeds[2], 32, public_key[0], pk, secret_key[0], sk));
    plain_keygen(set, seeds[0], seeds[1], seeds[2], public_key[1], secret_key[1]);
    compare(w, PUBLIC_KEY, set, public_key[0], public_key[1], pk);
    compare(w, SECRET_KEY, set, secret_key[0], secret_key[1], sk);

    expect_ok(w, CIPHERTEXT, set, saber_encaps(set, public_key[1], pk, seeds[3], 32, ciphertext[0], ct, secret[0], 32));
    plain_encaps(set, public_key[1], seeds[3], ciphertext[1], secret[1]);
    compare(w, CIPHERTEXT, set, ciphertext[0], ciphertext[1], ct);
    compare(w, SENT, set, secret[0], secret[1], 32);

    for (enum result result = RECEIVED; result <= REJECTED; result++) {
        expect_ok(w, result, set, saber_decaps(set, secret_key[1], sk, ciphertext[1], ct, secret[0], 32));
        plain_decaps(set, secret_key[1], ciphertext[1], secret[1]);
        compare(w, result, set, secret[0], secret[1], 32);
        ciphertext[1][random_byte(w)] ^= 1; // for the one that is rejected
    }
}

static double end;
static pthread_barrier_t start;

static double seconds(void) {
    struct timespec now;
    CHECK(clock_gettime(CLOCK_MONOTONIC, &now) == 0);
    return (double)now.tv_sec + 1e-9 * (double)now.tv_nsec;
}

static void *work(void *worker) {
    pthread_barrier_wait(&start);
    for (int set = 1; seconds() < end; set = set % 3 + 1)
        round_of(worker, set);
    return NULL;
}

int main(int count, char **words) {
    static struct worker workers[THREADS], planter = {.state = THREADS};
    pthread_t threads[THREADS];
    long calls = 0;
    int found = 0;
    double length = count == 2 ? atof(words[1]) : 0;
    if (length <= 0) {
        fprintf(stderr, "usage: threads SECONDS\n");
        return 2;
    }
    CHECK(pthread_barrier_init(&start, NULL, THREADS) == 0);
    end = seconds() + length;
    for (int i = 0; i < THREADS; i++) {
        workers[i].state = (uint64_t)i;
        CHECK(pthread_create(&threads[i], NULL, work, &workers[i]) == 0);
    }
    for (int i = 0; i < THREADS; i++) {
        CHECK(pthread_join(threads[i], NULL) == 0);
        calls += workers[i].calls;
        if (workers[i].wrong != NONE) {
            fprintf(stderr, "threads: the %s of set %d in thread %d is another\n", names[workers[i].wrong],
                    workers[i].wrong_set, i);
            return 1;
        }
        if (workers[i].calls < 3 * 4) {
            fprintf(stderr, "threads: thread %d made %ld calls, not one of each set\n", i, workers[i].calls);
            return 1;
        }
    }
    for (enum result planted = PUBLIC_KEY; planted < RESULTS; planted++)
        for (int set = 1; set <= 3; set++) {
            planter.planted = planted;
            planter.wrong = NONE;
            round_of(&planter, set);
            if (planter.wrong != planted || planter.wrong_set != set) {
                fprintf(stderr, "threads: a bit turned in the %s of set %d is not found\n", names[planted], set);
                return 1;
            }
            found++;
        }
    printf(
        "threads: %ld calls by %d threads in %g s agree with the plain implementation, %d planted differences found\n",
        calls, THREADS, length, found);
    return 0;
}
