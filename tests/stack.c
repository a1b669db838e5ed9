// What the calls leave on the stack, against SABER_STACK_BYTES and saber_clear_stack() of include/saber.h.
// tests/stack.py builds this with several compilers and runs it.
//
// First every call of every set is made as the first one of a process, where the dynamic loader binds functions on the
// same stack, and once more. Then it is made with saber_clear_stack() right after it and without, on a painted stack.
// No 16 bytes of a secret that the call knows may be there after the clearing, and no byte below the caller's frame
// that the call left. Without the clearing secrets must be found, or the search is wrong.
#define _XOPEN_SOURCE 700
#include "check.h"
#include "own_stack.h"
#include <string.h>
#include <sys/wait.h>
#include <unistd.h>
#ifdef WITHOUT_ATTRIBUTES // the header as read by a compiler with neither gcc's attributes nor MSVC's
#undef __GNUC__
#endif
#include "all_calls.h"

enum { WINDOW = 16 }; // bytes in a row that are looked for
enum { OWN = 8192 };  // bytes of its own in a function that calls and clears
enum { EDGE = 128 };  // bytes below them for the rest of its frame, a return address and saved registers

static int clearing;
static uint8_t answer;
static uintptr_t frame; // where the caller's own bytes start

// The clearing is the last thing that such a function does, when more bytes of its own are out of scope than
// SABER_STACK_BYTES has to spare. So a compiler that gives up the frame first, and jumps to what clears, is noticed.
#define DEFINE(name, known, ...)                \
    static void call_##name(void) {             \
        {                                       \
            uint8_t own[OWN];                   \
            frame = (uintptr_t)own;             \
            answer = saber_##name(__VA_ARGS__); \
        }                                       \
        if (clearing)                           \
            saber_clear_stack();                \
    }
#define ENTRY(name, known, ...) {#name, call_##name, known},
CALLS(DEFINE)
static const struct call {
    const char *name;
    void (*make)(void);
    int known;
} calls[] = {CALLS(ENTRY)};
enum { COUNT = sizeof calls / sizeof *calls };

static void run(const struct call *call, int with_clearing) {
    clearing = with_clearing;
    run_on_stack(call->make);
    if (answer != SABER_OK) {
        fprintf(stderr, "stack: %s of set %d answers %d\n", call->name, (int)set, answer);
        exit(1);
    }
}

static size_t bytes_below_frame(void) { return frame - (uintptr_t)stack; }

// How deep calls reach. A process starts with no function bound, so nothing here may call the library, memcpy or memset
// but the call itself.

static struct {
    size_t bytes;
    const char *name;
    int set;
} first, later;       // the deepest
static size_t loader; // the most by which a first call reaches deeper than a later one

static size_t depth_of(const struct call *call) {
    run(call, 0);
    return depth() - (STACK - bytes_below_frame());
}

static void measure(const struct call *call) {
    size_t depths[2];
    int ends[2], status;
    CHECK(pipe(ends) == 0);
    pid_t child = fork();
    CHECK(child >= 0);
    if (child == 0) {
        depths[0] = depth_of(call);
        depths[1] = depth_of(call);
        _exit(write(ends[1], depths, sizeof depths) != sizeof depths);
    }
    CHECK(waitpid(child, &status, 0) == child && status == 0);
    CHECK(read(ends[0], depths, sizeof depths) == sizeof depths);
    close(ends[0]);
    close(ends[1]);
    if (depths[0] > depths[1] + loader)
        loader = depths[0] - depths[1];
    if (depths[0] > first.bytes) {
        first.bytes = depths[0];
        first.name = call->name;
        first.set = (int)set;
    }
    if (depths[1] > later.bytes)
        later.bytes = depths[1];
}

static void measure_all(void) {
    for (set = 1; set <= 3; set++) {
        begin_record();
        for (int i = 0; i < COUNT; i++)
            measure(&calls[i]);
    }
    if (loader == 0) {
        fprintf(stderr, "stack: no function is bound at a first call; link with -z lazy and leave LD_BIND_NOW unset\n");
        exit(1);
    }
    // Also if the loader worked at the deepest place.
    if (first.bytes >= SABER_STACK_BYTES || later.bytes + loader >= SABER_STACK_BYTES) {
        fprintf(
            stderr,
            "stack: SABER_STACK_BYTES is %d, and a call leaves %zu bytes, %zu at a first call (%s of set %d), where "
            "the loader takes %zu\n",
            SABER_STACK_BYTES, later.bytes, first.bytes, first.name, first.set, loader);
        exit(1);
    }
}

// Secrets, and all WINDOW bytes in a row of each. Where fewer than 4 of them are not 0 they are left out, since a
// cleared stack may hold them too.

static struct {
    const char *name;
    int found;
} secrets[16];
static struct window {
    const uint8_t *bytes;
    int secret;
} windows[1 << 15];
static int secret_count, window_count;

static void know(const char *name, const void *of, size_t count) {
    const uint8_t *at = of;
    CHECK(secret_count < (int)(sizeof secrets / sizeof *secrets));
    for (const uint8_t *last = at + count - WINDOW; at <= last; at++) {
        int zeros = 0;
        for (int i = 0; i < WINDOW; i++)
            zeros += at[i] == 0;
        if (zeros <= WINDOW - 4) {
            CHECK(window_count < (int)(sizeof windows / sizeof *windows));
            windows[window_count].bytes = at;
            windows[window_count++].secret = secret_count;
        }
    }
    secrets[secret_count].name = name;
    secrets[secret_count++].found = 0;
}

// The signed secret of a seed in the forms that the steps have it in.
struct forms {
    int8_t list[COEFFICIENTS];
    uint16_t residues[COEFFICIENTS], words[COEFFICIENTS]; // modulo 8192 and modulo 65536
};

static void know_secret(const char *const names[3], const uint8_t *seed, struct forms *forms) {
    size_t count = SABER_N * sets[set].rank;
    CHECK(saber_gen_secret(set, seed, 32, forms->list, count) == SABER_OK);
    for (size_t i = 0; i < count; i++) {
        forms->words[i] = (uint16_t)forms->list[i];
        forms->residues[i] = forms->words[i] % 8192;
    }
    know(names[0], forms->list, count);
    know(names[1], forms->residues, 2 * count);
    know(names[2], forms->words, 2 * count);
}

static int by_bytes(const void *x, const void *y) {
    return memcmp(((const struct window *)x)->bytes, ((const struct window *)y)->bytes, WINDOW);
}

static void know_secrets_of(const struct call *call) {
    static const char *const of_key[] = {"the secret", "the secret modulo 8192", "the secret modulo 65536"};
    static const char *const of_r[] = {"the secret of r", "the secret of r modulo 8192",
                                       "the secret of r modulo 65536"};
    static struct forms forms[2];
    secret_count = window_count = 0;
    if (call->known & SECRET_SEED)
        know("the secret seed", seeds[1], 32);
    if (call->known & Z)
        know("z", seeds[2], 32);
    if (call->known & KEY) {
        know("the plain secret", secret_key, sets[set].plain_secret);
        know_secret(of_key, seeds[1], &forms[0]);
    }
    if (call->known & SEED)
        know("the seed", seeds[3], 32);
    if (call->known & M)
        know("m", m[damaged], 32);
    if (call->known & K)
        know("k", kr[damaged], 32);
    if (call->known & R) {
        know("r", kr[damaged] + 32, 32);
        know_secret(of_r, kr[damaged] + 32, &forms[1]);
    }
    if (call->known & SHARED)
        know("the shared secret", shared[damaged], 32);
    qsort(windows, (size_t)window_count, sizeof *windows, by_bytes);
}

// How many of the secrets are on the stack.
static int secrets_found(void) {
    int found = 0;
    for (const uint8_t *at = stack + STACK - depth(); at <= stack + STACK - WINDOW && window_count > 0; at++) {
        const struct window here = {at, 0};
        const struct window *window = bsearch(&here, windows, (size_t)window_count, sizeof *windows, by_bytes);
        if (window != NULL)
            found += secrets[window->secret].found++ == 0;
    }
    return found;
}

static int looked_for, found_without; // secrets, over all calls

static void look(const struct call *call) {
    static uint8_t left[STACK];
    know_secrets_of(call);
    run(call, 0);
    memcpy(left, stack, STACK);
    looked_for += secret_count;
    found_without += secrets_found();

    for (int i = 0; i < secret_count; i++)
        secrets[i].found = 0;
    run(call, 1);
    if (secrets_found() > 0) {
        fprintf(stderr, "stack: %s of set %d, cleared, leaves", call->name, (int)set);
        for (int i = 0, named = 0; i < secret_count; i++)
            if (secrets[i].found > 0)
                fprintf(stderr, "%s %s", named++ > 0 ? "," : "", secrets[i].name);
        fprintf(stderr, "\n");
        exit(1);
    }
    for (size_t k = 0; k < bytes_below_frame() - EDGE; k++)
        if (left[k] != PAINT && left[k] != 0 && stack[k] == left[k]) {
            fprintf(stderr, "stack: %s of set %d, cleared, leaves a byte, %zu below its caller's frame\n", call->name,
                    (int)set, bytes_below_frame() - k);
            exit(1);
        }
}

// m, k and r of a ciphertext, and its shared secret.
static void open_ciphertext(int which) {
    static uint8_t hashed[64];
    size_t ct = sets[set].ciphertext;
    CHECK(saber_decrypt(set, secret_key, sets[set].plain_secret, ciphertext[which], ct, m[which], 32) == SABER_OK);
    memcpy(hashed, m[which], 32);
    CHECK(saber_sha3_256(OF_SET(public_key), hashed + 32, 32) == SABER_OK);
    CHECK(saber_sha3_512(ALL(hashed), ALL(kr[which])) == SABER_OK);
    CHECK(saber_decaps(set, OF_SET(secret_key), ciphertext[which], ct, ALL(shared[which])) == SABER_OK);
}

// The sent one is made of them.
static void confirm(void) {
    static uint8_t again[FIRESABER_CIPHERTEXT_BYTES], hashed[64], of_seed[32];
    size_t ct = sets[set].ciphertext;
    CHECK(saber_sha3_256(ALL(seeds[3]), ALL(of_seed)) == SABER_OK && memcmp(of_seed, m[0], 32) == 0);
    CHECK(saber_encrypt(set, OF_SET(public_key), ALL(m[0]), kr[0] + 32, 32, again, ct) == SABER_OK);
    CHECK(memcmp(again, ciphertext[0], ct) == 0);
    memcpy(hashed, kr[0], 32);
    CHECK(saber_sha3_256(ciphertext[0], ct, hashed + 32, 32) == SABER_OK);
    CHECK(saber_sha3_256(ALL(hashed), again, 32) == SABER_OK && memcmp(again, shared[0], 32) == 0);
}

static void make_inputs(void) {
    for (int i = 0; i < 128; i++)
        seeds[i / 32][i % 32] = (uint8_t)(77 * i + 1 + (int)set);
    CHECK(saber_keygen(set, seeds[0], 32, seeds[1], 32, seeds[2], 32, OF_SET(public_key), OF_SET(secret_key)) ==
          SABER_OK);
    CHECK(saber_encaps(set, OF_SET(public_key), seeds[3], 32, ciphertext[0], sets[set].ciphertext, shared[0], 32) ==
          SABER_OK);
    memcpy(ciphertext[1], ciphertext[0], sets[set].ciphertext);
    ciphertext[1][0] ^= 1;
    open_ciphertext(0);
    open_ciphertext(1);
    confirm();
}

int main(void) {
    int cleared = 0;
    measure_all();
    for (set = 1; set <= 3; set++) {
        const int found = found_without;
        make_inputs();
        for (int i = 0; i < COUNT; i++)
            for (damaged = 0; damaged <= (calls[i].known == DECAPS); damaged++) {
                look(&calls[i]);
                cleared++;
            }
        if (found_without == found) {
            fprintf(stderr, "stack: no secret of set %d is found without the clearing\n", (int)set);
            return 1;
        }
    }
    printf("%zu bytes, %zu at a first call (%s), loader %zu; %d calls: of %d secrets %d left, none once cleared\n",
           later.bytes, first.bytes, first.name, loader, cleared, looked_for, found_without);
    return 0;
}
