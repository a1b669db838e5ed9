// The least stack of a thread for each call, against the numbers in include/saber.h, one of which is
// SABER_THREAD_STACK_BYTES. A thread of a process of its own makes the call as the first one of the process, so that
// the dynamic loader binds functions on the same stack. Stacks grow by 4 KiB until the process ends without a fault:
// for the call alone, and with saber_clear_stack() right after it. Under glibc the thread's descriptor and its
// thread-local storage are on the stack too.
#define _XOPEN_SOURCE 700
#include "all_calls.h"
#include "check.h"
#include <pthread.h>
#include <string.h>
#include <sys/resource.h>
#include <sys/wait.h>
#include <unistd.h>

enum { STEP = 4096, MOST = 1 << 20, GUARD = 1 << 20 }; // the guard is larger than any frame
enum { SCHEME = 36, DECRYPT = 24, OTHER = 20, CLEARED = 44 }; // KiB that the header names; tests/prose.py reads them

static int clearing;

#define DEFINE(name, known, ...)                    \
    static void *call_##name(void *answer) {        \
        *(int *)answer = saber_##name(__VA_ARGS__); \
        if (clearing)                               \
            saber_clear_stack();                    \
        return NULL;                                \
    }
#define ENTRY(name, known, ...) {#name, call_##name},
CALLS(DEFINE)
static const struct call {
    const char *name;
    void *(*make)(void *);
} calls[] = {CALLS(ENTRY)};
enum { COUNT = sizeof calls / sizeof *calls };

// In the process of its own: 0 where the call answers 0, and 1 where there is no such stack.
static int run_in_thread(const struct call *call, size_t size) {
    pthread_attr_t attributes;
    pthread_t thread;
    int answer = -1;
    if (pthread_attr_init(&attributes) != 0 || pthread_attr_setguardsize(&attributes, GUARD) != 0)
        return 2;
    if (pthread_attr_setstacksize(&attributes, size) != 0 ||
        pthread_create(&thread, &attributes, call->make, &answer) != 0)
        return 1;
    return pthread_join(thread, NULL) == 0 && answer == SABER_OK ? 0 : 2;
}

static int is_enough(const struct call *call, size_t size) {
    int status;
    pid_t child = fork();
    CHECK(child >= 0);
    if (child == 0)
        _exit(run_in_thread(call, size));
    CHECK(waitpid(child, &status, 0) == child);
    if (WIFEXITED(status) && WEXITSTATUS(status) > 1) {
        fprintf(stderr, "thread stacks: %s of set %d fails on a stack of %zu bytes\n", call->name, (int)set, size);
        exit(1);
    }
    return status == 0;
}

static size_t least_stack(const struct call *call) {
    size_t size = STEP;
    while (size < MOST && !is_enough(call, size))
        size += STEP;
    return size;
}

// The most that a set needs, from 1 to 3.
static size_t least_of_sets(const struct call *call) {
    size_t most = 0;
    for (set = 1; set <= 3; set++) {
        begin_record();
        size_t least = least_stack(call);
        if (least > most)
            most = least;
    }
    return most;
}

// What the header names for a call alone, in bytes.
static size_t named(const struct call *call) {
    static const char *const scheme[] = {"keygen", "encaps", "decaps", "encrypt"};
    for (size_t i = 0; i < sizeof scheme / sizeof *scheme; i++)
        if (strcmp(call->name, scheme[i]) == 0)
            return 1024 * SCHEME;
    return 1024 * (strcmp(call->name, "decrypt") == 0 ? DECRYPT : OTHER);
}

static void expect(const struct call *call, size_t least, size_t enough) {
    if (least > enough || least > SABER_THREAD_STACK_BYTES) {
        fprintf(stderr, "thread stacks: %s needs %zu bytes; the header names %zu, and SABER_THREAD_STACK_BYTES is %d\n",
                call->name, least, enough, SABER_THREAD_STACK_BYTES);
        exit(1);
    }
}

int main(void) {
    const struct rlimit no_core = {0, 0};
    CHECK(setrlimit(RLIMIT_CORE, &no_core) == 0);
    printf("thread stacks, in KiB, for the call, and with its clearing:\n");
    for (int i = 0; i < COUNT; i++) {
        clearing = 0;
        size_t alone = least_of_sets(&calls[i]);
        clearing = 1;
        size_t cleared = least_of_sets(&calls[i]);
        printf("%s %zu %zu%s", calls[i].name, alone / 1024, cleared / 1024, i + 1 < COUNT ? ", " : "\n");
        fflush(stdout);
        expect(&calls[i], alone, named(&calls[i]));
        expect(&calls[i], cleared, 1024 * CLEARED);
    }
    return 0;
}
