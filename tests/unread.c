// Refused calls on memory that cannot be read. A buffer stands in a region of its own between two regions without
// access, at the end of the open region or at its start, or in a closed region. A call that is refused for its set,
// width, modulus or a count must answer without a fault, and so must a sound call at both edges. Counts in bytes and
// huge counts are among the wrong ones. Outputs that can be read must stay as they were. A fault is caught and counted
// as a failure of its call. A fault, another answer and a changed byte are planted first, and have to be found.
// tests/interface.py holds the list of calls against the oracle's table.
#define _DEFAULT_SOURCE
#include "check.h"
#include <saber.h>
#include <setjmp.h>
#include <signal.h>
#include <stdint.h>
#include <string.h>
#include <sys/mman.h>

enum { SET = SABER_SET_FIRESABER, N = SABER_N, CT = FIRESABER_CIPHERTEXT_BYTES };
enum { PARTS = 5, REGION = 1 << 16, PAINT = 0xa5 }; // REGION: whole pages, also of 64 KiB
enum { FAULT = -1, ANY = 0 };                     // ANY: no count is refused

// The numbers that a call may take first: one that it takes, some that it refuses, and its answer to these.
enum { NONE, A_SET, A_WIDTH, A_MODULUS };
static const struct {
    const char *title;
    uint32_t taken, refused[4];
    uint8_t refusal;
} numbers[] = {
    {"", 0, {0, 0, 0, 0}, 0},
    {"unknown sets", SET, {4, 256, 65536 + SET, UINT32_MAX}, SABER_UNKNOWN_SET},
    {"unknown widths", 13, {0, 2, 32 + 13, UINT32_MAX}, SABER_UNKNOWN_NUMBER},
    {"unknown moduli", 8192, {0, 1000, 65536 + 8192, UINT32_MAX}, SABER_UNKNOWN_NUMBER},
};

// A part is a buffer that is lent. A parameter says how many elements it has, their size, and the answer to a wrong
// count.
struct part {
    void *at;
    size_t count;
};
struct parameter {
    const char *name;
    size_t count, size;
    uint8_t refusal;
};

// Every call that writes something but saber_read_record: its number, its arguments, and the parameters, outputs last.
#define P(i) parts[i].at, parts[i].count
#define BYTES(name, count, refusal) \
    { name, count, 1, refusal }
#define LIST(name, count, refusal) \
    { name, count, 2, refusal }
#define CALLS(DO)                                                                                                \
    DO(keygen, A_SET, (number, P(0), P(1), P(2), P(3), P(4)), BYTES("matrix_seed", 32, 3),                       \
       BYTES("secret_seed", 32, 3), BYTES("z", 32, 3), BYTES("public_key", FIRESABER_PUBLIC_KEY_BYTES, 9),       \
       BYTES("secret_key", FIRESABER_SECRET_KEY_BYTES, 9))                                                       \
    DO(encaps, A_SET, (number, P(0), P(1), P(2), P(3)), BYTES("public_key", FIRESABER_PUBLIC_KEY_BYTES, 4),      \
       BYTES("seed", 32, 3), BYTES("ciphertext", CT, 9), BYTES("shared_secret", 32, 9))                          \
    DO(decaps, A_SET, (number, P(0), P(1), P(2)), BYTES("secret_key", FIRESABER_SECRET_KEY_BYTES, 5),            \
       BYTES("ciphertext", CT, 6), BYTES("shared_secret", 32, 9))                                                \
    DO(encrypt, A_SET, (number, P(0), P(1), P(2), P(3)), BYTES("public_key", FIRESABER_PUBLIC_KEY_BYTES, 4),     \
       BYTES("message", 32, 3), BYTES("seed", 32, 3), BYTES("ciphertext", CT, 9))                                \
    DO(decrypt, A_SET, (number, P(0), P(1), P(2)), BYTES("plain_secret", FIRESABER_PLAIN_SECRET_BYTES, 5),       \
       BYTES("ciphertext", CT, 6), BYTES("message", 32, 9))                                                      \
    DO(gen_matrix, A_SET, (number, P(0), P(1)), BYTES("seed", 32, 3), LIST("matrix", 16 * N, 9))                 \
    DO(gen_secret, A_SET, (number, P(0), P(1)), BYTES("seed", 32, 3), BYTES("secret", 4 * N, 9))                 \
    DO(poly_mul, A_MODULUS, (number, P(0), P(1), P(2)), LIST("a", N, 7), LIST("b", N, 7), LIST("product", N, 9)) \
    DO(poly_mul_karatsuba, A_MODULUS, (number, P(0), P(1), P(2)), LIST("a", N, 7), LIST("b", N, 7),              \
       LIST("product", N, 9))                                                                                    \
    DO(round, NONE, (P(0), P(1)), LIST("x", N, 7), LIST("rounded", N, 9))                                        \
    DO(recon_data, A_SET, (number, P(0), P(1)), LIST("w", N, 7), LIST("data", N, 9))                             \
    DO(recover, A_SET, (number, P(0), P(1), P(2)), LIST("v", N, 7), LIST("data", N, 7), LIST("bits", N, 9))      \
    DO(pack, A_WIDTH, (number, P(0), P(1)), LIST("coefficients", N, 7), BYTES("bytes", 32 * 13, 9))              \
    DO(unpack, A_WIDTH, (number, P(0), P(1)), BYTES("bytes", 32 * 13, 7), LIST("coefficients", N, 9))            \
    DO(shake128, NONE, (P(0), P(1)), BYTES("input", 200, ANY), BYTES("output", 200, ANY))                        \
    DO(sha3_256, NONE, (P(0), P(1)), BYTES("input", 200, ANY), BYTES("digest", 32, 9))                           \
    DO(sha3_512, NONE, (P(0), P(1)), BYTES("input", 200, ANY), BYTES("digest", 64, 9))                           \
    DO(write_record, A_SET, (1, 65536, 1, 3, number, P(0), P(1)), BYTES("ciphertext", CT, 6),                    \
       BYTES("record", 14 + CT, 9))

typedef uint8_t make(uint32_t number, const struct part *parts);
#define DEFINE(name, kind, arguments, ...)                                  \
    static uint8_t call_##name(uint32_t number, const struct part *parts) { \
        (void)number;                                                       \
        return saber_##name arguments;                                      \
    }
#define ENTRY(name, kind, arguments, ...) {#name, call_##name, kind, {__VA_ARGS__}},
CALLS(DEFINE)
static const struct call {
    const char *name;
    make *make;
    int kind;
    struct parameter parameters[PARTS]; // those that are there have a name
} calls[] = {CALLS(ENTRY)};

// The regions, and where in them a buffer stands.

enum place { CLOSED, AT_START, AT_END };
static uint8_t *regions; // for each part a closed region, an open one and a closed one

static uint8_t *closed_region(int i) { return regions + 3 * i * REGION; }
static uint8_t *open_region(int i) { return closed_region(i) + REGION; }

static void *placed(int i, enum place place, size_t bytes) {
    return place == CLOSED ? closed_region(i) : place == AT_START ? open_region(i) : open_region(i) + REGION - bytes;
}

static void make_regions(void) {
    regions = mmap(NULL, 3 * PARTS * REGION, PROT_NONE, MAP_PRIVATE | MAP_ANONYMOUS, -1, 0);
    CHECK(regions != MAP_FAILED);
    for (int i = 0; i < PARTS; i++)
        CHECK(mprotect(open_region(i), REGION, PROT_READ | PROT_WRITE) == 0);
}

// Zeros in the regions of inputs, which every call takes, and paint in those of outputs.
static int content(const struct parameter *p) { return p->refusal == SABER_OUTPUT_LENGTH ? PAINT : 0; }

static void fill(const struct call *call) {
    for (int i = 0; i < PARTS; i++)
        memset(open_region(i), content(&call->parameters[i]), REGION);
}

static int is_filled(const struct call *call) {
    for (int i = 0; i < PARTS; i++)
        for (int k = 0; k < REGION; k++)
            if (open_region(i)[k] != content(&call->parameters[i]))
                return 0;
    return 1;
}

// Calls and their figures, of a group of calls and of all.

static struct { unsigned calls, faults, others; } group, all;
static sigjmp_buf back;
static volatile sig_atomic_t in_call;

static void on_fault(int signal) {
    (void)signal;
    if (!in_call)
        _Exit(2); // a fault of this program itself
    siglongjmp(back, 1);
}

static int answer_of(make *make, uint32_t number, const struct part *parts) {
    volatile int answer = FAULT;
    in_call = 1;
    if (sigsetjmp(back, 1) == 0)
        answer = make(number, parts);
    in_call = 0;
    return answer;
}

static void expect(make *make, uint32_t number, const struct part *parts, uint8_t expected) {
    int answer = answer_of(make, number, parts);
    group.calls++;
    if (answer == FAULT)
        group.faults++;
    else if (answer != expected)
        group.others++;
}

static void end_group(const char *name, const char *title) {
    if (group.faults + group.others > 0)
        printf("%s, %s: of %u calls %u fault, %u answer something else or change a buffer\n", name, title, group.calls,
               group.faults, group.others);
    all.calls += group.calls;
    all.faults += group.faults;
    all.others += group.others;
    memset(&group, 0, sizeof group);
}

// Counts, right and wrong.

enum { RIGHT, IN_BYTES, EMPTY, ONE_LESS, ONE_MORE, HUGE, WAYS = HUGE + 3 };
static const size_t huge[] = {(size_t)1 << 28, SIZE_MAX / 4, SIZE_MAX / 2};

static size_t counted(const struct parameter *p, int way) {
    switch (way) {
    case RIGHT:
        return p->count;
    case IN_BYTES:
        return p->count * p->size;
    case EMPTY:
        return 0;
    case ONE_LESS:
        return p->count - 1;
    case ONE_MORE:
        return p->count + 1;
    default:
        return huge[way - HUGE];
    }
}

static void lend_one(const struct call *call, struct part *parts, int i, enum place place, int way) {
    const struct parameter *p = &call->parameters[i];
    parts[i].at = placed(i, place, p->count * p->size);
    parts[i].count = counted(p, way);
}

static void lend(const struct call *call, struct part *parts, enum place place, int way) {
    for (int i = 0; i < PARTS; i++)
        lend_one(call, parts, i, place, way);
}

static int is_coefficients(const struct parameter *p) { return p->refusal == SABER_INPUT_LENGTH && p->size == 2; }

static void lend_coefficients(const struct call *call, struct part *parts) {
    for (int i = 0; i < PARTS; i++)
        if (is_coefficients(&call->parameters[i]))
            lend_one(call, parts, i, AT_END, RIGHT);
}

// The groups of calls.

static void sound(const struct call *call) {
    struct part parts[PARTS];
    for (enum place place = AT_START; place <= AT_END; place++) {
        fill(call);
        lend(call, parts, place, RIGHT);
        expect(call->make, numbers[call->kind].taken, parts, SABER_OK);
    }
    end_group(call->name, "sound at both edges");
}

static void refused_numbers(const struct call *call) {
    struct part parts[PARTS];
    for (int n = 0; n < 4; n++)
        for (int way = RIGHT; way < WAYS; way++) {
            lend(call, parts, CLOSED, way);
            expect(call->make, numbers[call->kind].refused[n], parts, numbers[call->kind].refusal);
        }
    end_group(call->name, numbers[call->kind].title);
}

// One wrong count, with the buffers at the end of their regions, and with no access. A wrong count of an output is
// answered after the coefficients are read.
static void refused_counts(const struct call *call, int i) {
    const struct parameter *p = &call->parameters[i];
    const uint32_t number = numbers[call->kind].taken;
    struct part parts[PARTS];
    char title[40];
    for (int way = IN_BYTES; way < WAYS; way++) {
        if (counted(p, way) == p->count)
            continue;
        fill(call);
        lend(call, parts, AT_END, RIGHT);
        parts[i].count = counted(p, way);
        expect(call->make, number, parts, p->refusal);
        if (!is_filled(call))
            group.others++;

        lend(call, parts, CLOSED, RIGHT);
        for (int k = 0; k < PARTS; k++)
            if (call->parameters[k].refusal == ANY)
                parts[k].count = huge[2];
        if (p->refusal == SABER_OUTPUT_LENGTH)
            lend_coefficients(call, parts);
        parts[i].count = counted(p, way);
        expect(call->make, number, parts, p->refusal);
    }
    snprintf(title, sizeof title, "wrong counts of %s", p->name);
    end_group(call->name, title);
}

// Every count in bytes: the first list is refused.
static void bytes_counted(const struct call *call) {
    struct part parts[PARTS];
    int first = 0;
    while (first < PARTS && call->parameters[first].size != 2)
        first++;
    if (first == PARTS)
        return;
    fill(call);
    lend(call, parts, AT_END, IN_BYTES);
    expect(call->make, numbers[call->kind].taken, parts, call->parameters[first].refusal);
    if (!is_filled(call))
        group.others++;
    end_group(call->name, "every count in bytes");
}

// A last coefficient that is out of range, with outputs that cannot be read, whatever their counts.
static void refused_coefficients(const struct call *call) {
    struct part parts[PARTS];
    for (int i = 0; i < PARTS; i++)
        for (int way = RIGHT; way < WAYS && is_coefficients(&call->parameters[i]); way++) {
            fill(call);
            memset(open_region(i) + REGION - 2, 0xff, 2);
            lend(call, parts, CLOSED, way);
            lend_coefficients(call, parts);
            expect(call->make, numbers[call->kind].taken, parts, SABER_COEFFICIENT_RANGE);
        }
    end_group(call->name, "coefficients out of range");
}

// Records: parts 0 and 1 are the record and the ciphertext, part 2 the places of the numbers.

static uint8_t call_read_record(uint32_t number, const struct part *parts) {
    uint64_t *place = parts[2].at;
    (void)number;
    return saber_read_record(P(0), (uint8_t *)&place[0], (uint32_t *)&place[1], (uint8_t *)&place[2], &place[3],
                             (uint32_t *)&place[4], P(1));
}

enum { HEAD = 14, RECORD = HEAD + CT }; // map, door of 4 bytes, time and set; then the ciphertext
enum { LONGEST = 16 };                  // the head with both doors

// A record of which the head can be read, or as many bytes as are given, and outputs that cannot.
static void refused_record(const uint8_t *head, size_t readable, size_t count, size_t ciphertext_count,
                           uint8_t expected) {
    struct part parts[] = {
        {open_region(0) + REGION - readable, count}, {closed_region(1), ciphertext_count}, {closed_region(2), 0}};
    memcpy(parts[0].at, head, readable);
    expect(call_read_record, 0, parts, expected);
}

static void records(void) {
    static const uint8_t maps[] = {0, 4, 8, 22, 31, 62, 255}, sets[] = {0, 4, 255};
    const uint8_t head[HEAD] = {30, 0, 0, 1, 0, 0, 0, 0, 0, 0, 0, 0, 0, SET};
    uint8_t other[LONGEST] = {0};
    for (int at_end = 0; at_end <= 1; at_end++) {
        struct part parts[] = {{open_region(0) + at_end * (REGION - RECORD), RECORD},
                               {open_region(1) + at_end * (REGION - CT), CT},
                               {open_region(2) + at_end * (REGION - 40), 0}};
        memcpy(parts[0].at, head, HEAD);
        expect(call_read_record, 0, parts, SABER_OK);
    }
    end_group("read_record", "sound at both edges");

    const struct part nothing[] = {{closed_region(0), 0}, {closed_region(1), CT}, {closed_region(2), 0}};
    expect(call_read_record, 0, nothing, SABER_RECORD_MAP);
    for (size_t i = 0; i < sizeof maps; i++)
        for (int h = 0; h < 3; h++) {
            other[0] = maps[i];
            refused_record(other, LONGEST, huge[h], CT, SABER_RECORD_MAP);
        }
    for (size_t count = 1; count < HEAD; count++)
        refused_record(head, count, count, CT, SABER_RECORD_LENGTH);
    for (size_t i = 0; i < sizeof sets; i++) {
        memcpy(other, head, HEAD);
        other[HEAD - 1] = sets[i];
        refused_record(other, HEAD, RECORD, CT, SABER_UNKNOWN_SET);
    }
    const size_t counts[] = {HEAD, RECORD - 1, RECORD + 1, huge[0], huge[1], huge[2]};
    for (size_t i = 0; i < sizeof counts / sizeof *counts; i++)
        refused_record(head, HEAD, counts[i], CT, SABER_RECORD_LENGTH);
    memcpy(other, head, HEAD);
    other[3] = 0; // a door that the short field has
    refused_record(other, HEAD, RECORD, CT, SABER_RECORD_DOOR);
    const size_t lent[] = {0, CT - 1, CT + 1, huge[0], huge[1], huge[2]};
    for (size_t i = 0; i < sizeof lent / sizeof *lent; i++)
        refused_record(head, HEAD, RECORD, lent[i], SABER_OUTPUT_LENGTH);
    end_group("read_record", "refused records");
}

// Failures that have to be found, and do not count: keygen on memory that cannot be read, a sound one of which another
// answer is expected, and a byte that is changed in the last region.
static void planted(void) {
    const struct call *keygen = &calls[0];
    struct part parts[PARTS];
    lend(keygen, parts, CLOSED, RIGHT);
    expect(keygen->make, SET, parts, SABER_OK);
    CHECK(group.faults == 1 && group.others == 0);
    fill(keygen);
    CHECK(is_filled(keygen));
    lend(keygen, parts, AT_END, RIGHT);
    expect(keygen->make, SET, parts, SABER_UNKNOWN_SET);
    CHECK(group.faults == 1 && group.others == 1);
    fill(keygen);
    open_region(PARTS - 1)[REGION - 1] ^= 1;
    CHECK(!is_filled(keygen));
    memset(&group, 0, sizeof group);
}

int main(void) {
    struct sigaction action;
    memset(&action, 0, sizeof action);
    action.sa_handler = on_fault;
    CHECK(sigaction(SIGSEGV, &action, NULL) == 0 && sigaction(SIGBUS, &action, NULL) == 0);
    make_regions();
    planted();
    for (size_t c = 0; c < sizeof calls / sizeof *calls; c++) {
        const struct call *call = &calls[c];
        sound(call);
        if (call->kind != NONE)
            refused_numbers(call);
        for (int i = 0; i < PARTS && call->parameters[i].name != NULL; i++)
            if (call->parameters[i].refusal != ANY)
                refused_counts(call, i);
        bytes_counted(call);
        refused_coefficients(call);
    }
    records();
    printf("unread: %u calls, %u faults, %u that answer something else or change a buffer; planted ones are found\n",
           all.calls, all.faults, all.others);
    return all.faults + all.others > 0;
}
