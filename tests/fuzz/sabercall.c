// A libFuzzer harness for the lines of sabercall. An input is a text that sabercall is given; one process is kept for
// all of them. SABERCALL names the program, target/bin/sabercall where it is not set. tests/fuzz/README.md says how to
// run it.
//
// Each line has one reply, a comment none. A reply is held to what README.md says of its line: it is a reason, or a
// number that the call may answer and outputs of the lent lengths, which a refusal leaves as they were. What a call
// writes is not computed here: tests/differential.py does that. Then the same lines are asked with CR LF at their ends,
// and a text that begins with a comment and whose last line has no newline is given to a process of its own as well.
// The replies have to be the same.
//
// The program is not instrumented: coverage is that of this file, and a counter for each call and each of its replies.
#define _XOPEN_SOURCE 700
#include "../check.h"
#include "../sets.h"
#include <ctype.h>
#include <errno.h>
#include <fcntl.h>
#include <poll.h>
#include <signal.h>
#include <spawn.h>
#include <string.h>
#include <sys/wait.h>
#include <unistd.h>

enum { LONGEST = 65536, PIECE = 65536, SECONDS = 20 };
enum { MOST_ARGUMENTS = 6, MOST_RESULTS = 4, MOST_REFUSALS = 5 };
enum { TOO_LONG, UNKNOWN_CALL, WRONG_COUNT, BAD_DIGIT, ODD_COUNT, TOO_LARGE, REASONS };
static const char *const reasons[REASONS] = {"error too long",  "error unknown call", "error wrong count",
                                             "error bad digit", "error odd count",    "error too large"};

// The calls: arguments, outputs among them; numbers handed back; outputs; and refusals. A 0 follows the last refusal.
static const struct call {
    const char *name;
    size_t arguments, handed, outputs;
    uint8_t refusals[MOST_REFUSALS + 1];
} calls[] = {
    {"keygen", 6, 0, 2, {1, 3, 9}},
    {"encaps", 5, 0, 2, {1, 3, 4, 9}},
    {"decaps", 4, 0, 1, {1, 5, 6, 9}},
    {"encrypt", 5, 0, 1, {1, 3, 4, 9}},
    {"decrypt", 4, 0, 1, {1, 5, 6, 9}},
    {"gen_matrix", 3, 0, 1, {1, 3, 9}},
    {"gen_secret", 3, 0, 1, {1, 3, 9}},
    {"poly_mul", 4, 0, 1, {2, 7, 8, 9}},
    {"poly_mul_karatsuba", 4, 0, 1, {2, 7, 8, 9}},
    {"round", 2, 0, 1, {7, 8, 9}},
    {"recon_data", 3, 0, 1, {1, 7, 8, 9}},
    {"recover", 4, 0, 1, {1, 7, 8, 9}},
    {"pack", 3, 0, 1, {2, 7, 8, 9}},
    {"unpack", 3, 0, 1, {2, 7, 9}},
    {"shake128", 2, 0, 1, {0}},
    {"sha3_256", 2, 0, 1, {9}},
    {"sha3_512", 2, 0, 1, {9}},
    {"public_key_of", 2, 0, 0, {0}},
    {"write_record", 5, 0, 1, {1, 6, 9}},
    {"read_record", 2, 3, 1, {1, 9, 10, 11, 12}},
};
enum { CALLS = sizeof calls / sizeof *calls, ANSWERS = 13 };

// libFuzzer keeps an input that raises one of these: a reply of each kind to each call.
__attribute__((section("__libfuzzer_extra_counters"))) static uint8_t seen[CALLS][ANSWERS + REASONS];

// Texts and their parts

struct text {
    uint8_t *bytes;
    size_t count, room;
};

static void append(struct text *text, const void *bytes, size_t count) {
    if (text->room - text->count < count) {
        text->room = 2 * text->room + count;
        text->bytes = (uint8_t *)realloc(text->bytes, text->room);
        CHECK(text->bytes != NULL);
    }
    if (count > 0)
        memcpy(text->bytes + text->count, bytes, count);
    text->count += count;
}

static int ends_with(const struct text *text, const char *end) {
    const size_t count = strlen(end);
    return text->count >= count && memcmp(text->bytes + text->count - count, end, count) == 0;
}

static int same_text(const struct text *a, const struct text *b) {
    return a->count == b->count && (a->count == 0 || memcmp(a->bytes, b->bytes, a->count) == 0);
}

struct part {
    const uint8_t *at;
    size_t count;
};

static int is(struct part part, const char *word) {
    return part.count == strlen(word) && memcmp(part.at, word, part.count) == 0;
}

// Takes the part up to the mark off the front of a rest that has one, and the mark with it.
static struct part take(struct part *rest, char mark) {
    const uint8_t *end = (const uint8_t *)memchr(rest->at, mark, rest->count);
    CHECK(end != NULL);
    const struct part part = {rest->at, (size_t)(end - rest->at)};
    rest->at = end + 1;
    rest->count -= part.count + 1;
    return part;
}

// Takes a line off the front of a text. A CR before the newline is no part of it.
static struct part take_line(struct part *rest) {
    struct part line = take(rest, '\n');
    if (line.count > 0 && line.at[line.count - 1] == '\r')
        line.count--;
    return line;
}

// How many words a part has, and the first of them, as many as there is room for.
static size_t split(struct part rest, struct part *words, size_t room) {
    size_t count = 1;
    while (memchr(rest.at, ' ', rest.count) != NULL) {
        const struct part word = take(&rest, ' ');
        if (count++ <= room)
            words[count - 2] = word;
    }
    if (count <= room)
        words[count - 1] = rest;
    return count;
}

static int is_comment(struct part line) { return line.count > 0 && line.at[0] == '#'; }

// Replies

// An output of hex digits has the lent length, and the lent digits where nothing was written.
static void check_digits(struct part lent, struct part found, int written) {
    CHECK(found.count == lent.count && lent.count > 0);
    CHECK((found.at[0] == '-') == (lent.at[0] == '-'));
    for (size_t i = 0; i < found.count && found.at[0] != '-'; i++) {
        CHECK(isdigit(found.at[i]) || (found.at[i] >= 'a' && found.at[i] <= 'f'));
        CHECK(written || found.at[i] == tolower(lent.at[i]));
    }
}

// The number at the front of a signed list, which is taken off with the comma behind it.
static int take_number(struct part *list) {
    const int negative = list->count > 0 && *list->at == '-';
    unsigned number = 0;
    size_t i = (size_t)negative;
    for (; i < list->count && list->at[i] != ','; i++)
        number = 10 * number + (unsigned)(list->at[i] - '0');
    i += i < list->count;
    list->at += i;
    list->count -= i;
    CHECK(number <= 128);
    return negative ? -(int)number : (int)number;
}

// A signed list has as many numbers as were lent, and the lent ones where nothing was written, else those of a secret.
static void check_numbers(struct part lent, struct part found, int written) {
    CHECK(is(lent, "-") == is(found, "-"));
    while (lent.count > 0 && found.count > 0) {
        const int before = take_number(&lent), after = take_number(&found);
        CHECK(written ? after >= -5 && after <= 5 : after == before);
    }
    CHECK(lent.count == 0 && found.count == 0);
}

// What public_key_of hands back is empty, or the part of the secret key where its set has the public key.
static void check_key(struct part secret_key, struct part found) {
    if (is(found, "-"))
        return;
    for (int set = SABER_SET_LIGHTSABER; set <= SABER_SET_FIRESABER; set++)
        if (secret_key.count == 2 * sets[set].secret_key) {
            const struct part inside = {secret_key.at + 2 * sets[set].plain_secret, 2 * sets[set].public_key};
            check_digits(inside, found, 0);
            return;
        }
    CHECK(!"a secret key of a set's length");
}

static size_t answer_of(struct part word) {
    static const char *const numbers[ANSWERS] = {"0", "1", "2", "3", "4", "5", "6", "7", "8", "9", "10", "11", "12"};
    size_t answer = 0;
    while (answer < ANSWERS && !is(word, numbers[answer]))
        answer++;
    return answer;
}

// The numbers that read_record hands back, none on a refusal; on answer 0 the set is there.
static void check_handed(const struct part *found, int written) {
    CHECK(written || (is(found[0], "-") && is(found[1], "-") && is(found[2], "-")));
    CHECK(!written || is(found[2], "1") || is(found[2], "2") || is(found[2], "3"));
}

static void check_reply(struct part line, struct part reply) {
    struct part words[1 + MOST_ARGUMENTS], found[1 + MOST_RESULTS];
    const size_t arguments = split(line, words, 1 + MOST_ARGUMENTS) - 1;
    size_t reason = 0, place = 0;
    while (reason < REASONS && !is(reply, reasons[reason]))
        reason++;
    CHECK((reason == TOO_LONG) == (line.count > LONGEST));
    if (reason == TOO_LONG)
        return;
    while (place < CALLS && !is(words[0], calls[place].name))
        place++;
    CHECK((reason == UNKNOWN_CALL) == (place == CALLS));
    if (reason == UNKNOWN_CALL)
        return;
    const struct call *call = &calls[place];
    if (reason < REASONS) {
        seen[place][ANSWERS + reason]++;
        CHECK(reason != WRONG_COUNT || arguments != call->arguments);
        return;
    }
    CHECK(arguments == call->arguments);
    if (call->outputs == 0) {
        seen[place][is(reply, "-")]++;
        check_key(words[2], reply);
        return;
    }
    const size_t results = call->handed + call->outputs;
    CHECK(split(reply, found, 1 + MOST_RESULTS) == 1 + results);
    const size_t answer = answer_of(found[0]);
    CHECK(answer < ANSWERS && memchr(call->refusals, (int)answer, sizeof call->refusals) != NULL);
    seen[place][answer]++;
    if (call->handed > 0)
        check_handed(found + 1, answer == 0);
    for (size_t i = 0; i < call->outputs; i++) {
        const struct part lent = words[1 + arguments - call->outputs + i], output = found[1 + call->handed + i];
        (strcmp(call->name, "gen_secret") == 0 ? check_numbers : check_digits)(lent, output, answer == 0);
    }
}

// The program

struct process {
    pid_t id;
    int to, from;
};

static void start(struct process *process) {
    extern char **environ;
    const char *program = getenv("SABERCALL");
    if (program == NULL)
        program = "target/bin/sabercall";
    char *words[] = {(char *)program, NULL};
    int input[2], output[2];
    CHECK(pipe(input) == 0 && pipe(output) == 0);
    for (int i = 0; i < 2; i++) // a program that is started has no other than its own two
        CHECK(fcntl(input[i], F_SETFD, FD_CLOEXEC) == 0 && fcntl(output[i], F_SETFD, FD_CLOEXEC) == 0);
    posix_spawn_file_actions_t actions;
    CHECK(posix_spawn_file_actions_init(&actions) == 0);
    CHECK(posix_spawn_file_actions_adddup2(&actions, input[0], 0) == 0);
    CHECK(posix_spawn_file_actions_adddup2(&actions, output[1], 1) == 0);
    CHECK(posix_spawn(&process->id, program, &actions, NULL, words, environ) == 0);
    CHECK(posix_spawn_file_actions_destroy(&actions) == 0);
    CHECK(close(input[0]) == 0 && close(output[1]) == 0);
    process->to = input[1];
    process->from = output[0];
    CHECK(fcntl(process->to, F_SETFL, O_NONBLOCK) == 0);
}

// Writes what the program takes; 0 if it takes nothing at the moment.
static size_t give(int to, const uint8_t *bytes, size_t count) {
    const ssize_t taken = write(to, bytes, count);
    CHECK(taken >= 0 || errno == EAGAIN || errno == EINTR);
    return taken > 0 ? (size_t)taken : 0;
}

// Writes a text and reads what comes back in the meantime, since neither side may have to wait for the other, until the
// replies end with `end`, or have `lines` lines. With no end the input is closed, and all replies are read.
static void exchange(struct process *process, const struct text *given, struct text *replies, const char *end,
                     size_t lines) {
    static uint8_t piece[PIECE];
    size_t written = 0;
    replies->count = 0;
    while (end == NULL || (!ends_with(replies, end) && lines > 0)) {
        if (end == NULL && written == given->count && process->to >= 0) {
            CHECK(close(process->to) == 0);
            process->to = -1;
        }
        struct pollfd ends[] = {{process->from, POLLIN, 0}, {written < given->count ? process->to : -1, POLLOUT, 0}};
        const int ready = poll(ends, 2, 1000 * SECONDS);
        if (ready < 0 && errno == EINTR)
            continue;
        CHECK(ready > 0);
        if (ends[1].revents != 0)
            written += give(process->to, given->bytes + written, given->count - written);
        if (ends[0].revents == 0)
            continue;
        const ssize_t got = read(process->from, piece, PIECE);
        if (got < 0 && errno == EINTR)
            continue;
        CHECK(got > 0 || (got == 0 && end == NULL));
        if (got == 0)
            return;
        append(replies, piece, (size_t)got);
        for (ssize_t i = 0; i < got; i++)
            lines -= piece[i] == '\n' && lines > 0;
    }
}

// Asks the kept process. A last request, whose reply is known and no earlier one, shows that each line had its reply.
static void ask(struct text *given, struct text *replies, size_t lines) {
    static struct process kept = {-1, -1, -1};
    static unsigned long long times;
    char request[64], end[64];
    if (kept.id < 0)
        start(&kept);
    times++;
    append(given, request, (size_t)sprintf(request, "pack 5 - %032llx\n", times));
    sprintf(end, "2 %032llx\n", times);
    exchange(&kept, given, replies, end, lines + 1);
    CHECK(ends_with(replies, end)); // no reply too many
    replies->count -= strlen(end);
    size_t replied = 0;
    for (size_t i = 0; i < replies->count; i++)
        replied += replies->bytes[i] == '\n';
    CHECK(replied == lines);
}

// Asks a process of its own, whose input ends where the text does.
static void ask_alone(const struct text *given, struct text *replies) {
    struct process process;
    int status;
    start(&process);
    exchange(&process, given, replies, NULL, 0);
    CHECK(close(process.from) == 0);
    CHECK(waitpid(process.id, &status, 0) == process.id && WIFEXITED(status) && WEXITSTATUS(status) == 0);
}

int LLVMFuzzerInitialize(int *count, char ***words) {
    (void)count;
    (void)words;
    CHECK(signal(SIGPIPE, SIG_IGN) != SIG_ERR); // a program that has ended is told by what `write` gives
    return 0;
}

int LLVMFuzzerTestOneInput(const uint8_t *input, size_t count) {
    static struct text given, again, replies, other_replies;
    const uint8_t last = count > 0 ? input[count - 1] : '\n';
    // A CR at the end of the input may be a part of its line or not. It is asked with a newline behind it.
    const int alone = last != '\n' && last != '\r' && input[0] == '#';
    given.count = again.count = 0;
    append(&given, input, count);
    if (alone) {
        ask_alone(&given, &other_replies);
        CHECK(other_replies.count == 0 || ends_with(&other_replies, "\n"));
    }
    if (last != '\n')
        append(&given, "\n", 1);
    size_t lines = 0;
    for (struct part rest = {given.bytes, given.count}; rest.count > 0;) {
        const struct part line = take_line(&rest);
        lines += !is_comment(line);
        append(&again, line.at, line.count);
        append(&again, "\r\n", 2);
    }
    const size_t asked = given.count;
    ask(&given, &replies, lines);
    CHECK(!alone || same_text(&replies, &other_replies));
    ask(&again, &other_replies, lines);
    struct part replies_left = {replies.bytes, replies.count};
    for (struct part rest = {given.bytes, asked}; rest.count > 0;) {
        const struct part line = take_line(&rest);
        if (!is_comment(line))
            check_reply(line, take(&replies_left, '\n'));
    }
    CHECK(same_text(&replies, &other_replies));
    return 0;
}
