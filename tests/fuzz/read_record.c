// A libFuzzer harness for saber_read_record, and for saber_write_record on what was read. The last byte of an input
// chooses the length that is lent for the ciphertext, and the bytes before it are the record. tests/fuzz/README.md says
// how to run it.
//
// What the record holds, and what has to be answered, is read here a second time, by the text of include/saber.h. The
// archive is not instrumented: coverage is that of the reading here, and AddressSanitizer sees what this file reads and
// writes and what the archive does by memcpy and memset. Each buffer is a block of exactly the bytes that are lent.
#include "../check.h"
#include "../sets.h"
#include <string.h>

enum { PAINT = 0xa5 }; // what every output holds when it is lent

enum { SHORT_DOOR = 1, TIME = 2, SET = 4, CIPHERTEXT = 8, WIDE_DOOR = 16 }; // the bits of the map

struct entry {
    uint8_t has_door, has_time;
    uint32_t door, set;
    uint64_t time;
};

static const struct entry painted = {PAINT, PAINT, PAINT, PAINT, PAINT};

static int same(const struct entry *a, const struct entry *b) {
    return a->has_door == b->has_door && a->has_time == b->has_time && a->door == b->door && a->set == b->set &&
           a->time == b->time;
}

static uint8_t *block(size_t count) {
    uint8_t *bytes = (uint8_t *)malloc(count);
    CHECK(bytes != NULL);
    memset(bytes, PAINT, count);
    return bytes;
}

static int is_painted(const uint8_t *bytes, size_t count) {
    for (size_t i = 0; i < count; i++)
        if (bytes[i] != PAINT)
            return 0;
    return 1;
}

static uint64_t low_first(const uint8_t *bytes, size_t count) {
    uint64_t number = 0;
    for (size_t i = 0; i < count; i++)
        number |= (uint64_t)bytes[i] << 8 * i;
    return number;
}

// The answer to a record and a length that is lent, and where the answer is 0 what the record holds. Its ciphertext is
// what stands behind the set byte.
static uint8_t expected_answer(const uint8_t *record, size_t count, size_t lent, struct entry *entry) {
    if (count == 0)
        return SABER_RECORD_MAP;
    const uint8_t map = record[0];
    const int unknown_bits = map > (SHORT_DOOR | TIME | SET | CIPHERTEXT | WIDE_DOOR);
    if (unknown_bits || (map & SHORT_DOOR && map & WIDE_DOOR) || !(map & SET) || !(map & CIPHERTEXT))
        return SABER_RECORD_MAP;
    const size_t door = map & SHORT_DOOR ? 2 : map & WIDE_DOOR ? 4 : 0, time = map & TIME ? 8 : 0;
    const size_t set_at = 1 + door + time;
    if (count < set_at + 1)
        return SABER_RECORD_LENGTH;
    const uint8_t set = record[set_at];
    if (set != SABER_SET_LIGHTSABER && set != SABER_SET_SABER && set != SABER_SET_FIRESABER)
        return SABER_UNKNOWN_SET;
    if (count != set_at + 1 + sets[set].ciphertext)
        return SABER_RECORD_LENGTH;
    if (map & WIDE_DOOR && low_first(record + 1, door) <= 65535)
        return SABER_RECORD_DOOR;
    if (lent != sets[set].ciphertext)
        return SABER_OUTPUT_LENGTH;
    entry->has_door = door > 0;
    if (door > 0)
        entry->door = (uint32_t)low_first(record + 1, door);
    entry->has_time = time > 0;
    if (time > 0)
        entry->time = low_first(record + 1 + door, time);
    entry->set = set;
    return SABER_OK;
}

// The ciphertext's count from the record's, as the header says for those who do not know the set.
static size_t count_from_record(const uint8_t *record, size_t count) {
    const uint8_t map = count > 0 ? record[0] : 0;
    const size_t rest = 2 + (map & 1 ? 2u : 0u) + (map & 16 ? 4u : 0u) + (map & 2 ? 8u : 0u);
    return count > rest ? count - rest : 0;
}

// The length that is lent: half of the choices give the one that the header's recipe gives.
static size_t length_to_lend(uint8_t choice, const uint8_t *record, size_t count) {
    const size_t right = count_from_record(record, count);
    switch (choice % 8) {
    case 4:
        return right + 1;
    case 5:
        return right > 0 ? right - 1 : 0;
    case 6:
        return sets[1 + choice / 8 % 3].ciphertext;
    case 7:
        return choice / 8;
    default:
        return right;
    }
}

// Writes an entry to a record of `count` bytes, and compares answer and bytes with what they have to be.
static void try_write(const struct entry *entry, uint32_t set, const uint8_t *ciphertext, size_t ciphertext_count,
                      const uint8_t *record, size_t count, uint8_t expected) {
    uint8_t *written = block(count);
    CHECK(saber_write_record(entry->has_door, entry->door, entry->has_time, entry->time, set, ciphertext,
                             ciphertext_count, written, count) == expected);
    CHECK(expected == SABER_OK ? memcmp(written, record, count) == 0 : is_painted(written, count));
    free(written);
}

// Writes what was read, which gives the same record: also with the other number that set 2 has, and with another flag
// for a field that is there. Of a wrong record's length, a wrong ciphertext's length and an unknown set, the earliest
// refusal is answered.
static void write_again(struct entry entry, const uint8_t *ciphertext, size_t lent, const uint8_t *record, size_t count,
                        uint8_t choice) {
    try_write(&entry, entry.set, ciphertext, lent, record, count, SABER_OK);
    if (entry.set == SABER_SET_SABER)
        try_write(&entry, SABER_SET_DEFAULT, ciphertext, lent, record, count, SABER_OK);
    entry.has_door = entry.has_door ? choice | 1 : 0;
    entry.has_time = entry.has_time ? choice | 1 : 0;
    try_write(&entry, entry.set, ciphertext, lent, record, count, SABER_OK);
    try_write(&entry, entry.set, ciphertext, lent, record, count - 1, SABER_OUTPUT_LENGTH);
    try_write(&entry, entry.set, ciphertext, lent, record, count + 1, SABER_OUTPUT_LENGTH);
    try_write(&entry, entry.set, ciphertext, lent - 1, record, count - 1, SABER_CIPHERTEXT_LENGTH);
    try_write(&entry, 4 + (uint32_t)choice, ciphertext, lent - 1, record, count - 1, SABER_UNKNOWN_SET);
}

int LLVMFuzzerTestOneInput(const uint8_t *input, size_t input_count) {
    const size_t count = input_count > 0 ? input_count - 1 : 0;
    const uint8_t choice = input_count > 0 ? input[count] : 0;
    uint8_t *record = block(count);
    if (count > 0)
        memcpy(record, input, count);
    const size_t lent = length_to_lend(choice, record, count);
    uint8_t *ciphertext = block(lent);

    struct entry expected = painted, found = painted;
    const uint8_t answer = saber_read_record(record, count, &found.has_door, &found.door, &found.has_time, &found.time,
                                             &found.set, ciphertext, lent);
    CHECK(answer == expected_answer(record, count, lent, &expected));
    CHECK(same(&found, &expected));
    CHECK(count == 0 || memcmp(record, input, count) == 0);
    if (answer == SABER_OK) {
        CHECK(count_from_record(record, count) == lent);
        CHECK(memcmp(ciphertext, record + count - lent, lent) == 0);
        write_again(found, ciphertext, lent, record, count, choice);
    } else {
        CHECK(is_painted(ciphertext, lent));
    }
    free(record);
    free(ciphertext);
    return 0;
}
