"""Records, sound and mutated, through the program sabercall and through the C interface, against the oracle.

    python3 tests/records.py [--seed N] [--count N] [--program FILE] [--archive FILE]

Each of COUNT records is that of an entry that is drawn, changed in one of the ways below. The entry is written, the
record is read, and what was read from it is written again, which has to give the same record. The first difference ends
the run with 1 and a line for `sabercall`. So does a planted one that is not found. The seed that is printed repeats a
run.
"""

import random
import subprocess
import sys
import tempfile
from collections import Counter

from drawing import options, sound_arguments

import notation
import saber
from calls import CALLS
from library import Breach, Library
from planted import Difference, must_find, turned
from samples import laid_record, with_bit_turned

WRITE, READ = CALLS["write_record"], CALLS["read_record"]
LENGTHS = [set.ciphertext for set in saber.SETS.values()]
MAPS = (12, 13, 14, 15, 28, 30)
HEAD = 16  # bytes before the ciphertext, at most: both doors count


# Changes of a record; `other` is another one


def bits_turned(draw, record, other):
    for _ in range(draw.randrange(1, 4)):
        record = with_bit_turned(record, draw.randrange(8 * draw.choice((HEAD, len(record)))))
    return record


def cut(draw, record, other):
    return record[: draw.choice((draw.randrange(HEAD + 2), draw.randrange(len(record)), len(record) - 1))]


def drawn_out(draw, record, other):
    return record + draw.choice((b"\0", draw.randbytes(draw.randrange(1, 20)), other))


def spliced(draw, record, other):
    """The start of one and the end of the other, cut at any places or so that the length is that of one of them."""
    start = draw.choice((draw.randrange(HEAD + 1), draw.randrange(len(record))))
    end = draw.choice((start, max(len(other) - len(record) + start, 0), draw.randrange(len(other))))
    return record[:start] + other[end:]


def other_map(draw, record, other):
    """Any valid map; or the same map with bit 4 turned, which often gives both doors; or any byte."""
    return bytes([draw.choice((draw.choice(MAPS), record[0] ^ 16, draw.randrange(256)))]) + record[1:]


def with_set_byte(record, byte):
    place = saber.set_place(record[0])
    return record[:place] + bytes([byte]) + record[place + 1 :]


def other_set_byte(draw, record, other):
    return with_set_byte(record, draw.choice((0, 1, 2, 3, 4, 5, 6, 255, draw.randrange(256))))


def narrow_wide_door(draw, record, other):
    """A wide field that holds 65535 or less, and all else as it was."""
    _, *rest = saber.read_record(record)
    return laid_record(None, *rest, wide=draw.choice((0, 1, 255, 256, 65535, draw.randrange(65536))))


def any_bytes(draw, record, other):
    """Any bytes behind any valid map, wide doors more often, with a set byte of 0 to 4; or any bytes at all.

    Often with a sound length.
    """
    string = draw.randbytes(draw.choice((len(record), draw.randrange(30), draw.randrange(1600))))
    if draw.random() < 0.3:
        return string
    return with_set_byte(bytes([draw.choice((*MAPS, 28, 30))]) + string[1:], draw.randrange(5))


def unchanged(draw, record, other):
    return record


CHANGES = {
    "as written": unchanged,
    "bits turned": bits_turned,
    "cut": cut,
    "drawn out": drawn_out,
    "spliced": spliced,
    "another map": other_map,
    "another set byte": other_set_byte,
    "a narrow wide door": narrow_wide_door,
    "any bytes": any_bytes,
    "to a wrong length": unchanged,
}


# Calls


def output_length(draw, way, record):
    """The length that a ciphertext read from the record would have, but often another."""
    set = saber.set_in(record)
    right = set.ciphertext if set else draw.choice(LENGTHS)
    if way == "to a wrong length" or draw.random() < 0.1:
        return draw.choice((0, 1, right - 1, right + 1, *(length for length in LENGTHS if length != right)))
    return right


def calls_of(draw, way):
    """The calls with a record that is changed in a way: its entry is written, it is read, and what was read written."""
    entry, other = sound_arguments(draw, WRITE), sound_arguments(draw, WRITE)
    [record], [spare] = (WRITE.run(*arguments)[1] for arguments in (entry, other))
    changed = CHANGES[way](draw, record, spare)
    read = [changed, draw.randbytes(output_length(draw, way, changed))]
    yield WRITE, [*entry[:-1], draw.randbytes(len(record))]
    yield READ, read
    answer, values = READ.run(*read)
    if answer == 0:
        again = [*values, draw.randbytes(len(changed))]
        assert WRITE.run(*again) == (0, [changed]), "the oracle writes what it read"
        yield WRITE, again


def through_program(program, calls):
    """The answers of sabercall, a line each."""
    requests = b"".join(notation.write_request(call.name, *arguments) + b"\n" for call, arguments in calls)
    done = subprocess.run([program.resolve()], input=requests, stdout=subprocess.PIPE, check=True)
    lines = done.stdout.split(b"\n")[:-1]
    if len(lines) != len(calls):
        sys.exit(f"{len(lines)} answers of sabercall to {len(calls)} calls")
    return lines


def through_c(draw, archive, calls):
    """The answers of the C interface, in the same words."""
    with tempfile.TemporaryDirectory() as folder:
        library = Library(archive, folder)
        for call, arguments in calls:
            try:
                yield notation.write_answer(call.name, *library.run(draw, call, arguments))
            except Breach as breach:
                yield str(breach).encode()


def compare(side, calls, expected, found):
    """Raises the first difference."""
    for (call, arguments), right, wrong in zip(calls, expected, found, strict=True):
        if right != wrong:
            request = notation.write_request(call.name, *arguments).decode()
            shown = f"{request}\nexpected: {right.decode()}\nfound: {wrong.decode()}"
            raise Difference(f"difference through {side}. Request:\n{shown}")


def find_planted(side, calls, expected, found):
    """Plants a bit and another number in the last accepted answer. Gives how many were found."""
    last = max(i for i, line in enumerate(expected) if line.startswith(b"0 "))
    planted = turned(found[last]), turned(found[last][:1]) + found[last][1:]
    for line in planted:
        must_find(f"records, {side}", compare, side, calls, expected, [*found[:last], line, *found[last + 1 :]])
    return len(planted)


def main():
    files = dict(program="target/bin/sabercall", archive="target/staticlib/libsaber.a")
    given = options("records", 1000, "records", **files)
    draw = random.Random(given.seed)
    calls, answers = [], {way: Counter() for way in CHANGES}
    for i in range(given.count):
        way = [*CHANGES][i % len(CHANGES)]
        found = [*calls_of(draw, way)]
        calls += found
        answers[way].update(call.run(*arguments)[0] for call, arguments in found if call is READ)
    expected = [notation.write_answer(call.name, *call.run(*arguments)) for call, arguments in calls]
    planted = 0
    for side, found in (
        ("sabercall", through_program(given.program, calls)),
        ("C", [*through_c(draw, given.archive, calls)]),
    ):
        try:
            compare(side, calls, expected, found)
        except Difference as difference:
            print(difference)
            return 1
        planted += find_planted(side, calls, expected, found)
    for way, counts in answers.items():
        print(f"{way}: " + ", ".join(f"{count} -> {answer}" for answer, count in sorted(counts.items())))
    total = Counter(call.name for call, _ in calls)
    made = " and ".join(f"{count} of {name}" for name, count in total.items())
    print(f"{made}, through sabercall and through C, no difference; {planted} planted differences were found")
    return 0


if __name__ == "__main__":
    sys.exit(main())
