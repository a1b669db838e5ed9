"""The program sabercall under hostile input, against the oracle's notation.

    python3 tests/hostile.py [--seed N] [--count N] [--program FILE]

Lines of any bytes, damaged requests, damaged signed lists, lines about and far beyond 65,536 bytes, carriage returns
before newlines and elsewhere, no newline at the end, input that comes in pieces, and input that is empty. COUNT is how
many inputs of each random kind are tried. The first difference ends the run with 1, and so does a planted one that is
not found.
"""

import itertools
import random
import subprocess
import sys
from collections import Counter

from drawing import options, sound_arguments

import notation
from calls import CALLS
from planted import ALTERATIONS, Difference, must_find

LIMIT = notation.LONGEST
NEAR = b"0123456789abcdefABCDEFg-,+ #\t\r\0\xff"
WORDS = b"- -- 00 000 0000 1 2 3 13 0000000000000000001 4294967295 4294967296 99999999999 65535 65536".split()
WORDS += b"18446744073709551615 18446744073709551616 0c 0c01 0d000003 0f 1c 1d 1cffff000001".split()
WORDS += b"0,-4,4 -4 4,-4 -128,127 128 -129 0, ,0 -,- 0,,0 4- --4 +4 -0".split()
PIECES = b"0 -0 00 4 -4 04 -004 127 -128 0127 -0128".split()  # of signed lists
WRONG_PIECES = b"128 -129 0128 -0129 255 -256 65408 4294967168 18446744073709551488 18446744073709551616".split()
WRONG_PIECES += [b"", *b"- -- --4 4- 4-4 -4- +4 + a 0a 0x4 4.0 4;4 4\0 4\xff".split(b" ")]
SECONDS = 60


# Inputs


def sound_requests(draw):
    """A request to each call, with the least set, so that what a run answers fits a pipe."""
    return [notation.write_request(name, *sound_arguments(draw, call, sets=[1])) for name, call in CALLS.items()]


def any_bytes(draw):
    return draw.randbytes(draw.randrange(3000))


def any_words(draw):
    """Lines of a call's name and words that are arguments or nearly so."""

    def word():
        return draw.choice(WORDS) if draw.random() < 0.7 else bytes(draw.choices(NEAR, k=draw.randrange(12)))

    def line():
        return b" ".join([draw.choice(list(CALLS)).encode(), *(word() for _ in range(draw.randrange(8)))])

    return b"\n".join(line() for _ in range(draw.randrange(1, 20))) + b"\n" * draw.randrange(3)


def damaged(draw, line):
    """The line with one place changed, or a part of it left out, doubled or put in."""
    start, end = sorted(draw.randrange(len(line) + 1) for _ in range(2))
    part = line[start:end]
    change = draw.choice((b"", 2 * part, b" ", b"\n", draw.randbytes(1), bytes([draw.choice(NEAR)]) + part[1:]))
    return line[:start] + change + line[end:]


def damaged_requests(draw):
    """Requests of which every second one is damaged; the last may lack its end."""
    lines = [damaged(draw, line) if draw.random() < 0.5 else line for line in sound_requests(draw)]
    draw.shuffle(lines)
    end = draw.choice((b"\n", b"\r\n"))
    return end.join(lines) + end * draw.randrange(2)


def signed_word(draw):
    """A signed list, or nearly one: with one or two pieces that are none, with very long digits, or damaged."""
    count, way = draw.choice((1, 2, 5, 30, 511, 512, 513)), draw.choice(("sound", "wrong pieces", "long", "damaged"))
    pieces = [draw.choice(PIECES) if draw.random() < 0.3 else b"%d" % draw.randrange(-128, 128) for _ in range(count)]
    if way == "wrong pieces":
        for _ in range(draw.choice((1, 2))):
            pieces[draw.randrange(count)] = draw.choice(WRONG_PIECES)
    if way == "long":
        digits = draw.choice((b"0", b"1", b"9")) * draw.randrange(1, 9000) + draw.choice((b"", b"4", b"128"))
        pieces[draw.randrange(count)] = draw.choice((b"", b"-")) + digits
    word = b",".join(pieces)
    return damaged(draw, word) if way == "damaged" else word


def signed_lists(draw):
    """Requests of gen_secret with such words."""
    words = [signed_word(draw) for _ in range(draw.randrange(1, 12))]
    starts = [b"gen_secret 1 " + b"5a" * 32, b"gen_secret 1 -", b"gen_secret 4 -"]
    return b"\n".join(draw.choice(starts) + b" " + word for word in words) + b"\n" * draw.randrange(2)


def filled(start, piece, length):
    """A line of `length` bytes that ends in a signed list: 0, with zeros in front as needed, and a piece repeated."""
    room = length - len(start)
    return start + (piece * ((room - 1) // len(piece))).rjust(room, b"0")


def long_lists(length):
    """Lines with signed lists: of a repeated piece, one with as many numbers as set 1 takes, and with faults."""
    refused, sampled = b"gen_secret 4 - ", b"gen_secret 1 " + b"5a" * 32 + b" "
    for start, piece in itertools.product((refused, sampled), (b",0", b",-4", b",-128", b",128", b",", b",-", b"-")):
        yield filled(start, piece, length)
    yield filled(sampled, b",".ljust((length - len(sampled) - 1) // 511, b"0"), length)
    for first, last in ((b"", b","), (b"", b",128"), (b"", b",-"), (b",", b""), (b"128,", b",x"), (b"-129,", b",-128")):
        yield filled(refused + first, b",-7", length - len(last)) + last


def long_lines():
    """Lines about and far beyond the longest, and a sound one after each."""
    sound = notation.write_request("sha3_256", b"abc", bytes(32))
    digest = b" " + 64 * b"0"
    for length in (LIMIT - 2, LIMIT - 1, LIMIT, LIMIT + 1, LIMIT + 2, 2 * LIMIT, 2 * LIMIT + 1, 16 * LIMIT + 7):
        hashed = b"sha3_256 " + b"a5" * (length // 2 - 37)
        for line in (
            *(long_lists(length) if length < 2 * LIMIT else ()),
            hashed + digest + b"0" * (length % 2),
            b"shake128 - ".ljust(length, b"7"),
            b"keygen" + b" -" * (length // 2 - 3) + b" " * (length % 2),
            b"pack ".ljust(length, b"0"),
            b"gen_secret 4 - -".ljust(length, b"0"),
            *(filling * length for filling in (b" ", b"\0", b"\xff", b"-", b"0")),
            b"#".ljust(length, b"x"),
        ):
            assert len(line) == length
            yield line
            for end in (b"\n", b"\r\n", b"\r\r\n"):
                yield line + end + sound + end


def ends():
    """Ends of input, and lines that are nearly nothing."""
    sound = notation.write_request("sha3_256", b"abc", bytes(32))
    odd = [b"", b"#", b" ", b"\r", b"\0", b"-"]
    for line in [*odd, *(sound + end for end in odd), b"# " + sound, b" " + sound]:
        for newlines in range(3):
            yield line + b"\n" * newlines
            yield b"\n" * newlines + line


# Runs


def kind_of(answer):
    """The number of an answer, the whole of an error, or `part` for what the lookup hands back."""
    word = answer.split(b" ")[0]
    if word == b"error":
        return answer.decode()
    return word.decode() if word.isdigit() and len(word) < 3 else "part"


class Trial:
    """Runs of the program. What each gave is altered before it is compared, where a difference is to be planted."""

    def __init__(self, program, alter=lambda *run: run):
        self.program, self.alter = str(program.resolve()), alter
        self.inputs, self.answers = Counter(), Counter()
        self.lines = self.bytes = 0

    def compare(self, kind, given, found, status, errors):
        """Notes a run, or raises the first line at which it differs."""
        expected = notation.answer_lines(given)
        found, status, errors = self.alter(found, status, errors)
        if status != 0 or errors:
            raise Difference(f"{kind}: status {status}, {errors!r} on standard error; input {given[:200]!r}")
        if found != expected:
            asked = [line for line in notation.lines_of(given) if not line.startswith(b"#")]
            rows = zip(asked + [b""], expected.split(b"\n"), found.split(b"\n"))
            line, right, wrong = next(row for row in rows if row[1] != row[2])
            shown = f"{line[: LIMIT + 1]!r}\nexpected: {right!r}\nfound: {wrong!r}"
            raise Difference(f"{kind}: a line of {len(line)} bytes\n{shown}")
        self.inputs[kind] += 1
        self.lines += len(notation.lines_of(given))
        self.bytes += len(given)
        self.answers.update(map(kind_of, notation.lines_of(expected)))

    def whole(self, kind, given):
        done = subprocess.run([self.program], input=given, capture_output=True, timeout=SECONDS)
        self.compare(kind, given, done.stdout, done.returncode, done.stderr)

    def in_pieces(self, kind, given, draw):
        """The input cut at any places, each piece written by itself. Answers have to fit a pipe."""
        pipe = subprocess.PIPE
        with subprocess.Popen([self.program], stdin=pipe, stdout=pipe, stderr=pipe, bufsize=0) as process:
            rest = given
            while rest:
                size = draw.randrange(1, 1000)
                process.stdin.write(rest[:size])
                rest = rest[size:]
            found, errors = process.communicate(timeout=SECONDS)
        self.compare(kind, given, found, process.returncode, errors)


def find_planted(program, draw):
    """Plants differences in every way that the program is run. Gives how many were found."""
    text, count = b"\n".join(sound_requests(draw)), 0
    for alter in ALTERATIONS:
        trial = Trial(program, alter)
        for run in ([trial.whole, "planted", text], [trial.in_pieces, "planted", text, draw]):
            must_find("hostile", *run)
            count += 1
    return count


def main():
    given = options("hostile", 200, "inputs of each random kind", program="target/bin/sabercall")
    draw = random.Random(given.seed)
    trial = Trial(given.program)
    try:
        for text in ends():
            trial.whole("ends", text)
        for text in long_lines():
            trial.whole("long lines", text)
        for _ in range(given.count):
            trial.whole("any bytes", any_bytes(draw))
            trial.whole("any words", any_words(draw))
            trial.whole("damaged requests", damaged_requests(draw))
            trial.whole("signed lists", signed_lists(draw))
            trial.in_pieces("in pieces", damaged_requests(draw), draw)
    except Difference as difference:
        print(f"difference, {difference}")
        return 1
    print("inputs: " + ", ".join(f"{kind} {count}" for kind, count in trial.inputs.items()))
    print("answers: " + ", ".join(f"{answer} {count}" for answer, count in sorted(trial.answers.items())))
    planted = find_planted(given.program, draw)
    made = f"{sum(trial.inputs.values())} inputs, {trial.lines} lines, {trial.bytes} bytes"
    print(f"{made}, no difference; {planted} planted differences were found")
    return 0


if __name__ == "__main__":
    sys.exit(main())
