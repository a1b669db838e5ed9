"""The program marginreport against the oracle.

    python3 tests/margins.py [--seed N] [--count N] [--program FILE]

The oracle computes the figures of COUNT random groups of each set, on all processors. The program is given them one by
one, in pairs, and up to 4,096 and beyond (repeated where COUNT is smaller), with bytes left over; first bytes that are
refused; input that comes in pieces or that stays open; and files that must not be read to their end. The first
difference ends the run with 1, and so does a planted one that is not found. The seed that is printed repeats a run.
"""

import fcntl
import itertools
import multiprocessing
import os
import random
import struct
import subprocess
import sys
import tempfile
import termios
import threading
import time
from collections import Counter

from drawing import options

import saber
from planted import ALTERATIONS, Difference, must_find

MOST = saber.MOST_GROUPS
SECONDS = 60


# Inputs


def computed(draw, count):
    """Groups of each set, enough for one that is not read, and the figures of all."""
    drawn = [(set, draw.randbytes(saber.GROUP)) for set in saber.SETS.values() for _ in range(count)]
    with multiprocessing.Pool() as pool:
        figures = dict(zip(drawn, pool.starmap(saber.figures, drawn, chunksize=64)))
    groups = {}
    for number, set in saber.SETS.items():
        enough = itertools.islice(itertools.cycle([group for other, group in drawn if other == set]), MOST + 1)
        groups[number] = sorted(enough, key=lambda group: figures[set, group][0], reverse=True)
    return groups, figures


def of_groups(number, groups, over=b""):
    return bytes([number]) + b"".join(groups) + over


def sound_inputs(number, groups):
    """Of groups whose margins fall, so that the last one that is read has the least."""
    most, least = groups[0], groups[-1]
    for some, rest in itertools.product(([], [most], [most, least], [least, most]), (0, 1, 95)):
        yield "few groups", of_groups(number, some, least[:rest])
    for group in groups[::16]:
        yield "single groups", of_groups(number, [group])
    for count, rest in ((MOST - 1, 95), (MOST, 0), (MOST, 50), (MOST + 1, 0)):
        yield "many groups", of_groups(number, groups[:count], least[:rest])
    yield "many groups", of_groups(number, groups[MOST - 1 :: -1])


def refused_inputs(groups):
    yield b""
    for byte in {*range(256)} - saber.SETS.keys():
        for count, rest in ((0, 0), (0, 1), (2, 95)):
            yield of_groups(byte, groups[:count], groups[-1][:rest])


def cut(given, sizes):
    """The input in pieces of these sizes, in turn."""
    for size in itertools.cycle(sizes):
        if not given:
            return
        yield given[:size]
        given = given[size:]


# Runs


def held(pipe):
    """How many bytes nobody has read yet."""
    [count] = struct.unpack("i", fcntl.ioctl(pipe, termios.FIONREAD, bytes(4)))
    return count


class Trial:
    """Runs of the program. What each gave is altered before it is compared, where a difference is to be planted."""

    def __init__(self, program, figures, alter=lambda *run: run):
        self.program, self.alter = str(program.resolve()), alter
        self.figures = figures
        self.inputs = Counter()

    def compare(self, kind, given, found, status, errors):
        """Notes a run, or raises how it differs."""
        expected = saber.margin_report(given, lambda set, group: self.figures[set, group])
        found, status, errors = self.alter(found, status, errors)
        if (found, status, errors) != (expected, 0, b""):
            shown = f"{len(given)} bytes, {given[:1].hex()} the first\nexpected: {expected!r}\nfound: {found!r}"
            raise Difference(f"{kind}: {shown}, status {status}, {errors!r} on standard error")
        self.inputs[kind] += 1

    def whole(self, kind, given):
        done = subprocess.run([self.program], input=given, capture_output=True, timeout=SECONDS)
        self.compare(kind, given, done.stdout, done.returncode, done.stderr)

    def in_pieces(self, kind, pieces, stays_open=False):
        """Each piece is written when the one before is read. The input may stay open until the program has ended."""
        pipe, pieces = subprocess.PIPE, [*pieces]
        with subprocess.Popen([self.program], stdin=pipe, stdout=pipe, stderr=pipe, bufsize=0) as process:
            limit = threading.Timer(SECONDS, process.kill)
            limit.start()
            try:
                for piece in pieces:
                    process.stdin.write(piece)
                    while held(process.stdin) and process.poll() is None:
                        time.sleep(0.00001)
            except BrokenPipeError:  # it has ended
                pass
            if not stays_open:
                process.stdin.close()
            process.wait()
            limit.cancel()
            found, errors = process.stdout.read(), process.stderr.read()
        self.compare(kind, b"".join(pieces), found, process.returncode, errors)

    def left(self, kind, given, count):
        """From a file, of which `count` bytes are read and no more."""
        with tempfile.TemporaryFile() as file:
            file.write(given)
            file.seek(0)
            done = subprocess.run([self.program], stdin=file, capture_output=True, timeout=SECONDS)
            read = os.lseek(file.fileno(), 0, os.SEEK_CUR)
        if read != count:
            raise Difference(f"{kind}: {read} bytes of {len(given)} are read, not {count}")
        self.compare(kind, given, done.stdout, done.returncode, done.stderr)


def find_planted(program, figures, text):
    """Plants differences in every way that the program is run on a text. Gives how many were found."""
    count = 0
    for alter in ALTERATIONS:
        trial, kind = Trial(program, figures, alter), "planted"
        whole, in_pieces = [trial.whole, kind, text], [trial.in_pieces, kind, [text]]
        for run in (whole, in_pieces, [trial.left, kind, text, len(text)]):
            must_find("margins", *run)
            count += 1
    must_find("margins, bytes that are left", Trial(program, figures).left, "planted", text, len(text) - 1)
    return count + 1


def main():
    given = options("margins", MOST + 1, "groups of each set", program="target/bin/marginreport")
    draw = random.Random(given.seed)
    groups, figures = computed(draw, given.count)
    trial = Trial(given.program, figures)
    try:
        for text in refused_inputs(groups[1]):
            trial.whole("refused", text)
        for byte in (0, 4, 255):
            trial.in_pieces("refused, open", [bytes([byte])], stays_open=True)
            trial.in_pieces("refused, open", [of_groups(byte, groups[1][:1])], stays_open=True)
            trial.left("refused, left", of_groups(byte, groups[1][:2]), 1)
        for number, falling in groups.items():
            for kind, text in sound_inputs(number, falling):
                trial.whole(kind, text)
            trial.in_pieces("byte by byte", cut(of_groups(number, falling[:2], falling[-1][:95]), [1]))
            for sizes in ([95], [96], [97], [1, 191], [4099], draw.choices(range(1, 1000), k=50)):
                trial.in_pieces("in pieces", cut(of_groups(number, falling[-200:], falling[0][:95]), sizes))
            for rest in (0, 50, 96):
                text = of_groups(number, falling[:MOST], falling[-1][:rest])
                trial.in_pieces("many groups, open", cut(text, [4099]), stays_open=True)
                trial.left("many groups, left", text, 1 + saber.GROUP * MOST)
    except Difference as difference:
        print(f"difference, {difference}")
        return 1
    print("inputs: " + ", ".join(f"{kind} {count}" for kind, count in trial.inputs.items()))
    for number, set in saber.SETS.items():
        found = [figures[key] for key in figures if key[0] == set]
        margins, wrong = [margin for margin, _ in found], sum(bits for _, bits in found)
        print(f"set {number}: {len(found)} groups, margins {min(margins)} to {max(margins)}, {wrong} bits wrong")
    planted = find_planted(given.program, figures, of_groups(3, groups[3][:2]))
    print(f"{trial.inputs.total()} inputs, no difference; {planted} planted differences were found")
    return 0


if __name__ == "__main__":
    sys.exit(main())
