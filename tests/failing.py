"""The programs where a read or a write fails, against the oracle.

    python3 tests/failing.py

A program stops at the first call that fails, writes nothing after it, and says so in one line on standard error. A call
that is interrupted is made again. Tried are: full, closed, limited and non-blocking outputs, and ones that nobody
reads; inputs that are closed, that cannot be read, and that fail in the middle; and, by tests/failing.c in front of the
C library, a failure of each single write and read, interrupted calls, and calls that move few bytes. The first
difference ends the run with 1.
"""

import errno
import fcntl
import os
import random
import resource
import signal
import subprocess
import sys
import tempfile
from collections import Counter
from pathlib import Path

from drawing import ROOT, sound_arguments

import notation
import saber
from calls import CALLS
from linked import OPTIONS
from planted import ALTERATIONS, Difference, must_find

SECONDS = 60
LIMIT = 4096  # of a file, in bytes


def requests():
    """A line for each call with sound arguments, one that cannot be read, and one without its newline."""
    draw = random.Random(1)
    lines = [notation.write_request(name, *sound_arguments(draw, call, sets=[1])) for name, call in CALLS.items()]
    return b"\n".join([*lines, b"pack x - -", b"pack 5 - a5"])


def groups():
    return bytes([1]) + bytes(2 * saber.GROUP + 5)


REQUESTS, GROUPS = requests(), groups()
PROGRAMS = {  # what each is given, and what it writes where nothing fails
    "sabercall": (REQUESTS, notation.answer_lines(REQUESTS)),
    "marginreport": (GROUPS, saber.margin_report(GROUPS)),
    "saberset": (b"", saber.table().encode()),
}
READERS = ("sabercall", "marginreport")


def said(program, stream, error):
    return f"{program}: standard {stream}: {os.strerror(error)}\n".encode()


def whole_answers(given):
    """What sabercall writes for the lines of an input that have a newline."""
    return notation.answer_lines(given[: given.rfind(b"\n") + 1])


class Trial:
    def __init__(self, folder):
        self.runs = Counter()
        self.library = Path(folder) / "failing.so"
        self.file = Path(folder) / "output"
        self.input = Path(folder) / "input"
        source = ROOT / "tests/failing.c"
        subprocess.run(["cc", *OPTIONS, "-shared", "-fPIC", "-o", self.library, source], check=True)

    def compare(self, kind, program, found, expected):
        """Notes a run, or raises how it differs: in what it wrote, its exit status, or what it said."""
        if found != expected:
            raise Difference(f"{kind}, {program}:\nexpected: {expected}\nfound:    {found}")
        self.runs[kind] += 1

    def run(self, program, given, **options):
        """What a program wrote, its exit status, and what it said on standard error."""
        options = dict(input=given, stdout=subprocess.PIPE, stderr=subprocess.PIPE, timeout=SECONDS) | options
        done = subprocess.run([ROOT / "target" / "bin" / program], **options)
        return done.stdout, done.returncode, done.stderr

    def preloaded(self, program, given, **settings):
        """From a file: a read of a pipe may find fewer bytes than it asks for, by how fast the pipe is filled."""
        names = {name: str(value) for name, value in settings.items()}
        self.input.write_bytes(given)
        with open(self.input, "rb") as source:
            return self.run(program, None, stdin=source, env=os.environ | names | {"LD_PRELOAD": str(self.library)})

    def full(self, program, given):
        with open("/dev/full", "wb") as output:
            found = self.run(program, given, stdout=output)
        self.compare("a full device", program, found, (None, 0, said(program, "output", errno.ENOSPC)))

    def closed(self, program, given):
        found = self.run(program, given, stdout=subprocess.DEVNULL, preexec_fn=lambda: os.close(1))
        self.compare("a closed output", program, found, (None, 0, said(program, "output", errno.EBADF)))

    def limited(self, program, given, expected, limit):
        """To a file of limited size: the system ends the program, or tells it, where it ignores the signal."""

        def lower():
            resource.setrlimit(resource.RLIMIT_FSIZE, (limit, limit))

        for restored, *right in (
            (True, -signal.SIGXFSZ, b""),
            (False, 0, said(program, "output", errno.EFBIG)),  # Python ignores that signal, and so do its children
        ):
            with open(self.file, "wb") as output:
                _, *rest = self.run(program, given, stdout=output, preexec_fn=lower, restore_signals=restored)
            found = (self.file.read_bytes(), *rest)
            self.compare("a limited file", program, found, (expected[:limit], *right))

    def unread(self, program, given):
        """To a pipe that nobody reads: a program of Rattle's ignores the signal, and says so, as where it is ignored."""
        right = (0, said(program, "output", errno.EPIPE))
        for restored in (True, False):
            reader, writer = os.pipe()
            os.close(reader)
            found = self.run(program, given, stdout=writer, restore_signals=restored)
            os.close(writer)
            self.compare("a pipe that nobody reads", program, found, (None, *right))

    def slow(self, program, given, expected):
        """To a non-blocking pipe with room for some bytes, which is read when the program has ended."""
        for room in (0, len(expected) // 2):
            reader, writer = os.pipe()
            held = bytes(fcntl.fcntl(writer, fcntl.F_GETPIPE_SZ) - 4096 * -(-room // 4096))
            os.set_blocking(writer, False)
            assert os.write(writer, held) == len(held)
            _, *rest = self.run(program, given, stdout=writer)
            os.close(writer)
            with open(reader, "rb") as pipe:
                written = pipe.read()[len(held) :]
            if len(written) == len(expected):
                self.compare("a slow reader", program, (written, *rest), (expected, 0, b""))
            else:
                right = (expected[: len(written)], 0, said(program, "output", errno.EAGAIN))
                self.compare("a slow reader", program, (written, *rest), right)

    def failing_writes(self, program, given, expected):
        """The k-th write fails, for each k that there is. Later ones would not, so that their bytes would be seen."""
        before = -1
        for call in range(1, 10000):
            found = self.preloaded(program, given, WRITE_FAILS=call, ERROR=errno.ENOSPC)
            count = len(found[0])
            if count == len(expected):
                self.compare("each write", program, found, (expected, 0, b""))
                return
            right = (expected[:count], 0, said(program, "output", errno.ENOSPC))
            self.compare("each write", program, found, right)
            if count <= before:
                raise Difference(f"{program}: {count} bytes before write {call}, {before} before the last one")
            before = count
        raise Difference(f"{program}: no write is the last")

    def interrupted(self, program, given, expected):
        for most in (0, 1, 7):
            found = self.preloaded(program, given, INTERRUPTED=1, MOST=most)
            self.compare("interrupted calls", program, found, (expected, 0, b""))

    def unreadable(self, program):
        """Input that is closed, and input that opens and cannot be read."""
        closed = self.run(program, None, stdin=subprocess.DEVNULL, preexec_fn=lambda: os.close(0))
        self.compare("a closed input", program, closed, (b"", 0, said(program, "input", errno.EBADF)))
        folder = os.open("/", os.O_RDONLY)
        found = self.run(program, None, stdin=folder)
        os.close(folder)
        self.compare("a folder as input", program, found, (b"", 0, said(program, "input", errno.EISDIR)))

    def failing_reads(self, program, given):
        """The k-th read of few bytes fails; and a non-blocking pipe holds some bytes and no end."""
        size = 1 + len(given) // 50
        for call in range(1, 50):
            found = self.preloaded(program, given, READ_FAILS=call, ERROR=errno.EIO, MOST=size)
            self.compare("each read", program, found, self.half(program, given[: size * (call - 1)], errno.EIO))
        for count in (0, 1, 50, len(given) - 1):
            reader, writer = os.pipe()
            os.set_blocking(reader, False)
            os.write(writer, given[:count])
            found = self.run(program, None, stdin=reader)
            os.close(reader)
            os.close(writer)
            self.compare("a slow writer", program, found, self.half(program, given[:count], errno.EAGAIN))

    def half(self, program, given, error):
        """What is right where the input fails behind these bytes: whole lines are answered, and there is no report."""
        return whole_answers(given) if program == "sabercall" else b"", 0, said(program, "input", error)


def find_planted(trial):
    """Plants differences in runs in which nothing fails. Gives how many were found."""
    for program, (given, expected) in PROGRAMS.items():
        found = trial.run(program, given)
        for alter in ALTERATIONS:
            must_find("failing", trial.compare, "planted", program, alter(*found), (expected, 0, b""))
    return len(PROGRAMS) * len(ALTERATIONS)


def main():
    with tempfile.TemporaryDirectory() as folder:
        trial = Trial(folder)
        try:
            planted = find_planted(trial)
            for program, (given, expected) in PROGRAMS.items():
                trial.compare("nothing fails", program, trial.run(program, given), (expected, 0, b""))
                trial.full(program, given)
                trial.closed(program, given)
                trial.limited(program, given, expected, min(LIMIT, len(expected) // 2))
                trial.unread(program, given)
                trial.slow(program, given, expected)
                trial.failing_writes(program, given, expected)
                trial.interrupted(program, given, expected)
            for program in READERS:
                trial.unreadable(program)
                trial.failing_reads(program, PROGRAMS[program][0])
        except Difference as difference:
            print(f"difference, {difference}")
            return 1
    print("runs: " + ", ".join(f"{kind} {count}" for kind, count in trial.runs.items()))
    print(f"failing: {trial.runs.total()} runs, no difference; {planted} planted differences were found")
    return 0


if __name__ == "__main__":
    sys.exit(main())
