"""The plain implementation in C (oracle/plain.c) against the known-answer files of vectors/kat.

    python3 tests/plain.py

It has to give keys, ciphertext and shared secret of every entry, and the oracle's rejected secret where one bit of the
ciphertext is turned: the first bit in a file's first entry, on to the lowest of the last coefficient in its last. It
exits with 1 on a difference, and where it does not find those that it plants in a file's last entry.
"""

import ctypes
import subprocess
import sys
import tempfile
from pathlib import Path

ROOT = Path(__file__).resolve().parent.parent
sys.path.append(str(ROOT / "oracle"))

import saber
from known_answers import FILES, SET_OF, drawn, read
from planted import turned
from samples import with_bit_turned


def built(folder):
    """The implementation as a shared object."""
    shared = Path(folder) / "libplain.so"
    flags = "-std=c99 -O2 -Wall -Wextra -pedantic -Werror -shared -fPIC".split()
    subprocess.run(["cc", *flags, "-o", shared, ROOT / "oracle/plain.c"], check=True)
    return ctypes.CDLL(str(shared))


def differences(library, entry, part):
    """The calls of an entry that differ. The part, 0 to 1, is where a bit of the ciphertext is turned."""
    number = SET_OF[len(entry.pk)]
    set = saber.SETS[number]
    *seeds, encaps_seed = drawn(entry.seed)
    damaged = with_bit_turned(entry.ct, round(part * (8 * set.ciphertext - set.data_width)))
    rejected = saber.decaps(set, entry.sk, damaged)

    def differs(function, inputs, expected):
        outputs = [ctypes.create_string_buffer(len(string)) for string in expected]
        function(ctypes.c_int(number), *inputs, *outputs)
        return [output.raw for output in outputs] != expected

    calls = {
        "keygen": (library.plain_keygen, seeds, [entry.pk, entry.sk]),
        "encaps": (library.plain_encaps, [entry.pk, encaps_seed], [entry.ct, entry.ss]),
        "decaps": (library.plain_decaps, [entry.sk, entry.ct], [entry.ss]),
        "decaps of a damaged ciphertext": (library.plain_decaps, [entry.sk, damaged], [rejected]),
    }
    return [name for name, call in calls.items() if differs(*call)]


def main():
    total, failed = 0, 0
    with tempfile.TemporaryDirectory() as folder:
        library = built(folder)
        for path in FILES.values():
            entries = read(path.read_text())
            for i, (label, entry) in enumerate(entries):
                for name in differences(library, entry, i / (len(entries) - 1)):
                    print(f"{path.name}: {label}: {name} differs")
                    failed += 1
            planted = entry._replace(sk=turned(entry.sk), ss=turned(entry.ss))
            if differences(library, planted, 1)[:3] != ["keygen", "encaps", "decaps"]:
                sys.exit(f"{path.name}: planted differences were not found")
            total += len(entries)
    counts = f"{total} known-answer entries, {4 * total} calls, {failed} differences"
    print(f"plain implementation: {counts}; the planted ones were found")
    sys.exit(failed > 0 or total == 0)


if __name__ == "__main__":
    main()
