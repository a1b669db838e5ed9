"""Tests of the known-answer runner: every reading of documents 01 and 02, reversed in an entry, is found again.

    python3 tests/kat_selftest.py
"""

import sys

import kat
import notation
import readings
import saber
from drbg import known_answer_seeds
from known_answers import FILES, checks, entry_of, write
from samples import with_bit_turned


def differences(entry):
    """Each call in which an entry differs from the oracle, with what explains it."""
    found = [check for check in checks("", entry) if notation.answer_line(check.request) != check.expected]
    return {check.label.strip(): kat.explained_by(check) for check in found}


def reversed_entry(number, seed, name):
    """An entry made with one reading reversed."""
    with readings.reversed_in_oracle([name]):
        entry = entry_of(number, seed)
        if name in readings.DAMAGED:
            # An honest ciphertext is never rejected.
            ct = with_bit_turned(entry.ct, 0)
            entry = entry._replace(ct=ct, ss=saber.decaps(saber.SETS[number], entry.sk, ct))
    return entry


def main():
    failed = []
    [seed] = known_answer_seeds(1)
    for number, path in FILES.items():
        if path.read_text() != write(number):
            failed.append(f"{path.name} is not what the oracle writes")
        honest = entry_of(number, seed)
        if differences(honest):
            failed.append(f"set {number}: the oracle's own entry differs")
        if differences(honest._replace(ss=with_bit_turned(honest.ss, 0))) != {"encaps": [], "decaps": []}:
            failed.append(f"set {number}: a reading explains a damaged shared secret")
        for name in readings.READINGS:
            explained = differences(reversed_entry(number, seed, name))
            if name in readings.DAMAGED:
                # Its ciphertext is damaged, so it is not the one that encapsulation makes.
                explained.pop("encaps")
            if not explained or any(choices != [(name,)] for choices in explained.values()):
                failed.append(f"set {number}: {name}: explained by {explained}")
    print(f"{len(saber.SETS) * len(readings.READINGS)} reversed readings, {len(failed)} failed")
    sys.exit("\n".join(failed) or None)


if __name__ == "__main__":
    main()
