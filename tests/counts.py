"""Instructions of decapsulation, as valgrind's callgrind counts them: as many for a rejected ciphertext as for an
accepted one.

    python3 tests/counts.py

Runs tests/counts.c for each set number, on the ciphertext that encapsulation made, with its first bit turned, with its
last bit turned, and on one of other bytes. It exits with 1 where a count differs from the first, where a ciphertext was
not run, and where a planted difference is not found.
"""

import re
import subprocess
import sys
import tempfile
from pathlib import Path

ROOT = Path(__file__).resolve().parent.parent
sys.path.append(str(ROOT / "oracle"))

import saber
from linked import linked

DAMAGES = range(4)  # as tests/counts.c has them
REJECTED = 3  # of these


def instructions(program, set_number, damage):
    profile = program.with_suffix(".out")
    options = ["--quiet", "--tool=callgrind", f"--callgrind-out-file={profile}", "--toggle-collect=saber_decaps"]
    subprocess.run(["valgrind", *options, program, str(set_number), str(damage)], check=True)
    return int(re.search(r"^summary: (\d+)$", profile.read_text(), re.MULTILINE)[1])


def differences(accepted, rejected):
    """How many counts of rejected ciphertexts are not the accepted one's."""
    if not accepted:
        sys.exit("counts: callgrind saw no call of saber_decaps")
    if len(rejected) != REJECTED:
        sys.exit(f"counts: {len(rejected)} rejected ciphertexts of a set number were run, not {REJECTED}")
    return sum(count != accepted for count in rejected)


def main():
    with tempfile.TemporaryDirectory() as folder:
        program = linked("counts", folder)
        counts = {set: [instructions(program, set, damage) for damage in DAMAGES] for set in saber.NUMBERS}
    different = 0
    for number, (accepted, *rejected) in counts.items():
        different += differences(accepted, rejected)
        print(f"decaps, set {number}: {accepted} instructions, rejected {rejected}")
    # Planted: one instruction more in the last run, and runs of another set
    (accepted, *_), (_, *others) = counts[1], counts[3]
    planted = [accepted] * (REJECTED - 1) + [accepted + 1]
    if differences(accepted, planted) != 1 or differences(accepted, others) != REJECTED:
        sys.exit("counts: a planted difference was not found")
    total = f"{REJECTED * len(counts)} rejected ciphertexts, {different} differences"
    print(f"counts: {total}; the planted ones were found")
    return 1 if different else 0


if __name__ == "__main__":
    sys.exit(main())
