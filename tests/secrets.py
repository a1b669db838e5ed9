"""Jumps and addresses that depend on secrets, as valgrind's memcheck finds them, against a list.

    python3 tests/secrets.py

Runs tests/secrets.c, which marks content as secret, under memcheck for each set number. Prints each jump and each
address that depends on a mark: the function of the archive in which it stands (one that was compiled into another
counts as that one), its places there in bytes, and the reason why it may stand. It exits with 1 where a place is
not listed, where a listed one is not found in a set that it is listed for, and where a call that writes something is
not run.
"""

import shutil
import subprocess
import sys
import tempfile
from collections import Counter, defaultdict
from pathlib import Path
from xml.etree import ElementTree

ROOT = Path(__file__).resolve().parent.parent
sys.path.append(str(ROOT / "oracle"))

import saber
from calls import CALLS
from linked import linked

KINDS = {"UninitCondition": "jump", "UninitValue": "address"}
RUN = {name for name, call in CALLS.items() if call.outputs}  # a lookup reads no content

Q8 = "Q8 asks about each coefficient (questions::all_below), so the answer follows from the content"
TABLE = "where mu = 8, a secret's coefficient is read from A4's table of 256 weights, at the byte that is sampled"
CONTROL = "a control, which has to be found"

# How many places of a kind a function has, and why. A loop of Q8 has 256 turns, of which the compiler puts four in a row.
LISTED = {
    ("jump", "saber_pack"): (4, Q8),
    ("jump", "saber_poly_mul"): (6, Q8),
    ("jump", "saber_poly_mul_karatsuba"): (6, Q8),
    ("jump", "saber_recon_data"): (4, Q8),
    ("jump", "saber_recover"): (6, Q8),
    ("jump", "saber_round"): (4, Q8),
    ("address", "sampling::secret_into"): (4, TABLE),
    ("jump", "control_jump"): (1, CONTROL),
    ("address", "control_address"): (1, CONTROL),
}


def memcheck(program, set_number):
    """The places of each kind and function, and the number of reports of each call."""
    reports = program.with_suffix(".xml")
    # Chasing would take two jumps of a loop for one, and the loop's counter for a secret.
    options = ["--error-limit=no", "--vex-guest-chase=no", "--sym-offsets=yes", "--xml=yes", f"--xml-file={reports}"]
    done = subprocess.run(["valgrind", *options, program, str(set_number)], stdout=subprocess.PIPE, text=True)
    if done.returncode != 0:
        sys.exit(f"secrets, set {set_number}: the run ended with {done.returncode}")
    places, calls = defaultdict(set), Counter()
    for error in ElementTree.parse(reports).iter("error"):
        kind = error.findtext("kind")
        function, _, place = error.findtext("stack/frame/fn", "?").partition("+")
        places[KINDS.get(kind, kind), function].add(int(place or 0))
    for line in done.stdout.splitlines():
        call, count = line.split()
        calls[call] += int(count)
    return places, calls


def differences(set_number, places, calls):
    """What the run of a set has otherwise than the list and the table of calls."""
    for key in sorted(LISTED.keys() | places.keys()):
        count, reason = LISTED.get(key, (0, ""))
        if reason is TABLE and saber.NUMBERS[set_number].mu != 8:
            count = 0
        if len(places[key]) != count:
            yield f"{' in '.join(key)}: {count} listed, found at {sorted(places[key])}, reports of {dict(+calls)}"
    if calls.keys() != RUN:
        yield f"either run or in the table: {sorted(calls.keys() ^ RUN)}"


def asked_content():
    """The functions whose calls ask Q8."""
    return {export for call in CALLS.values() if 8 in call.questions for export in call.exports}


def listed_content():
    return {function for (_, function), (_, reason) in LISTED.items() if reason is Q8}


def main():
    if not shutil.which("valgrind"):
        print("skipped: tests/secrets.py (no valgrind)")
        return 0
    with tempfile.TemporaryDirectory() as folder:
        program = linked("secrets", folder)
        runs = [memcheck(program, set_number) for set_number in saber.NUMBERS]
    wrong = [f"secrets, set {i}, {line}" for i, run in enumerate(runs) for line in differences(i, *run)]
    wrong += [f"secrets, {name}: Q8 and the list differ" for name in sorted(asked_content() ^ listed_content())]
    if wrong:
        print(*wrong, sep="\n")
        return 1
    for key, (_, reason) in LISTED.items():
        found = set().union(*(places[key] for places, _ in runs))
        print(f"secrets: {' in '.join(key)} at {sorted(found)}: {reason}")
    reported = sum((calls for _, calls in runs), Counter())
    print("secrets: no report of", ", ".join(sorted(RUN - reported.keys())))
    return 0


if __name__ == "__main__":
    sys.exit(main())
