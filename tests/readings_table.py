"""The table of docs/READINGS.md against the oracle.

    python3 tests/readings_table.py

Each row that ends in a name is of one reading of tests/readings.py, and each reading has one row. The column before the
name says which values of a known-answer entry change where the reading is reversed: an entry of each set is made so and
compared. The numbers of reconciliation are computed as S2 and as S10 write them. It exits with 1 where something is not
so.
"""

import re
import sys
from pathlib import Path

ROOT = Path(__file__).resolve().parent.parent
sys.path.append(str(ROOT / "oracle"))

import saber
from drbg import known_answer_seeds
from known_answers import Entry, entry_of
from readings import READINGS, reversed_in_oracle
from samples import with_bit_turned

NAME = re.compile(r"`([^`]+)`")
RECON_SIZE = {1: 2, 2: 3, 3: 5}  # the submission's table 4
P_BITS = 10


def rows(text):
    """The name that ends a row and the column before it."""
    lines = [line.strip().strip("|").split("|") for line in text.splitlines() if line.startswith("|")]
    cells = [[cell.strip() for cell in line[-2:]] for line in lines]
    return [(name[1], changes) for changes, last in cells if (name := NAME.fullmatch(last))]


def changes(number, seed, name):
    """What changes of an entry where a reading is reversed, in the words of the table."""
    set, honest = saber.SETS[number], entry_of(number, seed)
    damaged = with_bit_turned(honest.ct, 0)
    rejected = saber.decaps(set, honest.sk, damaged)
    with reversed_in_oracle([name]):
        entry = entry_of(number, seed)
        if saber.decaps(set, entry.sk, entry.ct) != entry.ss:
            return "decapsulation gives another secret"
        rejection = saber.decaps(set, honest.sk, damaged) != rejected
    found = [field for field in Entry._fields if getattr(entry, field) != getattr(honest, field)]
    return ", ".join(found) or ("ss of a damaged ct" if rejection else "nothing")


def reconciliation(number):
    """What is wrong with the numbers of reconciliation of a set."""
    set, size = saber.SETS[number], RECON_SIZE[number]
    e_t = set.t.bit_length() - 1
    h = 2 ** (P_BITS - 2) - 2 ** (P_BITS - e_t - 2)  # S2, section 2.3
    steps = 2 ** (P_BITS - e_t - 1), 2 ** (P_BITS - size - 1)  # algorithm 3, line 2; algorithm 20, lines 1 and 4
    added = h, 2 ** (P_BITS - 2) - 2 ** (P_BITS - 2 - size)  # the same; algorithm 20, line 2
    widths = e_t + 1, size + 1  # algorithm 2, line 7; algorithm 19, line 5
    same = steps == (set.g,) * 2 and added == (set.margin,) * 2 and widths == (set.data_width,) * 2
    return [] if same else [f"set {number}: the numbers of reconciliation differ"]


def main():
    [seed] = known_answer_seeds(1)
    table = rows((ROOT / "docs/READINGS.md").read_text())
    names = [name for name, _ in table]
    failed = [f"no reading has the name of a row: {name}" for name in names if name not in READINGS]
    failed += [f"{names.count(name)} rows are of: {name}" for name in READINGS if names.count(name) != 1]
    for number in saber.SETS:
        failed += reconciliation(number)
        for name, stated in table:
            found = changes(number, seed, name) if name in READINGS else stated
            if found != stated:
                failed.append(f"set {number}: {name}: changes {found}, and the table has {stated}")
    print(f"readings: {len(table)} rows, {len(saber.SETS) * len(table)} entries, {len(failed)} failed")
    sys.exit("\n".join(failed) or None)


if __name__ == "__main__":
    main()
