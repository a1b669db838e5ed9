#!/usr/bin/env python3
"""figures.py [ROOT]: the repository's figures by crate, for docs/PROOFS.md.

Lines of code without its tests, of definitions, of inner files (what inner functions require and ensure), of laws and of proofs, neither blank nor
comment nor import; and the wrong programs that the check must refuse. tests/definitions.py says which file of specs/ is what. The
seconds are those that the table in docs/PROOFS.md has: they were taken with an older kit, and today's `rt ci` tells none."""
import pathlib
import re
import sys

ROOT = pathlib.Path(__file__).resolve().parent.parent
sys.path.append(str(ROOT / "tests"))

from definitions import kind_of, specs

KINDS = ("definitions", "inner")
SKIPPED = re.compile(r"\s*(--|//|#!\[|(ghost |pub )*use |(pub )?mod \w+$)|\s*$")
SECONDS = re.compile(r"^\| `(\w+)` \|.* ([\d,]+) \|$", re.MULTILINE)


def lines(paths):
    return sum(not SKIPPED.match(line) for path in paths for line in path.read_text().splitlines())


def main():
    if len(sys.argv) > 2:
        sys.exit(__doc__)
    root = pathlib.Path(sys.argv[1]) if len(sys.argv) == 2 else ROOT
    named = [line for line in (root / "crates.txt").read_text().splitlines() if line.strip() and not line.startswith("#")]
    seconds = dict(SECONDS.findall((root / "docs/PROOFS.md").read_text()))
    total = [0] * 7
    print("| crate | code | definitions | inner | laws | proofs | wrong programs | seconds, older kit |")
    print("|---|--:|--:|--:|--:|--:|--:|--:|")
    for name in (line.partition(":")[0].split()[0] for line in named):
        crate = root / "crates" / name
        files = specs(crate).items()
        row = [
            lines({*crate.glob("src/**/*.rt")} - {*crate.glob("src/tests.rt")}),
            *(lines(path for file, path in files if kind_of(file) == kind) for kind in KINDS),
            lines([*(path for file, path in files if kind_of(file) == "laws"), *crate.glob("proofs/Laws/*.antt")]),
            lines({*crate.glob("proofs/**/*.antt")} - {*crate.glob("proofs/Laws/*.antt")}),
            len([*crate.glob("must-fail/*.edit")]),
            int(seconds[name].replace(",", "")),
        ]
        total = [sum(pair) for pair in zip(total, row)]
        print(f"| `{name}` |" + " |".join(f" {number:,}" for number in row) + " |")
    print("| all |" + " |".join(f" {number:,}" for number in total) + " |")


if __name__ == "__main__":
    main()
