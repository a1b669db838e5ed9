#!/usr/bin/env python3
"""run.py ARCHIVE PROGRAM: the cost of a group of seeds in marginreport, beside a keygen of the same set.

PROGRAM is marginreport, and ARCHIVE the library of the crate that exports saber_keygen. Both work on the
same 4,096 groups and take turns; the least processor time of five turns counts, the start of the process included."""
import pathlib
import resource
import subprocess
import sys
import tempfile

from picture import GROUPS, ROOT, group

import saber

TURNS = 5


def seconds(program, path):
    """The processor time of a run on a file."""
    before = resource.getrusage(resource.RUSAGE_CHILDREN)
    with path.open("rb") as given:
        subprocess.run([program], stdin=given, stdout=subprocess.DEVNULL, check=True)
    after = resource.getrusage(resource.RUSAGE_CHILDREN)
    return after.ru_utime + after.ru_stime - before.ru_utime - before.ru_stime


def main():
    if len(sys.argv) != 3:
        sys.exit(__doc__)
    archive, program = sys.argv[1], pathlib.Path(sys.argv[2]).resolve()
    with tempfile.TemporaryDirectory() as folder:
        keygens, given = pathlib.Path(folder) / "keygens", pathlib.Path(folder) / "groups"
        includes = [f"-I{ROOT / name}" for name in ("include", "tests")]
        source = pathlib.Path(__file__).resolve().parent / "keygens.c"
        subprocess.run(["cc", "-std=c99", "-O2", *includes, "-o", keygens, source, archive], check=True)
        print(f"{'microseconds':12}{'group':>9}{'keygen':>9}{'group/keygen':>14}")
        for number, name in saber.NAMES.items():
            given.write_bytes(bytes([number]) + b"".join(group(number, i) for i in range(GROUPS)))
            turns = [(seconds(program, given), seconds(keygens, given)) for _ in range(TURNS)]
            report, keygen = (1e6 * min(times) / GROUPS for times in zip(*turns))
            print(f"{name:12}{report:>9.1f}{keygen:>9.1f}{report / keygen:>14.1f}")


if __name__ == "__main__":
    main()
