#!/usr/bin/env python3
"""run.py ARCHIVE: keygen, encaps and decaps of the three sets, measured in one run.

Beside the library stand Table 3 of the submission, the plain implementation (oracle/plain.c) built for release and,
where Debian's libbcprov-java is installed, Bouncy Castle. The first table has cycles of the time stamp counter and
microseconds, medians of 1,001 calls and for the library the least too; the library and the plain implementation take
turns on the same input, and every output is compared. The second has the library's cycles as a part of the others',
and what a run on a busy machine cannot blur: instructions as callgrind counts them, the parts of them that Keccak-f
and the ring products take, and the bytes of stack."""
import pathlib
import re
import shutil
import subprocess
import sys
import tempfile

HERE = pathlib.Path(__file__).resolve().parent
ROOT = HERE.parent.parent
sys.path.append(str(ROOT / "oracle"))

import saber

JAR = pathlib.Path("/usr/share/java/bcprov.jar")
CALLS = ("keygen", "encaps", "decaps")
# As callgrind names them: Keccak-f, and the functions that the products stand in, of which the first calls itself.
KECCAK, PRODUCTS = "keccak::permute", ("karatsuba_split::split", "karatsuba_split::split'2", "karatsuba::rows_add")
ROWS = [(number, call) for number in saber.SETS for call in CALLS]

# Document 000, section 5: cycles of a 2.6 GHz processor.
TABLE_3 = dict(zip(ROWS, (105881, 155131, 179415, 216597, 267841, 318785, 360539, 400817, 472366)))
TABLE_3_MEGAHERTZ = 2600


def output(*words):
    return subprocess.run([str(word) for word in words], check=True, capture_output=True, text=True).stdout


def build(work, archive):
    program = work / "calls"
    options = ["-std=gnu99", "-O3", "-Wall", "-Wextra", "-Werror"]
    options += [f"-I{ROOT / folder}" for folder in ("include", "oracle", "tests")]
    output("cc", *options, "-o", program, HERE / "calls.c", ROOT / "oracle/plain.c", archive)
    return program


def timed(program):
    """Least and median cycles by implementation, set and call; and cycles a microsecond."""
    cycles, megahertz = {"library": {}, "plain": {}}, None
    for words in map(str.split, output(program, "time").splitlines()):
        if words[0] == "megahertz":
            megahertz = float(words[1])
        else:
            cycles[words[0]][int(words[1]), words[2]] = int(words[3]), int(words[4])
    return cycles["library"], cycles["plain"], megahertz


def bouncy(work, program):
    """Median microseconds of Bouncy Castle's calls, or None where it is not installed. Its keys must be ours."""
    if not (JAR.exists() and shutil.which("javac")):
        return None
    output("javac", "-cp", JAR, "-d", work, HERE / "Bouncy.java")
    medians = {}
    for words in map(str.split, output("java", "-cp", f"{work}:{JAR}", "Bouncy").splitlines()):
        if words[0] == "key":
            if output(program, "key", words[1]).split() != words[2:]:
                sys.exit(f"the keys of set {words[1]} differ from Bouncy Castle's")
        else:
            medians[int(words[1]), words[2]] = int(words[4]) / 1000
    return medians


def counted(work, program):
    """Instructions by row: all of them, and those by function."""
    counts = {}
    for number, call in ROWS:
        profile = work / "profile"
        output("valgrind", "--tool=callgrind", f"--callgrind-out-file={profile}", f"--toggle-collect=saber_{call}",
               program, "one", number, CALLS.index(call))
        lines = output("callgrind_annotate", "--threshold=100", "--show-percs=no", profile).splitlines()
        found = [re.match(r"\s*([\d,]+)\s+(?:PROGRAM (TOTALS)|[^:\s]*:(\S+) \[)", line) for line in lines]
        counts[number, call] = {m[2] or m[3]: int(m[1].replace(",", "")) for m in found if m}
    return counts


def shares(counts, number, call):
    """The parts of Keccak-f and of the products."""
    row = counts[number, call]
    return row[KECCAK] / row["TOTALS"], sum(row.get(name, 0) for name in PRODUCTS) / row["TOTALS"]


def title(number, call):
    return f"{saber.NAMES[number]:11}{call:7}"


def main():
    if len(sys.argv) != 2:
        sys.exit(__doc__)
    with tempfile.TemporaryDirectory() as folder:
        work = pathlib.Path(folder)
        program = build(work, sys.argv[1])
        library, plain, megahertz = timed(program)
        java = bouncy(work, program)
        counts = counted(work, program)
        stacks = map(str.split, output(program, "stack").splitlines())
        stack = {(int(words[1]), words[2]): int(words[3]) for words in stacks}

    print(f"cycles (of {megahertz:.0f} MHz) and microseconds")
    print(f"{'':18}{'library, least':>18}{'median':>18}{'Table 3':>18}{'plain C':>18}{'Bouncy Castle':>18}")
    for row in ROWS:
        times = [(cycles, cycles / megahertz) for cycles in library[row]]
        times += [(TABLE_3[row], TABLE_3[row] / TABLE_3_MEGAHERTZ), (plain[row][1], plain[row][1] / megahertz)]
        times += [(java[row] * megahertz, java[row])] if java else []
        print(title(*row) + "".join(f"{cycles:>11,.0f}{micro:>7.1f}" for cycles, micro in times))
    print()
    print("the library: its median cycles as a part of the others', and repeatable figures")
    print(f"{'':18}{'Table 3':>9}{'(least)':>9}{'plain C':>9}{'Bouncy':>9}"
          f"{'instructions':>15}{'Keccak-f':>10}{'products':>10}{'stack':>9}")
    for row in ROWS:
        least, median = library[row]
        keccak, product = shares(counts, *row)
        castle = f"{median / (java[row] * megahertz):.2f}" if java else "-"
        print(f"{title(*row)}{median / TABLE_3[row]:>9.2f}{least / TABLE_3[row]:>9.2f}"
              f"{median / plain[row][1]:>9.2f}{castle:>9}"
              f"{counts[row]['TOTALS']:>15,}{keccak:>10.0%}{product:>10.0%}{stack[row]:>9,}")


if __name__ == "__main__":
    main()
