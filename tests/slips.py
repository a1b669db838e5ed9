"""Slips in texts, examples and tests, each of which the tests have to find.

    python3 tests/slips.py            plants each slip in a copy of the repository and runs the test that finds it
    python3 tests/slips.py check      only looks whether each slip still has its place

Each test is first run in the copy as it is, and has to pass there. The table that is printed has the slip, the test,
and the line with which it ends. It exits with 1 where a test passes in spite of a slip. Needs what `tools/build.sh`
built, valgrind and cargo.
"""

import os
import shutil
import subprocess
import sys
import tempfile
from pathlib import Path
from typing import NamedTuple

ROOT = Path(__file__).resolve().parent.parent
HEADER, PACKAGE = "include/saber.h", "bindings/rust/src/lib.rs"
EXAMPLE, BUILD, RUN = "bindings/rust/examples/round_trip.rs", "bindings/rust/build.rs", "tests/run.sh"
SECONDS = 600

TESTS = {
    "interface": "python3 tests/interface.py",
    "stack": "python3 tests/stack.py",
    "readme": "python3 tests/readme.py",
    "readme rust": "python3 tests/readme.py rust",
    "lib_dir": "python3 tests/lib_dir.py",
    "differential": "python3 tests/differential.py --count 40",
    "hostile": "python3 tests/hostile.py --count 1",
    "records": "python3 tests/records.py --count 20",
    "margins": "python3 tests/margins.py --count 16",
    "kat": "python3 tests/kat.py",
    "agree": "cc -std=c99 -O2 -Iinclude -Ioracle -o target/agree tests/agree.c oracle/plain.c"
    " target/staticlib/libsaber.a && target/agree 2",
    "counts": "python3 tests/counts.py",
    # The list of tests alone: every command is taken as passed.
    "run.sh": """sed 's/^    "$@" || {/    true || {/' tests/run.sh >tests/listed.sh && sh tests/listed.sh""",
}


class Slip(NamedTuple):
    what: str
    test: str
    file: str
    old: str
    new: str


def disabled(test, file, condition):
    return Slip(f"{file}: its comparison disabled", test, file, f"if {condition}:", "if False:")


def dropped(what, start):
    """A test that is dropped from run.sh."""
    found = [line for line in (ROOT / RUN).read_text().splitlines() if line.startswith(start)]
    return Slip(f"{what} dropped from {RUN}", "run.sh", RUN, found[0] if found else start, "")


AGREE = '!accepted("the answer of decaps", answer) || !same("the secret of decaps", opened[0], opened[1], 32)'
SLIPS = [
    # Texts of header and package
    Slip("a constant of 20480", "stack", HEADER, "SABER_STACK_BYTES = 32768", "SABER_STACK_BYTES = 20480"),
    Slip("`20 KiB`", "interface", HEADER, "less than SABER_STACK_BYTES. To", "less than 20 KiB. To"),
    Slip(
        "the order in the rejected secret", "interface", HEADER,
        "SHA3-256 of z followed by SHA3-256 of the ciphertext", "SHA3-256 of SHA3-256 of the ciphertext followed by z",
    ),
    Slip("a wide door of `3 bytes`", "interface", HEADER, "or bit 4, 4 bytes, above", "or bit 4, 3 bytes, above"),
    Slip("`less 6` for a length", "interface", HEADER, "less 4 more if it has bit 4", "less 6 more if it has bit 4"),
    Slip("residue `4096`", "interface", HEADER, "8192, or 1024 for a", "4096, or 1024 for a"),
    Slip("`64 bytes` of SeedLength", "interface", PACKAGE, "a message is not 32 bytes", "a message is not 64 bytes"),
    # Rust
    Slip("an example that does not compile", "readme rust", EXAMPLE, "&mut secret_key)?", "secret_key)?"),
    Slip("the public key to decaps", "readme rust", EXAMPLE, "&secret_key, &ciphertext", "&public_key, &ciphertext"),
    Slip("SABER_LIB_DIR ignored", "lib_dir", BUILD, 'var_os("SABER_LIB_DIR")', 'var_os("SABER_LIB_DIRECTORY")'),
    # Tests
    disabled("differential", "tests/differential.py", "found != expected"),
    disabled("hostile", "tests/hostile.py", "found != expected"),
    disabled("records", "tests/records.py", "right != wrong"),
    disabled("margins", "tests/margins.py", '(found, status, errors) != (expected, 0, b"")'),
    Slip("tests/kat.py: its comparison disabled", "kat", "tests/kat.py", "if answer != check.expected", "if False"),
    Slip("tests/agree.c: that of decaps disabled", "agree", "tests/agree.c", f"if ({AGREE})", f"if (({AGREE}) && 0)"),
    disabled("differential", "tests/library.py", "self.memory.raw != self.original"),
    Slip("no rejected case", "counts", "tests/counts.py", "DAMAGES = range(4)", "DAMAGES = range(1)"),
    Slip("half of the room cleared", "stack", HEADER, "room[SABER_STACK_BYTES / 8]", "room[SABER_STACK_BYTES / 16]"),
    dropped("secrets.py", "test_with valgrind 'jumps and addresses"),
    dropped("the Rust tests", "test_with cargo 'the Rust package' "),
    # README
    Slip("the sample's figure", "readme", "README.md", "3 128 1432 0 95", "3 128 1431 0 95"),
    Slip("a size of the first round trip", "readme", "README.md", "$(blank 992)", "$(blank 993)"),
    Slip("the order of arguments", "readme", "README.md", "| set, public key, seed |", "| set, seed, public key |"),
    Slip("the limit of a line", "readme", "README.md", "over 65,536 bytes", "over 65,535 bytes"),
]


def placed(root, slip):
    """The file with the slip in it; its place has to be there once."""
    text = (root / slip.file).read_text()
    if text.count(slip.old) != 1:
        sys.exit(f"slips: {slip.file} has {text.count(slip.old)} places of `{slip.old}`, not one ({slip.what})")
    return text.replace(slip.old, slip.new)


def copied(root):
    """The repository's files, and what was built."""
    listed = subprocess.run(["git", "ls-files"], cwd=ROOT, stdout=subprocess.PIPE, text=True, check=True).stdout
    for name in listed.splitlines():
        (root / name).parent.mkdir(parents=True, exist_ok=True)
        shutil.copy2(ROOT / name, root / name)
    for name in ("bin", "staticlib"):
        shutil.copytree(ROOT / "target" / name, root / "target" / name)


def run(root, test):
    """Exit status, and the last line that is printed."""
    environment = os.environ | {"CARGO_TARGET_DIR": "target/rust", "PYTHONDONTWRITEBYTECODE": "1"}
    done = subprocess.run(
        ["sh", "-c", TESTS[test]],
        cwd=root, env=environment, stdout=subprocess.PIPE, stderr=subprocess.STDOUT, text=True, timeout=SECONDS,
    )
    return done.returncode, (done.stdout.strip().splitlines() or [""])[-1]


def main():
    if sys.argv[1:] == ["check"]:
        for slip in SLIPS:
            placed(ROOT, slip)
        print(f"slips: {len(SLIPS)} have their places")
        return 0
    missed = 0
    with tempfile.TemporaryDirectory() as folder:
        root = Path(folder)
        copied(root)
        for test in TESTS:
            status, line = run(root, test)
            if status:
                sys.exit(f"slips: without a slip, {test} ends with {status}: {line}")
        print("| slip | test | its last line |\n|---|---|---|")
        for slip in SLIPS:
            changed, path = placed(root, slip), root / slip.file
            original = path.read_text()
            path.write_text(changed)
            status, line = run(root, slip.test)
            path.write_text(original)
            missed += status == 0
            print(f"| {slip.what} | {slip.test} | {line[:120] if status else '**not found**'} |", flush=True)
    print(f"slips: {len(SLIPS)} planted, {len(SLIPS) - missed} found")
    return 1 if missed else 0


if __name__ == "__main__":
    sys.exit(main())
