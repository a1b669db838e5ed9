"""Known answers: the library, through the program sabercall, against files in NIST's PQCkemKAT format.

    python3 tests/kat.py [FILE..]         runs the files, or those of vectors/kat
    python3 tests/kat.py --write DIR      writes files of that format, made by the oracle

For each difference it says which reading of documents 01 and 02 explains it: the oracle, with that reading reversed,
gives the entry's answer. It exits with 1 on a difference, and where it does not find one that it plants in a
file's last answer. `--sabercall PATH` takes another program than target/bin's.
"""

import argparse
import subprocess
import sys
from pathlib import Path

ROOT = Path(__file__).resolve().parent.parent
sys.path.append(str(ROOT / "oracle"))

import notation
from known_answers import FILES, Unreadable, checks, read, write
from planted import turned
from readings import explanations


def answers(program, requests):
    """The library's answers, a line each."""
    text = b"".join(request + b"\n" for request in requests)
    ended = subprocess.run([program], input=text, stdout=subprocess.PIPE)
    lines = ended.stdout.splitlines()
    if ended.returncode or len(lines) != len(requests):
        sys.exit(f"{program}: {len(lines)} answers to {len(requests)} requests, exit code {ended.returncode}")
    return lines


def differing(asked, given):
    """The calls to which another answer was given."""
    return [check for check, answer in zip(asked, given, strict=True) if answer != check.expected]


def explained_by(check):
    """The choices of readings that explain a difference."""
    return explanations(lambda: notation.answer_line(check.request) == check.expected)


def in_words(choices):
    if not choices:
        return "and no reading explains it"
    if choices == [()]:
        return "and the oracle agrees with the entry: the library is wrong"
    return "explained by: " + "; or ".join(" and ".join(names) for names in choices)


def run(program, path):
    """Prints the differences and the counts of a file; gives the number of differences."""
    entries = read(path.read_text())
    asked = [check for label, entry in entries for check in checks(label, entry)]
    given = answers(program, [check.request for check in asked])
    different = differing(asked, given)
    for check in different:
        print(f"{path.name}: {check.label} differs, {in_words(explained_by(check))}", flush=True)
    if asked[-1] not in differing(asked, [*given[:-1], turned(asked[-1].expected)]):
        sys.exit(f"{path.name}: a planted difference was not found")
    counts = f"{len(entries)} entries, {len(asked)} calls, {len(different)} differences"
    print(f"{path.name}: {counts}; one more was planted and found", flush=True)
    return len(different)


def main():
    parser = argparse.ArgumentParser(description="Known answers in NIST's PQCkemKAT format.")
    parser.add_argument("files", metavar="FILE", type=Path, nargs="*")
    parser.add_argument("--write", metavar="DIR", type=Path)
    parser.add_argument("--sabercall", metavar="PATH", type=Path, default=ROOT / "target/bin/sabercall")
    options = parser.parse_args()
    if options.write:
        options.write.mkdir(parents=True, exist_ok=True)
        for number, path in FILES.items():
            (options.write / path.name).write_text(write(number))
        return
    if not options.sabercall.is_file():
        sys.exit(f"{options.sabercall} is not there; `tools/build.sh` builds it")
    differences = 0
    for path in options.files or FILES.values():
        try:
            differences += run(options.sabercall, path)
        except (Unreadable, OSError, UnicodeDecodeError) as reason:
            sys.exit(f"{path}: {reason}")
    sys.exit(differences > 0)


if __name__ == "__main__":
    main()
