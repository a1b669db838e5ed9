"""Writes the seeds of the two harnesses, and the dictionary of sabercall's words.

    python3 tests/fuzz/seeds.py FOLDER

FOLDER/read_record gets records of the oracle, sound and refused, each with a byte behind it that chooses the length to
lend. FOLDER/sabercall gets of the stored lines the shortest of each call, kind of answer and count of words, with a
newline and without, the short ones in one text, and lines about the longest. FOLDER/sabercall.dict gets the names of
the calls and words of lines.
"""

import sys
from pathlib import Path

ROOT = Path(__file__).resolve().parent.parent.parent
sys.path.append(str(ROOT / "tests"))

from hostile import LIMIT, WORDS, kind_of

import notation
import saber
from calls import CALLS
from samples import draw, laid_record, with_bit_turned

RIGHT, ONE_MORE, ONE_LESS, OF_A_SET, FEW = 0, 4, 5, 6, 15  # the last byte: which length is lent for the ciphertext


def records():
    """Inputs of the first harness, by name."""
    yield "empty", bytes([RIGHT])
    for number, set in saber.SETS.items():
        ciphertext = draw(f"ciphertext {number}", set.ciphertext)
        for door in (None, 0x0102, 0x01020304):
            for time in (None, 0x0102030405060708):
                name = f"set_{number}_door_{door}_time_{time}"
                record = saber.write_record(door, time, set, ciphertext)
                yield name, record + bytes([RIGHT])
                yield f"{name}_cut", record[: saber.set_place(record[0]) + 1] + bytes([RIGHT])
                yield f"{name}_long", record + bytes([0, RIGHT])
                yield f"{name}_no_set", record[: saber.set_place(record[0])] + bytes([RIGHT])
                for choice in (ONE_MORE, ONE_LESS, OF_A_SET, FEW):
                    yield f"{name}_lent_{choice}", record + bytes([choice])
        for bit in range(8):  # of the map
            record = saber.write_record(None, None, set, ciphertext)
            yield f"set_{number}_bit_{bit}", with_bit_turned(record, bit) + bytes([RIGHT])
        yield f"set_{number}_narrow_door", laid_record(None, None, number, ciphertext, wide=65535) + bytes([RIGHT])
        for byte in (0, 4):
            yield f"set_{number}_byte_{byte}", laid_record(None, None, byte, ciphertext) + bytes([RIGHT])


def stored_lines():
    """The shortest stored line of each call, or of none, each kind of answer and each count of words; by name."""
    crate = ROOT / "crates" / "sabercall"
    asked = [x for x in notation.lines_of((crate / "stdin").read_bytes()) if not x.startswith(b"#")]
    shortest = {}
    for line, answer in zip(asked, notation.lines_of((crate / "stdout").read_bytes()), strict=True):
        first, *words = line.split(b" ")
        call = first.decode() if first in [name.encode() for name in CALLS] else "none"
        kind = "empty" if answer == b"-" else kind_of(answer).replace(" ", "_")
        name = f"{call}_{kind}_{len(words)}"
        if len(line) < len(shortest.get(name, line + b" ")):
            shortest[name] = line
    return shortest


def texts():
    """Inputs of the second harness, by name."""
    lines = stored_lines()
    for name, line in lines.items():
        yield name, line + b"\n"
        yield f"{name}_last", b"#\n" + line  # without a newline, to a process of its own
    short = [line for line in lines.values() if len(line) < 200]
    yield "together", b"# comment\n" + b"\n".join(short) + b"\n"
    yield "together_cr", b"# comment\r\n" + b"\r\n".join(short) + b"\r\n#\r"
    yield "ends", b"\n\r\n#\n\r\r\n \n-"
    for length in (LIMIT - 1, LIMIT, LIMIT + 1):
        for end in (b"", b"\n", b"\r\n", b"\r\r\n", b"\r \n"):
            yield f"long_{length}_{end.hex()}", b"sha3_256 - ".ljust(length, b"0") + end
            yield f"long_comment_{length}_{end.hex()}", b"#".ljust(length, b"x") + end


def entry(word):
    """A word as a dictionary has it."""
    return '"' + "".join(f"\\x{byte:02x}" for byte in word) + '"\n'


def main():
    if len(sys.argv) != 2:
        sys.exit(__doc__)
    folder = Path(sys.argv[1])
    written = {"read_record": dict(records()), "sabercall": dict(texts())}
    for harness, inputs in written.items():
        (folder / harness).mkdir(parents=True, exist_ok=True)
        for name, content in inputs.items():
            (folder / harness / name).write_bytes(content)
    names = [name.encode() + b" " for name in CALLS]
    words = [*names, *WORDS, b"\n", b"\r\n", b"#", b" - ", bytes(64).hex().encode()]
    (folder / "sabercall.dict").write_text("".join(map(entry, words)))
    counts = ", ".join(f"{len(inputs)} inputs of {harness}" for harness, inputs in written.items())
    print(f"seeds: {counts}, {len(words)} words")


if __name__ == "__main__":
    main()
