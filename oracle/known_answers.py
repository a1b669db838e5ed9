"""Known answers: NIST's PQCkemKAT format, the oracle's own entries, and the calls that an entry stands for."""

from pathlib import Path
from typing import NamedTuple

import notation
import saber
from drbg import Drbg, known_answer_seeds
from samples import lent_bytes

SET_OF = {set.public_key: number for number, set in saber.SETS.items()}  # by the length of the public key
ENTRIES = 20  # of a file that is written

# The repository's own file of each set
KAT = Path(__file__).resolve().parent.parent / "vectors" / "kat"
FILES = {number: KAT / f"PQCkemKAT_{set.secret_key}.rsp" for number, set in saber.SETS.items()}


class Entry(NamedTuple):
    """The fields of the format, in its order."""

    seed: bytes
    pk: bytes
    sk: bytes
    ct: bytes
    ss: bytes


class Check(NamedTuple):
    """A call of an entry, in the notation of sabercall."""

    label: str
    request: bytes
    expected: bytes


class Unreadable(Exception):
    """A file that is not in the format; its text is the reason."""


def drawn(seed):
    """Matrix seed, secret seed, z and the encapsulation seed, in the order of the submission's algorithms 23, 26, 27."""
    generator = Drbg(seed)
    return [generator.randombytes(32) for _ in range(4)]


def entry_of(set_number, seed):
    """The oracle's entry."""
    set = saber.SETS[set_number]
    matrix_seed, secret_seed, z, encaps_seed = drawn(seed)
    pk, sk = saber.keygen(set, matrix_seed, secret_seed, z)
    return Entry(seed, pk, sk, *saber.encaps(set, pk, encaps_seed))


# The format


def write(set_number):
    """The text of a file made by the oracle."""
    lines = [f"# {saber.NAMES[set_number]}", ""]
    for count, seed in enumerate(known_answer_seeds(ENTRIES)):
        lines.append(f"count = {count}")
        lines += [f"{name} = {value.hex().upper()}" for name, value in entry_of(set_number, seed)._asdict().items()]
        lines.append("")
    return "\n".join(lines) + "\n"


def read(text):
    """Label and entry, in order. An entry starts at its count; a line that begins with # is a header."""
    header, found = "", []
    for number, line in enumerate(text.splitlines(), 1):
        if line.startswith("#"):
            header = line[1:].strip()
        elif line.strip():
            name, _, value = (word.strip() for word in line.partition("="))
            try:
                if name == "count":
                    found.append((f"{header} {int(value)}", {}))
                elif name in Entry._fields and found and name not in found[-1][1]:
                    found[-1][1][name] = bytes.fromhex(value)
                else:
                    raise ValueError
            except ValueError:
                raise Unreadable(f"line {number} is no field of an entry") from None
    if not found:
        raise Unreadable("no entries")
    for label, fields in found:
        missing = [name for name in Entry._fields if name not in fields]
        if missing:
            raise Unreadable(f"{label} lacks {', '.join(missing)}")
        if len(fields["seed"]) != 48:
            raise Unreadable(f"{label} has a seed of {len(fields['seed'])} bytes")
        if len(fields["pk"]) not in SET_OF:
            raise Unreadable(f"{label} has a public key of {len(fields['pk'])} bytes")
    return [(label, Entry(**fields)) for label, fields in found]


# The calls


def checks(label, entry):
    """The three calls of an entry; encapsulation and decapsulation are given the entry's own keys and ciphertext."""
    number = SET_OF[len(entry.pk)]
    set = saber.SETS[number]
    matrix_seed, secret_seed, z, encaps_seed = drawn(entry.seed)
    pk, sk, ct, ss = map(lent_bytes, (set.public_key, set.secret_key, set.ciphertext, 32))
    calls = (
        (("keygen", number, matrix_seed, secret_seed, z, pk, sk), (entry.pk, entry.sk)),
        (("encaps", number, entry.pk, encaps_seed, ct, ss), (entry.ct, entry.ss)),
        (("decaps", number, entry.sk, entry.ct, ss), (entry.ss,)),
    )
    return [
        Check(f"{label} {call[0]}", notation.write_request(*call), notation.write_answer(call[0], 0, outputs))
        for call, outputs in calls
    ]
