"""The prose of the C header and the Rust package against the oracle.

Prose is what stands in comments and strings. `sentences` has those with a number that a program relies on. Each number
is the oracle's or, for thread stacks, that of the test that measures them. A text has all of these sentences, and no
number of its prose stands outside them. `changed_numbers` gives the text with one number changed, for every number.
tests/interface.py runs all of this, and tests/readme.py does the same for README.md.
"""

import bisect
import functools
import itertools
import re
import sys
from pathlib import Path

ROOT = Path(__file__).resolve().parent.parent
sys.path.append(str(ROOT / "oracle"))

import saber
from calls import CALLS, ELEMENTS, run

HEADER, PACKAGE = "include/saber.h", "bindings/rust/src/lib.rs"
HASHES = {"SHA3-256": saber.sha3_256, "SHA3-512": saber.sha3_512}
MOST = 4096  # bytes of a seed, in the search for its length


class Unreadable(Exception):
    """A form that is not known here, or an oracle that does not fit it; its text is where."""


# What the oracle says


def answer(name, *arguments):
    return run(name, *arguments)[0]


def only(what, numbers):
    """The one number that all of these are."""
    if len({*numbers}) != 1:
        raise Unreadable(f"oracle: {what} should be one number and is {sorted({*numbers})}")
    return [*numbers][0]


def refusals():
    """The number of each refusal: the oracle's answers to calls that pass the questions before it."""
    secret_key = bytes(saber.SETS[2].secret_key)
    return {
        "unknown_set": answer("encaps", 4, b"", b"", b"", b""),
        "seed_length": answer("encaps", 2, b"", b"", b"", b""),
        "public_key_length": answer("encaps", 2, b"", bytes(32), b"", b""),
        "secret_key_length": answer("decaps", 2, b"", b"", b""),
        "ciphertext_length": answer("decaps", 2, secret_key, b"", b""),
        "unknown_number": answer("pack", 2, [], b""),
        "input_length": answer("pack", 1, [], b""),
        "coefficient_range": answer("pack", 1, [2] * saber.N, b""),
        "output_length": answer("pack", 1, [1] * saber.N, b""),
        "record_map": answer("read_record", b"", b""),
        "record_length": answer("read_record", bytes([12]), b""),
        "record_door": answer("read_record", bytes([28, 0, 0, 0, 0, 2]) + bytes(saber.SETS[2].ciphertext), b""),
    }


def seed_length():
    """The count of bytes at which encapsulation no longer refuses its seed."""
    refused = refusals()["seed_length"]
    for count in range(MOST + 1):
        if answer("encaps", 2, b"", bytes(count), b"", b"") != refused:
            return count
    raise Unreadable(f"oracle: encaps answers {refused} to a seed of each length from 0 to {MOST} bytes")


@functools.cache
def lengths():
    """Bytes of a seed, of a message and of a shared secret."""
    set = saber.SETS[2]
    ciphertext = bytes(set.ciphertext)
    return {
        "seed": seed_length(),
        "message": len(saber.decrypt(set, bytes(set.plain_secret), ciphertext)),
        "shared_secret": len(saber.decaps(set, bytes(set.secret_key), ciphertext)),
    }


def rejected_secret():
    """What the secret of a ciphertext that is rejected is made of, in words."""
    set, z = saber.SETS[2], bytes(range(lengths()["seed"]))
    ciphertext = bytes(set.ciphertext)
    _, secret_key = saber.keygen(set, bytes(len(z)), bytes(len(z)), z)
    secret = saber.decaps(set, secret_key, ciphertext)
    for outer, inner in itertools.product(HASHES, repeat=2):
        parts = {"z": z, f"{inner} of the ciphertext": HASHES[inner](ciphertext)}
        for first, second in itertools.permutations(parts):
            if HASHES[outer](parts[first] + parts[second]) == secret:
                return f"{outer} of {first} followed by {second}"
    raise Unreadable("oracle: the secret of a damaged ciphertext is no hash of z and the ciphertext's hash")


def residue():
    """What is added to a negative coefficient of a secret where it is packed into a secret key."""
    set, seed = saber.SETS[2], bytes(lengths()["seed"])
    _, secret_key = saber.keygen(set, seed, seed, seed)
    packed = saber.unpack(13, secret_key[: set.plain_secret])
    return only("the residue", [x - y for x, y in zip(packed, saber.gen_secret(set, seed)) if y < 0])


class Records:
    """The bytes that a record has besides its ciphertext, which its fields add, and the largest short door."""

    def __init__(self):
        self.bare = self.bytes_of(None, None)
        self.last = bisect.bisect_left(range(1 << 32), True, key=lambda door: self.added(door) != self.added(0)) - 1
        self.short, self.wide = self.added(self.last), self.added(self.last + 1)
        self.time = self.bytes_of(None, 0) - self.bare

    def bytes_of(self, door, time):
        set = saber.SETS[2]
        return len(saber.write_record(door, time, set, bytes(set.ciphertext))) - set.ciphertext

    def added(self, door):
        return self.bytes_of(door, None) - self.bare


def thread_stacks():
    """The KiB to which tests/thread_stacks.c holds the calls."""
    source = (ROOT / "tests/thread_stacks.c").read_text()
    found = re.search(r"SCHEME = (\d+), DECRYPT = (\d+), OTHER = (\d+), CLEARED = (\d+)", source)
    if not found:
        raise Unreadable("tests/thread_stacks.c: what the header names")
    return found.groups()


# Sentences


def listed(numbers, last="or"):
    *first, final = map(str, numbers)
    return f"{', '.join(first)} {last} {final}"


def record_sentences():
    found, bits = Records(), {field: field.bit for field in saber.FIELDS}
    _, _, time, number, ciphertext = saber.FIELDS
    short, wide, last = bits[saber.SHORT], bits[saber.WIDE], found.last
    return [
        f"door (bit {short}, {found.short} bytes, up to {last}; or bit {wide}, {found.wide} bytes, above), time"
        f" (bit {time.bit}, {found.time} bytes, any value), set (bit {number.bit}, {number.length} byte), ciphertext"
        f" (bit {ciphertext.bit}, its set's length)",
        f"So it has {found.bare} bytes, {found.short} more with a door up to {last} or {found.wide} more with one"
        f" above, {found.time} more with a time, and the ciphertext",
        f"less {found.bare}, less {found.short} more if record[0] has bit {short}, less {found.wide} more if it has bit"
        f" {wide}, less {found.time} more if it has bit {time.bit}",
        f"the record's door of {found.wide} bytes is {last} or less",
    ]


def shared_sentences():
    """Those that header and package have."""
    n, (p, q), sets = saber.N, saber.MODULI, saber.SETS
    seed, message, secret = lengths().values()
    packed = only("bytes of a packed list by width", [len(saber.pack(w, [0] * n)) // w for w in saber.WIDTHS])
    plain = only("bytes of a plain secret by rank", [set.plain_secret // set.l for set in sets.values()])
    zero = only("the number that is no set's own", saber.NUMBERS.keys() - sets.keys())
    # In this set a byte makes a coefficient of a secret.
    whole = only("the set with mu = 8", [number for number, set in sets.items() if set.mu == 8])
    modulus = only("the modulus besides the residue", {p, q} - {residue()})
    matrix, bits = CALLS["gen_matrix"].outputs[0], CALLS["recover"].outputs[0]
    [exact], [rounded] = CALLS["round"].inputs, CALLS["round"].outputs
    return [
        f"the set number is not {listed([zero, *sets])}, or a record's set byte not {listed(sets)}",
        f"the packing width is not {listed(saber.WIDTHS)}, or the modulus not {listed(saber.MODULI)}",
        f"a seed, z or a message is not {only('seed and message', [seed, message])} bytes",
        f"an input list is not {n} coefficients, or a string to unpack not {packed} x width bytes",
        f"{zero} means the same as {saber.DEFAULT}",
        f"{seed} bytes that the system's generator",
        f"Set {whole} reads a table of {1 << sets[whole].mu} bytes at places that secret bytes decide",
        f"Sets {listed(sorted(sets.keys() - {whole}), 'and')} have no such address",
        f"rejected secrets are made, {seed} bytes each",
        f"from a public key and a seed of {seed} bytes, a ciphertext and the shared secret of {secret} bytes",
        f"Decapsulation: the shared secret of {secret} bytes",
        f"it gives the rejected secret, {rejected_secret()}",
        f"Encrypts a message of {message} bytes with a secret seed of {seed} bytes",
        f"Decrypts to a message of {message} bytes with the plain secret,"
        f" the first {plain} x rank bytes of a secret key",
        *record_sentences(),
        f"Set {zero} is stored as the set that it means",
        f"The matrix of a seed of {seed} bytes: {n} x rank x rank coefficients below {matrix.role.bound}, row by row",
        f"The secret of a seed of {seed} bytes: {n} x rank signed coefficients, in -mu/2 .. mu/2: "
        + ", ".join(f"-{set.mu // 2} .. {set.mu // 2} in set {number}" for number, set in sets.items()),
        f"adds the modulus to each negative one, {residue()}, or {modulus} for a product modulo {modulus}",
        f"two polynomials below the modulus, {listed(saber.MODULI)}, where X to the {n} is -1",
        f"Rounds coefficients below {exact.role.bound} to coefficients below {rounded.role.bound}",
        f"Reconciliation data, below {p} / g, of coefficients w below {p}",
        f"a {listed(range(bits.role.bound))} a coefficient, from v below {p} and data below {p} / g",
        f"Packs {n} coefficients of width bits into {packed} x width bytes",
        f"Unpacks {packed} x width bytes into {n} coefficients of width bits",
        "SHAKE-128 fills an output of any length",
        *(f"{name}, to {len(hash(b''))} bytes" for name, hash in HASHES.items()),
    ]


@functools.cache
def sentences():
    """By their place."""
    ok, sets, found = answer("shake128", b"", b""), listed(saber.SETS), Records()
    signed, unsigned = (len(ELEMENTS[kind]).bit_length() - 1 for kind in ("signed", "list"))
    door, *_ = CALLS["read_record"].handed
    scheme, decrypt, other, cleared = thread_stacks()
    refused = {f"Refusals: {', '.join(map(str, call.questions))}" for call in CALLS.values() if call.outputs}
    return {
        HEADER: [
            *shared_sentences(),
            *sorted(refused - {"Refusals: "}),
            f"signed numbers of {signed} bits, or coefficients of {unsigned} bits",
            f"It answers {ok} with its outputs written",
            f"On answer {ok} has_door and has_time are 1 or 0; where one is 0",
            f"set is {sets}",
            f"door has {door.role.bits} bits: a program that was compiled when it had {8 * found.short}",
            f"Polynomials of {saber.N} coefficients",
            f"Measured under glibc on x86-64, with all that: {scheme} KiB are enough for saber_keygen, saber_encaps,"
            f" saber_decaps and saber_encrypt, {decrypt} for saber_decrypt, {other} for any other call, and {cleared}"
            " with the clearing",
            # Zeros that mean none
            "also where its count is 0",
            "Both are 0 where the set is unknown",
            "0 where the lookup refuses",
            "Where has_door or has_time is 0",
            "a missing field never reads as 0",
            "below 0 or more than can be lent, no read is accepted, and 0 bytes may be lent",
            "of any length, 0 included",
            "An empty input or output has count 0",
        ],
        PACKAGE: [
            *shared_sentences(),
            "A set number is that of a Set, or 0",
            f"The set's number is {sets}",
            f"whether a door of {found.wide} bytes is above {found.last}",
        ],
    }


# Texts

PROSE = r'//[/!]?(?P<comment>.*)|"(?P<string>[^"]*)"'
NUMBER = r"(?<!\w)\d+(?!\w)"


def plain(text):
    """As one line, without markup and capitals."""
    return re.sub(r"\[`|`\]|[`*]", "", " ".join(text.split())).lower()


def differences(place, text, sentences):
    """A line each: sentences that a text lacks, or else numbers that stand outside of all of them."""
    text, spans, lacking = plain(text), [], []
    for sentence in map(plain, sentences):
        found = [match.span() for match in re.finditer(re.escape(sentence), text)]
        spans += found
        if not found:
            lacking.append(f"{place}: lacks `{sentence}`")
    return lacking or [
        f"{place}: a number that the oracle does not give: `{text[max(number.start() - 50, 0) : number.end() + 50]}`"
        for number in re.finditer(NUMBER, text)
        if not any(start <= number.start() and number.end() <= end for start, end in spans)
    ]


def prose_differences(place, text):
    """Those of the header or the package."""
    parts = (match["comment"] or match["string"] or "" for match in re.finditer(PROSE, text))
    return differences(place, " ".join(parts), sentences()[place])


def changed_at(text, number):
    """The text with this number one more, and one less where it is not 0."""
    for other in {int(number[0]) + 1, abs(int(number[0]) - 1)}:
        yield f"{text[: number.start()]}{other}{text[number.end() :]}"


def changed_numbers(text):
    """The text with one number of its prose changed, every way."""
    for part in re.finditer(PROSE, text):
        for number in re.compile(NUMBER).finditer(text, *part.span()):
            yield from changed_at(text, number)
