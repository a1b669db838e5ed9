"""Writes and checks what the programs are run on and what they must print.

    python3 oracle/requests.py write     stores the requests and the answers
    python3 oracle/requests.py check     computes them again and compares

`--to DIR` takes another root than the repository's.
The answers are the oracle's. An answer that is known beforehand (a case of document 01, a published
vector, a known answer, a secret counted bit by bit, a record, a refusal, an error) is stated beside its
request, and the oracle's is compared with it.
"""

import argparse
import functools
import hashlib
import itertools
import sys
from collections import Counter
from pathlib import Path
from typing import Callable, NamedTuple

import known_answers
import notation
import saber
from calls import CALLS
from samples import NIST_FILES, bits, counted_secret, draw, draw_list, flipped, laid_record, lent_bytes, lent_list
from samples import lent_signed, monomial, rejected_secret, spread, vectors, with_bit_turned

UNKNOWN_SETS = (4, 5, 4294967295)
UNKNOWN_WIDTHS = (0, 2, 5, 12, 14, 16, 1024, 4294967295)
UNKNOWN_MODULI = (1000, 0, 1, 13, 1023, 1025, 8191, 8193, 65536, 4294967295)
ZERO, ONES = [0] * 256, bytes([255]) * 32


# Lines


class Line(NamedTuple):
    request: bytes
    stated: bytes | None  # the answer, where it is known beforehand


def ask(name, *arguments, stated=None):
    """A line that makes a call; `stated` is its number, and what it hands back with its outputs."""
    return Line(notation.write_request(name, *arguments), stated and notation.write_answer(name, *stated))


# Refusals


class Fault(NamedTuple):
    answer: int
    place: int
    change: Callable


def becomes(number):
    return lambda value: number


def resized(length):
    return lambda value: (value + value)[:length]


def put(place, coefficient):
    return lambda numbers: [coefficient if i == place % len(numbers) else x for i, x in enumerate(numbers)]


def refused(name, sound, *faults):
    arguments = list(sound)
    for fault in faults:
        arguments[fault.place] = fault.change(arguments[fault.place])
    outputs = arguments[len(CALLS[name].inputs) :]
    return ask(name, *arguments, stated=(min(fault.answer for fault in faults), outputs))


def faults_of(call, sound, unknown, whole):
    """The faults of each argument whose number or length is asked about, then those of each list's coefficients."""
    for place, parameter in enumerate(call.parameters):
        question = parameter.question
        if parameter.role.kind == "number":
            yield [Fault(question, place, becomes(number)) for number in unknown]
        elif question:
            size = len(sound[place])
            lengths = (size + 1, size - 1) if question == 9 else (size - 1, size + 1)
            yield [Fault(question, place, resized(length)) for length in (*lengths, *([0] if whole else []))]
    for place, limit in call.limits(sound).items():
        yield [Fault(8, place, put(at, x)) for x in (limit, 65535) for at in (0, 255)]


def refusals(title, name, sound, unknown=(), whole=True):
    """The refusals of a call whose sound arguments are given: each alone and, if `whole`, two at once.

    `unknown` holds numbers to refuse. Lengths are one under and one over and, if `whole`, 0. One coefficient of a list
    is the least that is too large, or the largest of all.
    """
    faults = [*faults_of(CALLS[name], sound, unknown, whole)]
    alone = [fault for some in faults for fault in some]
    one_each = [some[0] for some in faults if some]
    yield f"# {title}: each refusal alone"
    for fault in alone:
        yield refused(name, sound, fault)
    if whole:
        yield f"# {title}: two refusals at once, then all"
        for two in itertools.combinations(one_each, 2):
            yield refused(name, sound, *two)
        yield refused(name, sound, *one_each)


def set_refusals(name, number, sound):
    """The refusals of a call with a set number: whole once, with the arguments of set 1."""
    first = number == 1
    return refusals(f"{name}, set {number}", name, sound, UNKNOWN_SETS if first else (), first)


# The sections, one for each call and one for the known answers


def pack_section():
    yield "# pack: the cases of document 01"
    cases = ((13, [8191, 0], "ff1f"), (13, [0, 1], "0020"), (10, [0, 1], "0004"), (10, [1023], "ff03"))
    for width, start, string in cases:
        packed = bytes.fromhex(string).ljust(32 * width, b"\0")
        yield ask("pack", width, start + [0] * (256 - len(start)), lent_bytes(32 * width), stated=(0, [packed]))
    yield ask("pack", 10, monomial(0, 1024), lent_bytes(320), stated=(8, [lent_bytes(320)]))
    for width in saber.WIDTHS:
        limit, lent = 1 << width, lent_bytes(32 * width)
        yield f"# pack, width {width}: random; all 0, all the largest, a ramp; the largest alone at either end"
        for turn in range(4):
            yield ask("pack", width, draw_list(f"pack {width} {turn}", limit), lent)
        yield ask("pack", width, ZERO, lent, stated=(0, [bytes(32 * width)]))
        yield ask("pack", width, [limit - 1] * 256, lent, stated=(0, [bytes([255]) * (32 * width)]))
        yield ask("pack", width, [i % limit for i in range(256)], lent)
        yield ask("pack", width, monomial(0, limit - 1), lent)
        yield ask("pack", width, monomial(255, limit - 1), lent)
        sound = [width, draw_list(f"pack {width} refused", limit), lent]
        yield from refusals(f"pack, width {width}", "pack", sound, (5, 11))
    yield "# pack: unknown widths, with buffers that would fit them"
    for width in UNKNOWN_WIDTHS:
        lent = lent_bytes(32 * min(width, 16))
        yield ask("pack", width, draw_list(f"pack unknown {width}", 1 << min(width, 13)), lent, stated=(2, [lent]))


def unpack_section():
    for width in saber.WIDTHS:
        size, lent = 32 * width, lent_list()
        yield f"# unpack, width {width}: random bytes; all 0, all ones, a ramp; a bit alone at either end"
        for turn in range(4):
            yield ask("unpack", width, draw(f"unpack {width} {turn}", size), lent)
        yield ask("unpack", width, bytes(size), lent, stated=(0, [ZERO]))
        yield ask("unpack", width, bytes([255]) * size, lent, stated=(0, [[(1 << width) - 1] * 256]))
        yield ask("unpack", width, bytes(i % 256 for i in range(size)), lent)
        yield ask("unpack", width, b"\x01" + bytes(size - 1), lent, stated=(0, [monomial(0)]))
        yield ask("unpack", width, bytes(size - 1) + b"\x80", lent, stated=(0, [monomial(255, 1 << width - 1)]))
        sound = [width, draw(f"unpack {width} refused", size), lent]
        yield from refusals(f"unpack, width {width}", "unpack", sound, (5, 11))
        yield f"# unpack, width {width}: strings of the other widths"
        for other in saber.WIDTHS:
            if other != width:
                yield ask("unpack", width, draw(f"unpack {width} {other}", 32 * other), lent, stated=(7, [lent]))
    yield "# unpack: unknown widths, with strings that would fit them"
    for width in UNKNOWN_WIDTHS:
        string = draw(f"unpack unknown {width}", 32 * min(width, 16))
        yield ask("unpack", width, string, lent_list(), stated=(2, [lent_list()]))


def public_key_of_section():
    for number, set in saber.NUMBERS.items():
        yield f"# public_key_of, set {number}: any secret keys"
        for turn in range(3):
            public_key = draw(f"lookup {number} {turn} public key", set.public_key)
            before = draw(f"lookup {number} {turn} before", 416 * set.l)
            after = draw(f"lookup {number} {turn} after", 64)
            yield ask("public_key_of", number, before + public_key + after, stated=(None, [public_key]))
        yield f"# public_key_of, set {number}: lengths 0, one under, one over, and those of the other sets"
        size = set.secret_key
        for length in (0, size - 1, size + 1, *(other.secret_key for other in saber.SETS.values())):
            if length != size:
                yield ask("public_key_of", number, draw(f"lookup {number} {length}", length), stated=(None, [b""]))
    yield "# public_key_of: unknown sets"
    for number, set in itertools.product(UNKNOWN_SETS, saber.SETS.values()):
        yield ask("public_key_of", number, draw(f"lookup {number}", set.secret_key), stated=(None, [b""]))
    yield ask("public_key_of", 4, b"", stated=(None, [b""]))


def nist(name):
    for file in NIST_FILES[name]:
        yield f"# {name}: NIST's {file}"
        for message, result in vectors(file):
            yield ask(name, message, lent_bytes(len(result)), stated=(0, [result]))


def around(rate):
    return (0, 1, rate - 1, rate, rate + 1, 2 * rate - 1, 2 * rate, 2 * rate + 1)


def shake128_section():
    yield from nist("shake128")
    yield "# shake128: inputs and outputs around the rate"
    for length, size in itertools.product(around(168), around(168)):
        yield ask("shake128", draw(f"shake128 {length}", length), lent_bytes(size))
    yield "# shake128: long inputs, long outputs"
    for length, size in ((0, 5000), (32, 5000), (168, 5000), (5000, 0), (5000, 1), (5000, 168), (5000, 5000)):
        yield ask("shake128", draw(f"shake128 {length}", length), lent_bytes(size))


def digest_section(name, rate, size):
    yield from nist(name)
    yield f"# {name}: inputs around the rate, and a long one"
    for length in (*around(rate), 5000):
        yield ask(name, draw(f"{name} {length}", length), lent_bytes(size))
    for length in (0, rate):
        yield from refusals(f"{name}, input of {length}", name, [draw(f"{name} refused", length), lent_bytes(size)])
    yield f"# {name}: a digest of the other hash's length, and a long one"
    for wrong in (96 - size, 2 * rate):
        yield ask(name, b"abc", lent_bytes(wrong), stated=(9, [lent_bytes(wrong)]))


def sha3_256_section():
    return digest_section("sha3_256", 136, 32)


def sha3_512_section():
    return digest_section("sha3_512", 72, 64)


def product_section(name):
    yield f"# {name}: the cases of document 01"
    yield ask(name, 8192, monomial(255), monomial(1), lent_list(), stated=(0, [monomial(0, 8191)]))
    yield ask(name, 1000, monomial(0), monomial(0), lent_list(), stated=(2, [lent_list()]))
    for modulus in saber.MODULI:
        top, lent = modulus - 1, lent_list()
        yield f"# {name}, modulus {modulus}: random"
        for turn in range(8):
            a = draw_list(f"{name} {modulus} {turn} a", modulus)
            yield ask(name, modulus, a, draw_list(f"{name} {modulus} {turn} b", modulus), lent)
        yield f"# {name}, modulus {modulus}: all the largest, all 0, monomials, one times a"
        a = draw_list(f"{name} {modulus} a", modulus)
        square = [(2 * k - 254) % modulus for k in range(256)]  # k + 1 products of -1 and -1, minus 255 - k
        yield ask(name, modulus, [top] * 256, [top] * 256, lent, stated=(0, [square]))
        yield ask(name, modulus, a, [top] * 256, lent)
        yield ask(name, modulus, a, ZERO, lent, stated=(0, [ZERO]))
        yield ask(name, modulus, ZERO, a, lent, stated=(0, [ZERO]))
        yield ask(name, modulus, a, monomial(0), lent, stated=(0, [a]))
        yield ask(name, modulus, monomial(0), a, lent, stated=(0, [a]))
        yield ask(name, modulus, a, monomial(0, top), lent, stated=(0, [[-x % modulus for x in a]]))
        yield ask(name, modulus, a, monomial(255), lent, stated=(0, [[-x % modulus for x in a[1:]] + a[:1]]))
        yield ask(name, modulus, monomial(255), monomial(255), lent, stated=(0, [monomial(254, top)]))
        yield ask(name, modulus, monomial(255, top), monomial(255, top), lent, stated=(0, [monomial(254, top)]))
        yield ask(name, modulus, monomial(0, top), monomial(255, top), lent, stated=(0, [monomial(255)]))
        sound = [modulus, a, draw_list(f"{name} {modulus} b", modulus), lent]
        unknown = UNKNOWN_MODULI if modulus == 8192 else (1000,)
        yield from refusals(f"{name}, modulus {modulus}", name, sound, unknown)


def poly_mul_section():
    return product_section("poly_mul")


def halves_of(a):
    """A polynomial without its high half, and without its low half."""
    return a[:128] + [0] * 128, [0] * 128 + a[128:]


EDGES = (0, 15, 16, 127, 128, 255)  # the first and last places, and those beside an edge of a half or of a last piece


def poly_mul_karatsuba_section():
    name = "poly_mul_karatsuba"
    yield from product_section(name)
    lent = lent_list()
    for modulus in saber.MODULI:
        top = modulus - 1
        yield f"# {name}, modulus {modulus}: monomials at the edges of the pieces"
        for i, j in itertools.product(EDGES, EDGES):
            if modulus == 8192 or i <= j:
                power = monomial(i + j) if i + j < 256 else monomial(i + j - 256, top)
                yield ask(name, modulus, monomial(i), monomial(j), lent, stated=(0, [power]))
        yield f"# {name}, modulus {modulus}: no two halves alike: all coefficients differ, then those of X to the 16 k"
        up, down = list(range(256)), [top - i for i in range(256)]
        for a, b in itertools.product((up, down), repeat=2):
            yield ask(name, modulus, a, b, lent)
        first, second = [k + 1 for k in range(16)], [top - 37 * k for k in range(16)]
        for a, b in itertools.product((first, second), repeat=2):
            stated = saber.modulo(saber.plain_product(a, b), modulus)
            yield ask(name, modulus, spread(a), spread(b), lent, stated=(0, [spread(stated)]))
        yield f"# {name}, modulus {modulus}: one half of each factor, random and then all the largest"
        random = (draw_list(f"{name} {modulus} half {factor}", modulus) for factor in "ab")
        for a, b in (random, ([top] * 256, [top] * 256)):
            for half, other in itertools.product(halves_of(a), halves_of(b)):
                yield ask(name, modulus, half, other, lent)


def round_section():
    yield "# round: the cases of document 01"
    yield ask("round", [3, 4, 8187, 8188] + [0] * 252, lent_list(), stated=(0, [[0, 1, 1023, 0] + [0] * 252]))
    yield "# round: every value, then random ones"
    for start in range(0, 8192, 256):
        yield ask("round", list(range(start, start + 256)), lent_list())
    for turn in range(3):
        yield ask("round", draw_list(f"round {turn}", 8192), lent_list())
    yield from refusals("round", "round", [draw_list("round refused", 8192), lent_list()])


def gen_seeds(name, number):
    return [bytes(32), ONES, *(draw(f"{name} {number} {turn}", 32) for turn in range(3))]


def gen_section(name, lent, known=None):
    """`lent` gives the output that is lent for a set, `known` what is known beforehand of a set and a seed."""
    for number, set in saber.NUMBERS.items():
        yield f"# {name}, set {number}: a seed of 0, of ones, random ones"
        for seed in gen_seeds(name, number):
            yield ask(name, number, seed, lent(set), stated=known and (0, [known(set, seed)]))
        yield from set_refusals(name, number, [number, draw(f"{name} {number} refused", 32), lent(set)])
        other = lent(saber.NUMBERS[number % 3 + 1])
        yield f"# {name}, set {number}: an output for another set"
        yield ask(name, number, bytes(32), other, stated=(9, [other]))


def gen_matrix_section():
    return gen_section("gen_matrix", lambda set: lent_list(256 * set.l * set.l))


# Document 01's cases of sampling, as A4 has them: the set, a seed without the zeros at its end, the bytes with which
# SHAKE-128 of it starts, and the first coefficient
SAMPLED = ((1, "d71d", "e003", -5), (2, "3d", "f0", -4), (2, "28", "0f", 4), (2, "019a", "31", -1))


def gen_secret_section():
    def lent(set):
        return lent_signed(256 * set.l)

    def counted(set, seed):
        return counted_secret(seed, set.l, set.mu)

    yield "# gen_secret: the cases of document 01, from seeds whose SHAKE-128 output starts with the bytes of the case"
    for number, start, string, coefficient in SAMPLED:
        set, seed = saber.NUMBERS[number], bytes.fromhex(start).ljust(32, b"\0")
        secret = counted(set, seed)
        assert hashlib.shake_128(seed).hexdigest(len(string) // 2) == string and secret[0] == coefficient
        yield ask("gen_secret", number, seed, lent(set), stated=(0, [secret]))
    yield from gen_section("gen_secret", lent, counted)
    sampled = {byte for seed in gen_seeds("gen_secret", 2) for byte in hashlib.shake_128(seed).digest(768)}
    assert sampled == {*range(256)}, "set 2 weighs every byte"

    for number, set in saber.NUMBERS.items():
        seed, size = draw(f"gen_secret {number} lent", 32), 256 * set.l
        secret = counted(set, seed)
        yield f"# gen_secret, set {number}: an output of -128, of 127, of -1, of 0, of the secret; refused with each"
        for content in ([-128] * size, [127] * size, [-1] * size, [0] * size, secret):
            yield ask("gen_secret", number, seed, content, stated=(0, [secret]))
            yield ask("gen_secret", UNKNOWN_SETS[0], seed, content, stated=(1, [content]))
            yield ask("gen_secret", number, seed[1:], content, stated=(3, [content]))
            yield ask("gen_secret", number, seed, content[1:], stated=(9, [content[1:]]))
        yield f"# gen_secret, set {number}: outputs of other lengths"
        for length in (0, 1, 2, 255, 256, 257, 2 * size):
            yield ask("gen_secret", number, seed, lent_signed(length), stated=(9, [lent_signed(length)]))


def recon_data_section():
    yield "# recon_data: the case of document 01, w = 63 + 512"
    yield ask("recon_data", 2, [575] * 256, lent_list(), stated=(0, [[8] * 256]))
    for number in saber.NUMBERS:
        yield f"# recon_data, set {number}: every value, then random ones"
        for start in range(0, 1024, 256):
            yield ask("recon_data", number, list(range(start, start + 256)), lent_list())
        w = draw_list(f"recon_data {number}", 1024)
        yield ask("recon_data", number, w, lent_list())
        yield from set_refusals("recon_data", number, [number, w, lent_list()])


def recover_section():
    yield "# recover: the cases of document 01"
    for v, bit in ((287, 1), (288, 0), (800, 1), (799, 0)):
        yield ask("recover", 2, [v] * 256, [8] * 256, lent_list(), stated=(0, [[bit] * 256]))
    for number, set in saber.NUMBERS.items():
        limit = 1024 // set.g
        yield f"# recover, set {number}: around both ends of each data's range, then random"
        ends = [(data, set.g * data - set.margin + half) for data in range(limit) for half in (0, 512)]
        near = [(data, (v + step) % 1024) for data, v in ends for step in (-1, 0, 1)]
        near = itertools.cycle(near)
        for _ in range(2 if number == 3 else 1):
            data, v = zip(*itertools.islice(near, 256))
            yield ask("recover", number, list(v), list(data), lent_list())
        for turn in range(3):
            v, data = draw_list(f"recover {number} {turn} v", 1024), draw_list(f"recover {number} {turn} data", limit)
            yield ask("recover", number, v, data, lent_list())
        yield ask("recover", number, [1023] * 256, [limit - 1] * 256, lent_list())
        yield ask("recover", number, ZERO, ZERO, lent_list())
        yield from set_refusals("recover", number, [number, v, data, lent_list()])


@functools.cache
def keys(number, turn):
    """The seeds of key generation, and the keys; the first turns have seeds of 0 and of ones."""
    set = saber.NUMBERS[number]
    drawn = [draw(f"keygen {number} {turn} {name}", 32) for name in ("matrix seed", "secret seed", "z")]
    seeds = {0: [bytes(32)] * 3, 1: [ONES] * 3}.get(turn, drawn)
    return seeds, *saber.keygen(set, *seeds)


@functools.cache
def encapsulated(number, turn):
    """The seed of encapsulation to the key of that turn, the ciphertext and the shared secret."""
    seed = {0: bytes(32), 1: ONES}.get(turn, draw(f"encaps {number} {turn}", 32))
    return seed, *saber.encaps(saber.NUMBERS[number], keys(number, turn)[1], seed)


def scheme_refusals(name, sound_of):
    """The refusals of a call of the scheme, whose sound arguments for a set `sound_of` gives."""
    for number in saber.NUMBERS:
        yield from set_refusals(name, number, sound_of(number))
        yield f"# {name}, set {number}: the arguments of another set"
        other = sound_of(number % 3 + 1)
        lengths = zip(CALLS[name].parameters[1:], sound_of(number)[1:], other[1:])
        answer = min(parameter.question for parameter, ours, theirs in lengths if len(ours) != len(theirs))
        yield ask(name, number, *other[1:], stated=(answer, other[len(CALLS[name].inputs) :]))


def keygen_section():
    def sound(number, turn=2):
        set = saber.NUMBERS[number]
        return [number, *keys(number, turn)[0], lent_bytes(set.public_key), lent_bytes(set.secret_key)]

    for number in saber.NUMBERS:
        yield f"# keygen, set {number}: seeds of 0, of ones, random ones"
        for turn in range(8):
            yield ask("keygen", *sound(number, turn))
    yield from scheme_refusals("keygen", sound)


def encaps_section():
    def sound(number, turn=2):
        lent = [lent_bytes(saber.NUMBERS[number].ciphertext), lent_bytes(32)]
        return [number, keys(number, turn)[1], encapsulated(number, turn)[0], *lent]

    yield "# encaps: the cases of document 01"
    lent = [lent_bytes(1088), lent_bytes(32)]
    for number, size, length, answer in ((2, 991, 32, 4), (2, 993, 32, 4), (4, 992, 32, 1), (4, 992, 31, 1)):
        yield ask("encaps", number, draw("encaps case", size), bytes(length), *lent, stated=(answer, lent))
    yield ask("encaps", 2, draw("encaps case", 992), bytes(32), *lent)
    for number in saber.NUMBERS:
        yield f"# encaps, set {number}: to keys that keygen makes"
        for turn in range(8):
            yield ask("encaps", *sound(number, turn))
        yield f"# encaps, set {number}: to any bytes as a public key"
        size = saber.NUMBERS[number].public_key
        for public_key in (draw(f"encaps {number} any", size), bytes(size), bytes([255]) * size):
            yield ask("encaps", number, public_key, *sound(number)[2:])
    yield from scheme_refusals("encaps", sound)


def decaps_section():
    def sound(number, turn=2):
        return [number, keys(number, turn)[2], encapsulated(number, turn)[1], lent_bytes(32)]

    for number in saber.NUMBERS:
        set, lent = saber.NUMBERS[number], lent_bytes(32)
        yield f"# decaps, set {number}: ciphertexts that encaps makes"
        for turn in range(8):
            yield ask("decaps", *sound(number, turn), stated=(0, [encapsulated(number, turn)[2]]))
        _, secret_key, ciphertext, _ = sound(number)
        (*_, z), (seed, _, shared_secret), data = keys(number, 2)[0], encapsulated(number, 2), 320 * set.l

        def rejected(other):
            return ask("decaps", number, secret_key, other, lent, stated=(0, [rejected_secret(z, other)]))

        yield f"# decaps, set {number}: a bit damaged in each polynomial of the ciphertext, then in the data"
        for place in (*range(0, data, 320), data - 1, data, set.ciphertext - 1):
            yield rejected(flipped(ciphertext, place))
        yield f"# decaps, set {number}: two damaged ciphertexts that decrypt alike, and give different secrets"
        for bit in (10, 8 * set.ciphertext - set.data_width):
            other, message = with_bit_turned(ciphertext, bit), hashlib.sha3_256(seed).digest()
            yield ask("decrypt", number, secret_key[: set.plain_secret], other, lent, stated=(0, [message]))
            yield rejected(other)
        yield f"# decaps, set {number}: any bytes as a ciphertext"
        size = set.ciphertext
        for other in (draw(f"decaps {number} any", size), bytes(size), bytes([255]) * size):
            yield rejected(other)
        yield f"# decaps, set {number}: a secret key damaged in s, b, the matrix seed and the hash"
        for place in (0, set.plain_secret - 1, set.plain_secret, -97, -96, -64):
            yield ask("decaps", number, flipped(secret_key, place), ciphertext, lent)
        yield f"# decaps, set {number}: damaged in z, which tells with a damaged ciphertext only"
        yield ask("decaps", number, flipped(secret_key, -1), ciphertext, lent, stated=(0, [shared_secret]))
        other, another = flipped(secret_key, -32), flipped(ciphertext, 7)
        yield ask("decaps", number, other, another, lent, stated=(0, [rejected_secret(other[-32:], another)]))
        yield f"# decaps, set {number}: secret coefficients of any 13 bits, all the largest; any bytes as a secret key"
        for plain in (draw(f"decaps {number} plain", set.plain_secret), bytes([255]) * set.plain_secret):
            yield ask("decaps", number, plain + secret_key[set.plain_secret :], ciphertext, lent)
        yield ask("decaps", number, draw(f"decaps {number} secret key", set.secret_key), ciphertext, lent)
    yield from scheme_refusals("decaps", sound)


def encrypt_section():
    def sound(number, turn=2):
        drawn = [draw(f"encrypt {number} {turn} {name}", 32) for name in ("message", "seed")]
        message_and_seed = {0: [bytes(32)] * 2, 1: [ONES] * 2}.get(turn, drawn)
        return [number, keys(number, turn)[1], *message_and_seed, lent_bytes(saber.NUMBERS[number].ciphertext)]

    for number in saber.NUMBERS:
        yield f"# encrypt, set {number}: messages and seeds of 0, of ones, random ones"
        for turn in range(8):
            yield ask("encrypt", *sound(number, turn))
        yield f"# encrypt, set {number}: to any bytes as a public key"
        size = saber.NUMBERS[number].public_key
        for public_key in (draw(f"encrypt {number} any", size), bytes([255]) * size):
            yield ask("encrypt", number, public_key, *sound(number)[2:])
    yield from scheme_refusals("encrypt", sound)


def decrypt_section():
    def sound(number, turn=2):
        set = saber.NUMBERS[number]
        return [number, keys(number, turn)[2][: set.plain_secret], encapsulated(number, turn)[1], lent_bytes(32)]

    for number in saber.NUMBERS:
        set, lent = saber.NUMBERS[number], lent_bytes(32)
        yield f"# decrypt, set {number}: ciphertexts that encaps makes"
        for turn in range(4):
            yield ask("decrypt", *sound(number, turn), stated=(0, [saber.sha3_256(encapsulated(number, turn)[0])]))
        yield f"# decrypt, set {number}: random messages"
        for turn in range(4):
            message = draw(f"decrypt {number} {turn} message", 32)
            ciphertext = saber.encrypt(set, keys(number, turn)[1], message, draw(f"decrypt {number} {turn} seed", 32))
            yield ask("decrypt", number, sound(number, turn)[1], ciphertext, lent, stated=(0, [message]))
        yield f"# decrypt, set {number}: secret coefficients of any 13 bits, any bytes as a ciphertext"
        for turn in range(3):
            plain_secret = draw(f"decrypt {number} {turn} plain secret", set.plain_secret)
            ciphertext = draw(f"decrypt {number} {turn} ciphertext", set.ciphertext)
            yield ask("decrypt", number, plain_secret, ciphertext, lent)
        yield ask("decrypt", number, bytes([255]) * set.plain_secret, bytes([255]) * set.ciphertext, lent)
        yield ask("decrypt", number, bytes(set.plain_secret), bytes([255]) * set.ciphertext, lent)
    yield from scheme_refusals("decrypt", sound)


# Records: doors (those past 65535 are wide, A7) and times, which of them an entry has, and the maps

DOORS = (0, 255, 256, 65535, 65536, 65537, 1 << 31, (1 << 32) - 1)
TIMES = (0, 1, 1 << 32, 1 << 63, (1 << 64) - 1)
SHORT, WIDE, TIME = 0x1234, 0x12345678, 0x0102030405060708
PRESENT = ((None, None), (SHORT, None), (None, TIME), (SHORT, TIME), (WIDE, None), (WIDE, TIME))
MAPS = (12, 13, 14, 15, 28, 30)  # 12 with bit 0 or 4 or neither, and with bit 1 or without it


def any_ciphertext(number):
    return draw(f"record {number}", saber.NUMBERS[number].ciphertext)


def entry_record(door, time, number):
    """The record of an entry of the set; 0 means 2."""
    return laid_record(door, time, number or 2, any_ciphertext(number))


def in_words(door, time):
    doors = [] if door is None else ["door" if door <= 65535 else "wide door"]
    return " and ".join(doors + ["time"] * (time is not None)) or "neither"


def write_record_section():
    def sound(door, time, number):
        return [door, time, number, any_ciphertext(number), lent_bytes(len(entry_record(door, time, number)))]

    def written(door, time, number):
        return ask("write_record", *sound(door, time, number), stated=(0, [entry_record(door, time, number)]))

    for number in saber.NUMBERS:
        yield f"# write_record, set {number}: door and time missing, each there alone, both there; a wide door"
        for door, time in PRESENT:
            yield written(door, time, number)
    yield "# write_record: doors and times"
    for door, time in itertools.product((None, *DOORS), (None, *TIMES)):
        yield written(door, time, 1)
    for number, (door, time) in itertools.product(saber.NUMBERS, PRESENT):
        title, whole = f"write_record, set {number}, {in_words(door, time)}", number == 1
        if whole or (door and time):
            yield from refusals(title, "write_record", sound(door, time, number), UNKNOWN_SETS if whole else (), whole)
    yield "# write_record: a record for other fields, a ciphertext of another set"
    for ours, theirs in itertools.permutations(PRESENT, 2):
        lent = sound(*theirs, 1)[4]
        yield ask("write_record", *sound(*ours, 1)[:4], lent, stated=(9, [lent]))
    for number, door in itertools.product(saber.NUMBERS, (None, WIDE)):
        ciphertext, lent = sound(door, 1, number % 3 + 1)[3:]
        yield ask("write_record", door, 1, number, ciphertext, lent, stated=(6, [lent]))
    yield "# write_record: the last short door and the first wide one, each with a record for the other"
    for (ours, theirs), time in itertools.product(((65535, 65536), (65536, 65535)), (None, TIME)):
        lent = sound(theirs, time, 1)[4]
        yield ask("write_record", *sound(ours, time, 1)[:4], lent, stated=(9, [lent]))


def unread(answer, record, lent):
    """A line whose record is refused: nothing is handed back."""
    return ask("read_record", record, lent, stated=(answer, [None, None, None, lent]))


def with_byte(record, place, byte):
    return record[:place] + bytes([byte]) + record[place + 1 :]


def map_turned(bit):
    return lambda record: with_byte(record, 0, record[0] ^ 1 << bit)


def misread(record, lent, *faults):
    """A read with several faults, the one that is asked first in front."""
    arguments = [record, lent]
    for fault in reversed(faults):
        arguments[fault.place] = fault.change(arguments[fault.place])
    return unread(faults[0].answer, *arguments)


def read_refusals(door, time):
    """Two refusals at once, each pair, then more. A record that is cut before its set byte has no bad one."""
    record, lent = entry_record(door, time, 1), lent_bytes(736)
    place, wide = len(record) - len(lent) - 1, door == WIDE
    # Every bit of the map once that may not be turned, the other door's first, and one where a field is missing
    other_door = 0 if wide else 4
    maps = [Fault(10, 0, map_turned(bit)) for bit in ((other_door, 5, 6, 7, 2, 3) if door and time else (7,))]
    cut = Fault(11, 0, lambda record: record[:place])
    set_byte = Fault(1, 0, lambda record: with_byte(record, place, 4))
    longer = Fault(11, 0, lambda record: record + b"0")
    shorter = Fault(11, 0, lambda record: record[:-1])
    narrow = [Fault(12, 0, lambda record: record[:1] + bytes.fromhex("ffff0000") + record[5:])] if wide else []
    output = Fault(9, 1, lambda lent: lent[:-1])
    yield f"# read_record, {in_words(door, time)}: two refusals at once, then more"
    for one, other in itertools.combinations((maps, [cut], [set_byte], [longer, shorter], narrow, [output]), 2):
        for two in itertools.product(one, other):
            if two[0] is not cut or two[1] in (*narrow, output):
                yield misread(record, lent, *two)
    chains = ([maps[0], *between, *narrow, output] for between in ([set_byte, longer], [set_byte, shorter], [cut]))
    more = [itertools.combinations(chain, count) for chain in chains for count in range(3, len(chain) + 1)]
    for some in dict.fromkeys(itertools.chain(*more)):
        yield misread(record, lent, *some)


def accepted(door, time, number, ciphertext):
    record, lent = laid_record(door, time, number, ciphertext), lent_bytes(len(ciphertext))
    return ask("read_record", record, lent, stated=(0, [door, time, number, ciphertext]))


def every_map():
    """Every map, alone and before the rest of a record with either door."""
    yield "# read_record: every map alone"
    for bit_map in range(256):
        yield unread(11 if bit_map in MAPS else 10, bytes([bit_map]), lent_bytes(2))
    # Under another map another byte is the set byte: for those of MAPS the one at 1, 3, 9, 11, 5 and 13, which may be
    # missing or in the ciphertext. For each of them stand the answers to the start of a record and to a whole one.
    assert any_ciphertext(1)[1] == 2
    for title, entry, answers in (
        ("door", (0x0301, 0x0002000000000004, 1), ((11, 11), (1, 1), (11, 11), (11, 0), (1, 1), (11, 11))),
        ("wide door", (0x00020304, 0x0001000000000003, 1), ((1, 1), (11, 11), (1, 1), (11, 11), (11, 11), (11, 0))),
    ):
        whole = laid_record(*entry, any_ciphertext(1))
        yield f"# read_record: every map before {title}, time and set byte, and before a whole record"
        for bit_map in range(256):
            start, answer = dict(zip(MAPS, answers)).get(bit_map, (10, 10))
            yield unread(start, bytes([bit_map]) + whole[1:-736], lent_bytes(2))
            if answer:
                yield unread(answer, bytes([bit_map]) + whole[1:], lent_bytes(736 if bit_map in MAPS else 2))
        yield accepted(*entry, any_ciphertext(1))


def wide_doors():
    """What wide fields may hold and what they may not, both doors at once, and records that end with a wide field."""
    for number in saber.SETS:
        ciphertext, times = any_ciphertext(number), (None, TIME)
        lent = lent_bytes(len(ciphertext))
        yield f"# read_record, set {number}: wide fields that hold 65535 or less, also to wrong lengths, then more"
        for wide, time in itertools.product((0, 1, 255, 256, 65535), times):
            yield unread(12, laid_record(None, time, number, ciphertext, wide), lent)
        for length, time in itertools.product((0, len(lent) + 1, saber.SETS[number % 3 + 1].ciphertext), times):
            yield unread(12, laid_record(None, time, number, ciphertext, 65535), lent_bytes(length))
        for door, time in itertools.product((65536, 1 << 24), times):
            yield accepted(door, time, number, ciphertext)
        yield f"# read_record, set {number}: a wide field and the length that a short one requires"
        for wide, time in itertools.product((0, 65535, 65536), times):
            yield unread(11, laid_record(None, time, number, ciphertext, wide)[:-2], lent)
        yield f"# read_record, set {number}: both doors, two numbers and the same one"
        for wide, time in itertools.product((0, SHORT, 65536, WIDE), times):
            yield unread(10, laid_record(SHORT, time, number, ciphertext, wide), lent)
    yield "# read_record: records that end within a wide field, or with it"
    for bit_map, wide, length in itertools.product((28, 30), (0, 65535, 65536, WIDE), range(1, 5)):
        yield unread(11, bytes([bit_map]) + wide.to_bytes(4, "little")[:length], lent_bytes(2))


def read_record_section():
    for number, set in saber.SETS.items():
        yield f"# read_record, set {number}: door and time missing, each there alone, both there; a wide door"
        for door, time in PRESENT:
            yield accepted(door, time, number, any_ciphertext(number))
        yield f"# read_record, set {number}: ciphertexts of 0 and of ones"
        for byte in (0, 255):
            yield accepted(None, None, number, bytes([byte]) * set.ciphertext)
    yield "# read_record: doors and times"
    for door, time in itertools.product((None, *DOORS), (None, *TIMES)):
        yield accepted(door, time, 1, any_ciphertext(1))
    yield from every_map()
    yield from wide_doors()
    yield "# read_record: every set byte, in a record that ends with it: no door, a wide one, a wide field of 65535"
    for byte, start in itertools.product(range(256), ("0c", "1c00000100", "1cffff0000")):
        yield unread(11 if byte in (1, 2, 3) else 1, bytes.fromhex(start) + bytes([byte]), lent_bytes(2))

    for number, (door, time) in itertools.product(saber.SETS, PRESENT):
        if number > 1 and not (door and time):
            continue
        record, size = entry_record(door, time, number), saber.SETS[number].ciphertext
        place = len(record) - size - 1
        title = f"read_record, set {number}, {in_words(door, time)}"
        yield f"# {title}: lengths one under, at and one over where each field ends"
        ends = {1, {None: 1, SHORT: 3, WIDE: 5}[door], place, place + 1, len(record)}
        for length in sorted({end + step for end in ends for step in (-1, 0, 1)} - {len(record)}):
            yield unread(11 if length else 10, (record + b"0")[:length], lent_bytes(size))
        yield f"# {title}: bad set bytes, those of other sets, wrong lengths of the output"
        for byte in (0, 4, 5, 6, 255):
            yield unread(1, with_byte(record, place, byte), lent_bytes(size))
        for other in saber.SETS:
            if other != number:
                yield unread(11, with_byte(record, place, other), lent_bytes(size))
                yield unread(11, with_byte(record, place, other), lent_bytes(saber.SETS[other].ciphertext))
        for length in (0, size - 1, size + 1, saber.SETS[number % 3 + 1].ciphertext):
            yield unread(9, record, lent_bytes(length))
    for door, time in PRESENT:
        yield from read_refusals(door, time)
    yield "# read_record: an empty record, and an output of none or any length"
    for length in (0, 1, 736, 737):
        yield unread(10, b"", lent_bytes(length))


def known_answers_section():
    for path in known_answers.FILES.values():
        yield f"# known answers: keygen, encaps and decaps of each entry of {path.name}"
        for label, entry in known_answers.read(path.read_text()):
            for check in known_answers.checks(label, entry):
                yield Line(check.request, check.expected)


SECTIONS = {
    "pack": pack_section,
    "unpack": unpack_section,
    "public_key_of": public_key_of_section,
    "shake128": shake128_section,
    "sha3_256": sha3_256_section,
    "sha3_512": sha3_512_section,
    "poly_mul": poly_mul_section,
    "poly_mul_karatsuba": poly_mul_karatsuba_section,
    "round": round_section,
    "gen_matrix": gen_matrix_section,
    "gen_secret": gen_secret_section,
    "recon_data": recon_data_section,
    "recover": recover_section,
    "keygen": keygen_section,
    "encrypt": encrypt_section,
    "decrypt": decrypt_section,
    "encaps": encaps_section,
    "decaps": decaps_section,
    "write_record": write_record_section,
    "read_record": read_record_section,
    "known answers": known_answers_section,
}


# The notation's own errors


def unreadable(reason, *lines):
    for line in lines:
        yield Line(line, f"error {reason}".encode())


def normal():
    """A line that is read normally."""
    yield Line(b"pack 5 - a5a6", b"2 a5a6")


def padded(line, length):
    """The line filled up to a length with a digit."""
    return line.ljust(length, b"5")


def signed_lines(answer, *words):
    """Lines with a signed list at their end, and an answer to them."""
    return [Line(b"gen_secret 4 - " + word, answer) for word in words]


def filled(piece, length):
    """A signed list of `length` bytes: 0, with zeros in front as needed, then the piece repeated."""
    return (piece * ((length - 1) // len(piece))).rjust(length, b"0")


def signed_notation():
    every = b",".join(b"%d" % x for x in range(-128, 128))
    yield "# notation: signed lists"
    for word in (b"-", b"0", b"4", b"-4", b"0,-4,4", b"-4,0,-4", b"10,-10,100,-100", b"-128", b"127", b"-128,127"):
        yield from signed_lines(b"1 " + word, word)
    yield from signed_lines(b"1 " + every, every)
    yield "# notation: signed lists with zeros in front, with a sign before 0"
    for word, printed in (
        (b"-0", b"0"), (b"00", b"0"), (b"000", b"0"), (b"-000", b"0"), (b"0,-0,0", b"0,0,0"), (b"0004", b"4"),
        (b"-0004", b"-4"), (b"0127,-0128", b"127,-128"), (b"000000127,-000000128", b"127,-128"),
        (b"0" * 5000 + b"127," + b"0" * 5000, b"127,0"), (b"-" + b"0" * 5000 + b"128", b"-128"),
    ):
        yield from signed_lines(b"1 " + printed, word)
    yield from normal()

    yield "# notation: signed lists with an empty piece, a sign that stands elsewhere or another byte"
    yield from signed_lines(
        b"error bad digit",
        b"", b",", b",,", b"0,", b",0", b"0,,0", b",0,", b"-,", b",-", b"-,-", b"0,-", b"-,0", b"0,-,0", b"--", b"--4",
        b"0,--4", b"4-", b"4-4", b"-4-", b"0-", b"-0-", b"+4", b"+", b"0,+4", b"-+4", b"+-4", b"0x4", b"4.0", b"4;4",
        b"1e1", b"1_0", b"a", b"0a", b"a0", b"0,a", b"00a0", b"-a", b"0/", b"0:", b"/", b":", b"0.", b"0'", b"4\t",
        b"\t4", b"0,\t4", b"4\r,4", b"4\0", b"\0", b"\xff", b"0,\xff", b"\xe2\x88\x924", b"\xd9\xa3", b"#", b"0,#",
        every + b",", b"," + every, every + b"," + every.replace(b"-77", b"-77-"), b"0" * 5000 + b"-",
    )
    yield "# notation: signed lists with a number out of -128 .. 127"
    yield from signed_lines(
        b"error too large",
        b"128", b"-129", b"129", b"-130", b"0,128", b"128,0", b"0,-129,0", b"127,128", b"-128,-129", b"0128", b"-0129",
        b"200", b"-200", b"255", b"-255", b"256", b"-256", b"257", b"-257", b"260", b"384", b"-384", b"999", b"-999",
        b"1000", b"1270", b"-1280", b"8188", b"65408", b"65535", b"65536", b"65540", b"-65536", b"4294967168",
        b"4294967295", b"4294967296", b"-4294967296", b"4294967300", b"18446744073709551488", b"18446744073709551615",
        b"18446744073709551616", b"-18446744073709551616", b"18446744073709551620",
        b"340282366920938463463374607431768211456", b"1" + b"0" * 5000, b"-1" + b"0" * 5000, b"0" * 5000 + b"128",
        every + b",128", b"-129," + every,
    )
    yield "# notation: signed lists with both faults: a bad digit anywhere comes first"
    yield from signed_lines(
        b"error bad digit",
        b"128,", b",128", b"128,x", b"x,128", b"128,,128", b"-129,-", b"-,-129", b"128,+4", b"128-", b"999,--4",
        b"1000x", b"256,256,a", b"9" * 5000 + b",", b"9" * 5000 + b"x", every + b",128,-129,",
    )
    yield from normal()

    yield "# notation: lines with a signed list, the first fault from the left"
    yield from unreadable(
        "bad digit",
        b"gen_secret x - ,", b"gen_secret x - 128", b"gen_secret - - -", b"gen_secret 4 0g 128", b"gen_secret 4 -- 0",
        b"gen_secret 4 - , x", b"gen_secret 4 - ", b"gen_secret 4 -  ", b"gen_secret 4  0", b"gen_secret ",
        b"gen_secret 4 - 0, 4", b"gen_secret 4 - ,0 4",
    )
    yield from unreadable(
        "too large",
        b"gen_secret 4294967296 - ,", b"gen_secret 4294967296 0 0", b"gen_secret 4 - 128 x", b"gen_secret 4 - -129 ",
    )
    yield from unreadable("odd count", b"gen_secret 4 0 ,", b"gen_secret 4 000 128", b"gen_secret 4 0")
    yield from unreadable(
        "wrong count",
        b"gen_secret", b"gen_secret 4", b"gen_secret 4 -", b"gen_secret 4 00", b"gen_secret 4 - 0,-4,4 ",
        b"gen_secret 4 - 0,-4,4 -", b"gen_secret 4 - - -", b"gen_secret 4 - 0 ,4", b"gen_secret 4 - 0 x",
    )
    yield from unreadable(
        "unknown call",
        b"gen_secre 4 - 0", b"gen_secrets 4 - 0", b"Gen_secret 4 - 0", b"gen-secret 4 - 0", b"gen_secret,4,-,0",
        b"secret 4 - 0",
    )
    yield "# notation: no other list is signed"
    yield from unreadable("bad digit", b"gen_matrix 4 - -4,4", b"unpack 5 - 0,-4", b"round 0,-4 -", b"pack 5 0,-4 -")
    yield from unreadable("odd count", b"gen_matrix 4 - 0,4", b"unpack 5 - -4", b"round 0,-4,4 -", b"sha3_256 - -4,")
    yield from normal()


def notation_section():
    yield "# notation: a first word that is no call's name"
    yield from unreadable(
        "unknown call",
        b"", b" ", b"  ", b" pack 5 - -", b"no_such_call", b"no_such_call 1 2 3", b"no_such_call \xff",
        b"Pack 5 - -", b"PACK 5 - -", b"pac 5 - -", b"packs 5 - -", b"pack,5,-,-", b"-", b"0", b"error",
        b"pack\t5 - -", b"pack\r 5 - -", b"\r", b"pack\0 5 - -", b"\0", b"\xff\xfe",
        b"\xef\xbb\xbfpack 5 - -", b" # no comment", b"public_key", b"public_key_of_ 1 -",
        b"unpack_ 5 - -", b"poly_mul_ 1024 - - -", b"poly_mul_karatsub 1024 - - -", b"poly_mul_karatsuba_ 1024 - - -",
        b"karatsuba 1024 - - -",
    )
    yield from normal()

    yield "# notation: too few words, too many, a space at the end"
    yield from unreadable(
        "wrong count",
        b"pack", b"pack 5", b"pack 5 -", b"unpack 13 00", b"public_key_of", b"public_key_of 2",
        b"pack 5 - - -", b"pack 5 - - ", b"pack 5 - -  ", b"public_key_of 2 - 00",
        b"public_key_of 2 00 ", b"pack 13 0001 02 x", b"unpack 5 - - \xff", b"poly_mul_karatsuba 1024 - -",
        b"poly_mul_karatsuba 1024 - - - -",
    )
    yield from normal()

    yield "# notation: numbers with a bad digit, empty ones among them"
    yield from unreadable(
        "bad digit",
        b"pack x - -", b"pack 1x - -", b"pack x1 - -", b"pack -1 - -", b"pack +1 - -", b"pack - - -",
        b"pack 0x1 - -", b"pack 1.0 - -", b"pack 1_0 - -", b"pack / - -", b"pack : - -", b"pack a - -",
        b"pack 1\t - -", b"pack 1\r - -", b"pack 1\0 - -", b"pack \xff - -", b"pack \xd9\xa3 - -",
        b"pack  - -", b"pack  5 - -", b"pack ", b"public_key_of ", b"pack 99999999999999999999x - -",
        b"pack x99999999999999999999 - -", b"pack 4294967296- - -", b"pack " + b"9" * 5000 + b"x - -",
    )
    yield from normal()

    yield "# notation: numbers of 2 to the 32 and more"
    yield from unreadable(
        "too large",
        b"pack 4294967296 - -", b"pack 4294967301 - -", b"pack 4294967306 - -",
        b"pack 00004294967296 - -", b"pack 9999999999 - -", b"pack 10000000000 - -",
        b"pack 42949672960 - -", b"pack 18446744073709551629 - -", b"pack 18446744073709551616 - -",
        b"public_key_of 340282366920938463463374607431768211458 -", b"pack 1" + b"0" * 5000 + b" - -",
    )
    yield from normal()

    yield "# notation: the largest number, and numbers with zeros in front"
    yield Line(b"pack 4294967295 - a5", b"2 a5")
    yield Line(b"pack 00000000000000000000000005 - a5", b"2 a5")
    yield Line(b"pack " + b"0" * 5000 + b"10 - a5", b"7 a5")
    yield Line(b"pack 010 - a5", b"7 a5")
    yield Line(b"pack 00 - a5", b"2 a5")

    yield "# notation: bytes and lists whose digits do not come out even"
    yield from unreadable(
        "odd count",
        b"unpack 5 0 -", b"unpack 5 abc -", b"unpack 5 - 0", b"unpack 5 - 00", b"unpack 5 - 000",
        b"unpack 5 - 00000", b"pack 5 0 -", b"pack 5 12 -", b"pack 5 123 -", b"pack 5 123456 -",
        b"pack 5 - 0", b"pack 5 - 000", b"public_key_of 2 0", b"public_key_of 9 000", b"unpack 5 x -",
        b"unpack 5 xyz -", b"pack 5 -- -", b"pack 5 zz -", b"pack 5 000g1 -", b"unpack 5 --- -",
    )
    yield from normal()

    yield "# notation: bytes and lists with a bad digit, empty ones among them"
    yield from unreadable(
        "bad digit",
        b"unpack 5 0g -", b"unpack 5 g0 -", b"unpack 5 -- -", b"unpack 5 -0 -", b"unpack 5 0- -",
        b"unpack 5 0x -", b"unpack 5 0/ -", b"unpack 5 0: -", b"unpack 5 0@ -", b"unpack 5 0G -",
        b"unpack 5 0` -", b"unpack 5 \xff\xff -", b"unpack 5 0\r -", b"unpack 5 \0\0 -", b"unpack 5  -",
        b"unpack 5 ", b"unpack 5 - ", b"unpack 5  - -", b"pack 5 000g -", b"pack 5 g000 -",
        b"pack 5 ---- -", b"pack 5 0x10 -", b"pack 5 00000-00 -", b"pack 5  -", b"pack 5 - ",
        b"pack 5 - \t\t", b"public_key_of 2 ", b"public_key_of 2 zz",
        b"unpack 5 00112233445566778899aabb0g -",
    )
    yield from normal()

    yield "# notation: the first fault from the left wins"
    yield from unreadable(
        "bad digit",
        b"pack x 0 0", b"pack x 0", b"pack x", b"pack 5 000g 0", b"pack 5 000g", b"pack 5 - gg -",
    )
    yield from unreadable(
        "too large",
        b"pack 5000000000 zz", b"pack 5000000000", b"pack 5000000000 - - -",
        b"public_key_of 5000000000 0",
    )
    yield from unreadable(
        "odd count",
        b"pack 5 zz", b"pack 5 zz gg", b"pack 5 - 0 -", b"unpack 5 0 gggg", b"unpack 5 00 zz -",
    )
    yield from unreadable("wrong count", b"pack 5 0000", b"pack 5 - 00 zz", b"public_key_of 4 - x")
    yield from unreadable("unknown call", b"no_such_call x", b"no_such_call 5000000000 0 ")
    yield from normal()

    yield "# notation: numbers that may be missing"
    for door, time in (
        (b"-", b"-"), (b"0", b"-"), (b"-", b"0"), (b"65535", b"18446744073709551615"), (b"65536", b"-"),
        (b"4294967295", b"18446744073709551615"),
    ):
        yield Line(b"write_record %s %s 4 - a5" % (door, time), b"1 a5")
    yield Line(b"write_record 00000000000000000000000065535 - 4 - a5", b"1 a5")
    yield Line(b"write_record 0000000000000000000004294967295 - 4 - a5", b"1 a5")
    yield Line(b"write_record - 00000000000000000000018446744073709551615 4 - a5", b"1 a5")
    yield Line(b"write_record " + b"0" * 5000 + b" " + b"0" * 5000 + b"1 2 - a5", b"6 a5")
    yield Line(b"write_record " + b"0" * 5000 + b"4294967295 - 2 - a5", b"6 a5")
    for door in (b"65536", b"131071", b"99999", b"4294967295", b"0065536"):
        yield Line(b"write_record %s - 4 - -" % door, b"1 -")
    yield Line(b"write_record 65537 - 1 - -", b"6 -")
    ciphertext, lent = any_ciphertext(1).hex().encode(), lent_bytes(742).hex().encode()
    for door, start in ((b"0065536", b"1c0000010001"), (b"04294967295", b"1cffffffff01"), (b"99999", b"1c9f86010001")):
        yield Line(b" ".join((b"write_record", door, b"- 1", ciphertext, lent)), b"0 " + start + ciphertext)
    yield from unreadable(
        "bad digit",
        b"write_record -- - 4 - -", b"write_record - -- 4 - -", b"write_record --- - 4 - -",
        b"write_record -1 - 4 - -", b"write_record - -1 4 - -", b"write_record 1- - 4 - -",
        b"write_record - 1- 4 - -", b"write_record -0 - 4 - -", b"write_record - +1 4 - -",
        b"write_record  - 4 - -", b"write_record -  4 - -", b"write_record ", b"write_record - ",
        b"write_record x - 4 - -", b"write_record - x 4 - -", b"write_record 0x1 - 4 - -",
        b"write_record - 1.5 4 - -", b"write_record \xe2\x88\x92 - 4 - -", b"write_record \0 - 4 - -",
        b"write_record -\r - 4 - -", b"write_record - -\t 4 - -", b"write_record - - - - -", b"write_record - - -",
        b"write_record - - -- - -", b"write_record - -  - -", b"write_record 65536x - 4 - -",
        b"write_record 4294967296x - 4 - -", b"write_record - 18446744073709551616- 4 - -",
    )
    yield from unreadable(
        "too large",
        b"write_record 4294967296 - 4 - -", b"write_record 4294967297 - 4 - -", b"write_record 4294967297 - 1 - -",
        b"write_record 4295032832 - 4 - -", b"write_record 8589934591 - 4 - -", b"write_record 9999999999 - 4 - -",
        b"write_record 42949672950 - 4 - -", b"write_record 004294967296 - 4 - -",
        b"write_record 18446744073709551616 - 4 - -", b"write_record 18446744073709617152 - 4 - -",
        b"write_record 1" + b"0" * 5000 + b" - 4 - -",
        b"write_record - 18446744073709551616 4 - -", b"write_record - 18446744073709551617 1 - -",
        b"write_record - 18446744073709551625 4 - -", b"write_record - 18446744078004518912 4 - -",
        b"write_record - 36893488147419103232 4 - -", b"write_record - 99999999999999999999 4 - -",
        b"write_record - 100000000000000000000 4 - -", b"write_record - 184467440737095516150 4 - -",
        b"write_record - 340282366920938463463374607431768211456 4 - -",
        b"write_record - 0018446744073709551616 4 - -", b"write_record - 1" + b"0" * 5000 + b" 4 - -",
        b"write_record - - 4294967296 - -", b"write_record 0 0 18446744073709551617 - -",
    )
    yield from normal()

    yield "# notation: lines of records, the first fault from the left"
    yield from unreadable(
        "bad digit",
        b"write_record x 18446744073709551616 4 0 0", b"write_record - x 4294967296 0 0", b"write_record x",
        b"write_record - x", b"write_record - - x", b"write_record - - 4 0g 0", b"write_record - - 4 - 0g",
        b"write_record 65536 x 4 0 0", b"write_record 4294967295 x",
        b"read_record 0g -", b"read_record -- -", b"read_record  -", b"read_record ", b"read_record - ",
        b"read_record - zz", b"read_record - -- -", b"read_record -  -",
    )
    yield from unreadable(
        "too large",
        b"write_record 4294967296 x 4 0 0", b"write_record 4294967296", b"write_record - 18446744073709551616 x 0 0",
        b"write_record - 18446744073709551616", b"write_record - - 4294967296 0",
        b"write_record 4294967296 - 4 - - -", b"write_record 65536 18446744073709551616 4 - -",
    )
    yield from unreadable(
        "odd count",
        b"write_record - - 4 0 -", b"write_record - - 4 - 0", b"write_record 1 2 4 000 zz", b"read_record 0 -",
        b"read_record - 0", b"read_record 0c0 0", b"read_record zzz -", b"write_record 4294967295 - 4 0 -",
        b"read_record 1c000001000 -",
    )
    yield from unreadable(
        "wrong count",
        b"write_record", b"write_record -", b"write_record - -", b"write_record - - 4", b"write_record - - 4 -",
        b"write_record 65536", b"write_record 65536 - 4 - - -", b"write_record 4294967295",
        b"write_record - - 4 - - -", b"write_record - - 4 - - ", b"read_record", b"read_record -",
        b"read_record 0c01", b"read_record - - -", b"read_record - - ", b"read_record - - - - -",
    )
    yield from unreadable(
        "unknown call",
        b"write_record_ - - 4 - -", b"write_recor - - 4 - -", b"Write_record - - 4 - -", b"read_records - -",
        b"read_recor - -", b"READ_RECORD - -", b"read-record - -", b"record - -", b"write - - 4 - -", b"read - -",
    )
    yield Line(b"read_record - -", b"10 - - - -")
    yield Line(b"read_record 0C04 A5", b"1 - - - a5")
    yield Line(b"read_record 0c01 a5", b"11 - - - a5")
    yield Line(b"read_record 1C00000100 A5", b"11 - - - a5")
    yield Line(b"read_record 1C0000000004 A5", b"1 - - - a5")
    yield Line(b"read_record 1D A5", b"10 - - - a5")
    yield from normal()

    yield from signed_notation()

    yield "# notation: both cases of hex digits"
    string = draw("notation", 32)
    lower, mixed = string.hex(), "".join(x.upper() if i % 3 else x for i, x in enumerate(string.hex()))
    stated = notation.write_answer("unpack", 0, [bits(string)])
    for digits in (lower, lower.upper(), mixed):
        yield Line(f"unpack 1 {digits} {'aBcD' * 256}".encode(), stated)
    yield Line(b"pack 5 ABCDEFabcdef A5B6c7D8", b"2 a5b6c7d8")
    yield Line(b"unpack 5 ABCDEFabcdef ABCDEFabcdef0189", b"2 abcdefabcdef0189")

    yield "# notation: comments give no line, of whatever they are made"
    yield "#"
    yield "##"
    yield "#pack 5 - a5a6"
    yield "#\0\xff\r"
    yield "# a comment of 70000 bytes " + "#" * 69973
    yield from normal()

    yield "# notation: a carriage return before the newline belongs to the end of the line, one elsewhere does not"
    yield Line(b"pack 5 - a5a6\r", b"2 a5a6")
    yield Line(b"gen_secret 4 - 0,-4\r", b"1 0,-4")
    yield Line(b"public_key_of 4 -\r", b"-")
    yield "# a comment\r"
    yield from unreadable("unknown call", b"no_such_call\r", b"\r\r")
    yield from unreadable("wrong count", b"pack\r", b"pack 5 - - \r")
    yield from unreadable("odd count", b"pack 5 - a5\r\r")
    yield from unreadable("bad digit", b"pack 5 - a\r\r", b"gen_secret 4 - 4\r\r", b"gen_secret 4 - \r4\r")
    yield Line(padded(b"unpack 13 - ", 65536) + b"\r", padded(b"7 ", 65526))
    for end in (b"0", b"0\r", b"\r\r", b"\r0", b"0\r0", b"\r\r\r"):
        yield from unreadable("too long", padded(b"unpack 13 - ", 65536) + end)
    yield from normal()

    yield "# notation: lines of 65536 bytes, and longer ones"
    yield Line(padded(b"unpack 13 - ", 65536), padded(b"7 ", 65526))
    yield from unreadable("too long", padded(b"public_key_of 2 ", 65537))
    yield from normal()
    yield from unreadable("unknown call", padded(b"no_such_call ", 65536))
    yield from unreadable("too long", padded(b"no_such_call ", 131073))
    yield from normal()
    yield "# notation: signed lists in lines of 65536 bytes: most numbers, the longest ones, a fault at the end"
    room = 65536 - len(b"gen_secret 4 - ")
    for piece in (b",0", b",-128"):
        longest = filled(piece, room)
        yield from signed_lines(b"1 0" + longest.lstrip(b"0"), longest)
    yield from signed_lines(b"error bad digit", filled(b",0", room - 1) + b",", b"128" + filled(b",0", room - 4) + b"x")
    yield from signed_lines(b"error too large", filled(b",-1", room - 4) + b",128", padded(b"", room))
    yield from signed_lines(b"error too long", filled(b",0", room + 1))
    yield from normal()

    yield "# notation: the last line has no newline"
    yield from normal()


# The files


def margin_groups():
    """The input of marginreport: set 3, 128 groups and 95 bytes over."""
    return b"\3" + b"".join(draw(f"margin group {i}", 96) for i in range(128)) + draw("margin rest", 95)


def sabercall():
    """The requests, their answers, how many of them were stated, and how many there are to each call."""
    sections = [section() for section in SECTIONS.values()] + [notation_section()]
    parts = ["# Requests to sabercall, written by oracle/requests.py.", *itertools.chain(*sections)]
    lines = [part for part in parts if isinstance(part, Line)]
    requests = b"\n".join(part.request if isinstance(part, Line) else part.encode("latin-1") for part in parts)
    answers = notation.answer_lines(requests)

    given = answers.split(b"\n")[:-1]
    assert len(given) == len(lines), "each line has its answer"
    for line, answer in zip(lines, given):
        if line.stated not in (None, answer):
            sys.exit(f"stated otherwise: {line.request[:80]!r} gives {answer[:80]!r}, not {line.stated[:80]!r}")
    stated = sum(line.stated is not None for line in lines)
    kinds = Counter()
    for line, answer in zip(lines, given):
        kinds["error" if answer.startswith(b"error") else line.request.split()[0].decode()] += 1
    assert kinds.keys() == {*CALLS, "error"}, "each call is requested"
    return requests, answers, stated, kinds


def main():
    options = argparse.ArgumentParser()
    options.add_argument("action", choices=("write", "check"))
    options.add_argument("--to", type=Path, default=Path(__file__).resolve().parent.parent)
    options = options.parse_args()

    requests, answers, stated, kinds = sabercall()
    files = {
        "crates/sabercall/stdin": requests,
        "crates/sabercall/stdout": answers,
        "crates/saberset/stdout": saber.table().encode(),
        "crates/marginreport/stdin": margin_groups(),
        "crates/marginreport/stdout": saber.margin_report(margin_groups()),
    }
    different = 0
    for name, content in files.items():
        path = options.to / name
        if options.action == "write":
            path.parent.mkdir(parents=True, exist_ok=True)
            path.write_bytes(content)
        elif not path.is_file() or path.read_bytes() != content:
            different += 1
            print(f"{name}: different")
        print(f"{name}: {len(content)} bytes")
    print(", ".join(f"{name} {count}" for name, count in kinds.items()))
    total = f"{kinds.total()} answers, {stated} of them stated beforehand"
    print(f"{options.action}: {total}, {different} files different")
    return 1 if different else 0


if __name__ == "__main__":
    sys.exit(main())
