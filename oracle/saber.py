"""Saber as document 01 reads the submission: what every call writes, and the noise of demand 3. Records and the margin
report, as document 02 has them.

A polynomial is a list of 256 whole numbers, coefficient 0 first; a vector is a list of polynomials,
a matrix a list of rows. Byte strings are `bytes`. All functions here take sound values only, and a set's
parameters where a call takes its number; the questions that come before are in calls.py, where a call has
the name of its function here.
"""

import functools
import hashlib
import struct
from typing import NamedTuple

N, Q, P = 256, 8192, 1024


# The sets


class Set(NamedTuple):
    l: int
    mu: int
    t: int
    g: int
    public_key: int
    secret_key: int
    ciphertext: int
    margin: int

    @property
    def plain_secret(self):
        return 416 * self.l

    @property
    def data_width(self):
        """Bits of reconciliation data a coefficient: data lies below 1024 / g."""
        return (P // self.g).bit_length() - 1


SETS = {
    1: Set(2, 10, 4, 128, 672, 1568, 736, 192),
    2: Set(3, 8, 8, 64, 992, 2304, 1088, 224),
    3: Set(4, 6, 32, 16, 1312, 3040, 1472, 248),
}
NAMES = {1: "LightSaber", 2: "Saber", 3: "FireSaber"}
DEFAULT = 2
NUMBERS = {0: SETS[DEFAULT], **SETS}  # the set that each number means
WIDTHS = (1, 3, 4, 6, 10, 13)
MODULI = (P, Q)


def table():
    """The lines that the program saberset prints."""
    rows = [(number, *row) for number, row in SETS.items()]
    return "set l mu t g pk sk ct margin\n" + "".join(" ".join(map(str, row)) + "\n" for row in rows)


# Bytes


def unpack(width, string):
    """The string cut into numbers of `width` bits, least significant bit first, with no gaps."""
    pieces = [string[i : i + width] for i in range(0, len(string), width)]  # of eight numbers each
    bits, mask = [int.from_bytes(piece, "little") for piece in pieces], (1 << width) - 1
    return [x >> width * i & mask for x in bits for i in range(8)][: 8 * len(string) // width]


def pack(width, numbers):
    """Numbers of `width` bits laid into a string in that same order."""
    bits = sum(x << width * i for i, x in enumerate(numbers))
    return bits.to_bytes(len(numbers) * width // 8, "little")


def flat(vector):
    return [x for polynomial in vector for x in polynomial]


def polynomials(numbers):
    return [numbers[i : i + N] for i in range(0, len(numbers), N)]


# Hashes (FIPS 202)


def shake128(string, length):
    return hashlib.shake_128(string).digest(length)


def sha3_256(string):
    return hashlib.sha3_256(string).digest()


def sha3_512(string):
    return hashlib.sha3_512(string).digest()


# The ring: products are over whole numbers and are reduced where the text says. X to the n equals -1, where n is the
# length of the polynomials: 256, but for a small example of the noise.


def plain_product(a, b):
    """The product as defined."""
    n = len(a)
    c = [0] * n
    for i in range(n):
        for j in range(n):
            if i + j < n:
                c[i + j] += a[i] * b[j]
            else:
                c[i + j - n] -= a[i] * b[j]
    return c


HALF = 1 << 63  # of a digit of 64 bits. Added at each place, it keeps digits from being negative


@functools.cache
def halves(n):
    """Half a digit at each of n places."""
    return sum(HALF << 64 * i for i in range(n))


def at_point(polynomial):
    """The polynomial's value at X = 2 to the 64."""
    n = len(polynomial)
    digits = struct.pack(f"<{n}Q", *[x + HALF for x in polynomial])
    return int.from_bytes(digits, "little") - halves(n)


def inner(u, v):
    """The inner product of two vectors by Kronecker substitution: products of big numbers, read off in digits."""
    n = len(u[0])
    whole = sum(at_point(a) * at_point(b) for a, b in zip(u, v)) + halves(2 * n)
    digits = struct.unpack(f"<{2 * n}Q", whole.to_bytes(8 * 2 * n, "little"))
    return [low - high for low, high in zip(digits[:n], digits[n:])]  # which takes the halves out again


def product(a, b):
    """The same product as the plain one."""
    return inner([a], [b])


def times(matrix, vector):
    return [inner(row, vector) for row in matrix]


def transposed(matrix):
    return [list(column) for column in zip(*matrix)]


def modulo(numbers, modulus):
    return [x % modulus for x in numbers]


def poly_mul(modulus, a, b):
    return modulo(product(a, b), modulus)


poly_mul_karatsuba = poly_mul  # A3: it "must agree with the plain one on every pair of polynomials"


def round(numbers):
    return [(x + 4) % Q // 8 for x in numbers]


def rounded(vector):
    return [round(numbers) for numbers in vector]


# Sampling


def gen_matrix(set, seed):
    """The numbers of 13 bits that fill the matrix row by row."""
    return unpack(13, shake128(seed, 32 * 13 * set.l * set.l))


def matrix_of(set, seed):
    entries = polynomials(gen_matrix(set, seed))
    return [entries[i : i + set.l] for i in range(0, len(entries), set.l)]


def sampled(string, mu):
    """Signed coefficients: the ones of one piece of mu/2 bits minus the ones of the piece that follows."""
    ones = [piece.bit_count() for piece in unpack(mu // 2, string)]
    return [first - second for first, second in zip(ones[0::2], ones[1::2])]


def gen_secret(set, seed):
    """The secret, as whole numbers in -mu/2 .. mu/2 (A4), one polynomial after the other."""
    return sampled(shake128(seed, 32 * set.l * set.mu), set.mu)


def secret_of(set, seed):
    """The same as a vector. Its residues are taken where it is packed, and after it is multiplied."""
    return polynomials(gen_secret(set, seed))


# Reconciliation, first for one coefficient


def masked(set, v, bit):
    """w: v', to which a message bit of 1 adds 512."""
    return (v + 512 * bit) % P


def data_of(set, w):
    return w // set.g


def bit_of(set, v, data):
    """The top one of the ten bits."""
    return (v - set.g * data + set.margin) % P // 512


def recon_data(set, w):
    return [data_of(set, x) for x in w]


def recover(set, v, data):
    return [bit_of(set, x, y) for x, y in zip(v, data)]


# The steps


def made(set, matrix_seed, secret_seed):
    """The stored matrix seed, the matrix and s."""
    stored = shake128(matrix_seed, 32)
    return stored, matrix_of(set, stored), secret_of(set, secret_seed)


def key_of(b, stored):
    """The public key."""
    return pack(10, flat(b)) + stored


def keygen(set, matrix_seed, secret_seed, z):
    """Key generation: the public key and the secret key."""
    stored, A, s = made(set, matrix_seed, secret_seed)
    public_key = key_of(rounded(times(transposed(A), s)), stored)
    plain_secret = pack(13, modulo(flat(s), Q))
    return public_key, plain_secret + public_key + sha3_256(public_key) + z


def public_key_of(set, secret_key):
    """The lookup: the public key inside the secret key."""
    return secret_key[set.plain_secret : -64]


def message_data(set, b, s1, message):
    """The reconciliation data of a message."""
    v1 = modulo(inner(b, s1), P)
    return recon_data(set, [masked(set, v, bit) for v, bit in zip(v1, unpack(1, message))])


def encrypt(set, public_key, message, seed):
    b, stored = polynomials(unpack(10, public_key[:-32])), public_key[-32:]
    s1 = secret_of(set, seed)
    b1 = rounded(times(matrix_of(set, stored), s1))
    return pack(10, flat(b1)) + pack(set.data_width, message_data(set, b, s1, message))


def opened(set, s, b1, data):
    """The message that decryption gives."""
    return pack(1, recover(set, modulo(inner(b1, s), P), data))


def decrypt(set, plain_secret, ciphertext):
    s = polynomials(unpack(13, plain_secret))
    b1 = polynomials(unpack(10, ciphertext[: 320 * set.l]))
    return opened(set, s, b1, unpack(set.data_width, ciphertext[320 * set.l :]))


def key_and_seed(m, key_hash):
    """k and r."""
    kr = sha3_512(m + key_hash)
    return kr[:32], kr[32:]


def encaps(set, public_key, seed):
    """Encapsulation ("sealing"): the ciphertext ("capsule") and the shared secret."""
    m = sha3_256(seed)
    k, r = key_and_seed(m, sha3_256(public_key))
    ciphertext = encrypt(set, public_key, m, r)
    return ciphertext, sha3_256(k + sha3_256(ciphertext))


def rejected(k, z, received, again):
    """The secret where the ciphertexts differ (A2): of z and the one received, and not of k or the one made again."""
    return sha3_256(z + sha3_256(received))


def decaps(set, secret_key, ciphertext):
    """Decapsulation ("unsealing"): the shared secret, or the rejected one where the ciphertexts differ."""
    plain_secret, rest = secret_key[: set.plain_secret], secret_key[set.plain_secret :]
    public_key, key_hash, z = rest[:-64], rest[-64:-32], rest[-32:]
    m = decrypt(set, plain_secret, ciphertext)
    k, r = key_and_seed(m, key_hash)
    again = encrypt(set, public_key, m, r)
    if again == ciphertext:
        return sha3_256(k + sha3_256(ciphertext))
    return rejected(k, z, ciphertext, again)


# Records (A1, wide doors A7): a byte with a bit map, then the fields whose bit stands, numbers little-endian


class Field(NamedTuple):
    name: str
    bit: int
    length: int | None  # in bytes; None: that of its set's ciphertexts
    needed: bool


SHORT, WIDE = Field("door", 0, 2, False), Field("door", 4, 4, False)  # a door has the one or the other (A7)
FIELDS = (  # in the order in which they stand
    SHORT,
    WIDE,
    Field("time", 1, 8, False),
    Field("set", 2, 1, True),
    Field("ciphertext", 3, None, True),
)


def fields_in(map):
    return [field for field in FIELDS if map >> field.bit & 1]


def is_wide(door):
    """Whether a door is written wide: one up to 65535 is still written short (A7)."""
    return door > 65535


def fields_for(door, time):
    """The fields of an entry; a door or time of None is missing."""
    missing = [name for name, number in (("door", door), ("time", time)) if number is None]
    other = SHORT if door is not None and is_wide(door) else WIDE
    return [field for field in FIELDS if field.name not in missing and field != other]


def map_of(fields):
    return sum(1 << field.bit for field in fields)


def is_map(map):
    """Whether each bit that stands is a field's, not both doors' (A7), and those of the needed fields stand."""
    fields = fields_in(map)
    both = SHORT in fields and WIDE in fields
    return map == map_of(fields) and not both and all(field in fields for field in FIELDS if field.needed)


def record_length(fields, set):
    return 1 + sum(set.ciphertext if field.length is None else field.length for field in fields)


def set_place(map):
    """Where the set byte stands."""
    fields = fields_in(map)
    return record_length(fields[: [field.name for field in fields].index("set")], None)


def write_record(door, time, set, ciphertext):
    """The record of an entry, with the set's own number, 1 to 3."""
    [number] = [number for number, row in SETS.items() if row == set]
    entry = dict(door=door, time=time, set=number, ciphertext=ciphertext)
    fields = fields_for(door, time)
    values = [(entry[field.name], field.length) for field in fields]
    strings = [value if length is None else value.to_bytes(length, "little") for value, length in values]
    return bytes([map_of(fields)]) + b"".join(strings)


def set_in(record):
    """The set that a record's set byte names; None where the map is invalid, or that byte is missing or names none."""
    if not record or not is_map(record[0]):
        return None
    place = set_place(record[0])
    return SETS.get(record[place]) if place < len(record) else None


def read_record(record):
    """Its entry: door and time, None where they are missing, the set's number and the ciphertext."""
    entry, at = {}, 1
    for field in fields_in(record[0]):
        end = at + (set_in(record).ciphertext if field.length is None else field.length)
        string, at = record[at:end], end
        entry[field.name] = string if field.length is None else int.from_bytes(string, "little")
    return [entry.get(name) for name in ("door", "time", "set", "ciphertext")]


def holds_narrow_door(record):
    """Whether a wide field holds 65535 or less (A7)."""
    door, *_ = read_record(record)
    return WIDE in fields_in(record[0]) and not is_wide(door)


# The noise


def error(exact):
    """The rounding error of a vector: 8 times the rounded minus the exact, modulo 8192 into -3 .. 4."""
    return [[(8 * r - x + 3) % Q - 3 for r, x in zip(round(xs), xs)] for xs in exact]


def noise_of(s, s1, e, e1):
    """N, over whole numbers, of both secrets and the errors of b and b'."""
    return [x - y for x, y in zip(inner(e1, s), inner(e, s1))]


def outcome(set, matrix_seed, secret_seed, seed):
    """Of keys of the first two seeds and encapsulation with the third: N, m, and what decryption gives, without z."""
    stored, A, s = made(set, matrix_seed, secret_seed)
    exact = times(transposed(A), s)
    b, m = rounded(exact), sha3_256(seed)
    _, r = key_and_seed(m, sha3_256(key_of(b, stored)))
    s1 = secret_of(set, r)
    exact1 = times(A, s1)
    N = noise_of(s, s1, error(exact), error(exact1))
    return N, m, opened(set, s, rounded(exact1), message_data(set, b, s1, m))


# The margin (A5), of groups of a matrix seed, a secret seed and a seed of encapsulation


GROUP, MOST_GROUPS = 96, 4096


def figures(set, group):
    """8 times M minus the norm of N, its largest magnitude; and how many bits of m decryption gives wrong."""
    N, m, message = outcome(set, group[:32], group[32:64], group[64:])
    wrong = sum(sent != read for sent, read in zip(unpack(1, m), unpack(1, message)))
    return 8 * set.margin - max(map(abs, N)), wrong


def margin_report(given, figures=figures):
    """What the program marginreport prints."""
    set = SETS.get(given[0]) if given else None
    if set is None:
        return b"refused 1\n"
    seeds = given[1:][: GROUP * MOST_GROUPS]  # it reads no further
    cases, rest = divmod(len(seeds), GROUP)
    found = [figures(set, seeds[GROUP * i : GROUP * (i + 1)]) for i in range(cases)]
    least = min((margin for margin, _ in found), default="none")
    wrong = sum(bits for _, bits in found)
    return f"set cases least wrong rest\n{given[0]} {cases} {least} {wrong} {rest}\n".encode()
