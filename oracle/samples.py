"""Material for the tests: values that a label alone decides, damaged strings, what outputs are lent with, secrets
counted bit by bit, rejected secrets and records put together by hand, and NIST's published vectors.
"""

import functools
import hashlib
import struct
from pathlib import Path

NIST = Path(__file__).resolve().parent.parent / "vectors" / "nist"
# The files of each hash
NIST_FILES = {
    "shake128": ("SHAKE128ShortMsg.rsp", "SHAKE128VariableOut.rsp", "SHAKE128Msg1600.rsp"),
    "sha3_256": ("SHA3_256ShortMsg.rsp", "SHA3_256Msg1600.rsp"),
    "sha3_512": ("SHA3_512ShortMsg.rsp", "SHA3_512Msg1600.rsp"),
}


def draw(label, length):
    """Bytes that the label decides."""
    return hashlib.shake_128(label.encode()).digest(length)


def draw_list(label, limit, length=256):
    """Coefficients below `limit`, a power of two, that the label decides."""
    return [x % limit for x in struct.unpack(f"<{length}H", draw(label, 2 * length))]


def monomial(place, coefficient=1):
    return [coefficient if i == place else 0 for i in range(256)]


def spread(coefficients):
    """A polynomial of 16 coefficients in Y, with X to the 16 for Y. Products are spread alike: Y to the 16 is -1."""
    return [coefficients[i // 16] if i % 16 == 0 else 0 for i in range(256)]


def with_bit_turned(string, bit):
    return (int.from_bytes(string, "little") ^ 1 << bit).to_bytes(len(string), "little")


def flipped(string, place):
    """The string with one bit damaged, in the byte at that place."""
    place %= len(string)
    return with_bit_turned(string, 8 * place + place % 8)


@functools.cache
def lent_bytes(length):
    """What an output holds when it is lent: never 0, and different from place to place."""
    return bytes(0xA0 + i % 16 for i in range(length))


def lent_list(length=256):
    return [0xA000 + i for i in range(length)]


def lent_signed(length):
    """Never in -6 .. 5, so no coefficient of a secret: -128, 127, -127, 126 and so on, and after 244 of them again."""
    return [-128 + i % 244 // 2 if i % 2 == 0 else 127 - i % 244 // 2 for i in range(length)]


def bits(string):
    """The bits of a string in order, by the definition of a byte."""
    return [string[i // 8] >> i % 8 & 1 for i in range(8 * len(string))]


def counted_secret(seed, l, mu):
    """The signed coefficients of a secret, counted in the stream of bits and not by the oracle's sampler."""
    stream, half = bits(hashlib.shake_128(seed).digest(32 * l * mu)), mu // 2
    return [sum(stream[i : i + half]) - sum(stream[i + half : i + mu]) for i in range(0, len(stream), mu)]


def rejected_secret(z, ciphertext):
    """What a ciphertext gives that decapsulation rejects (A2)."""
    return hashlib.sha3_256(z + hashlib.sha3_256(ciphertext).digest()).digest()


def laid_record(door, time, number, ciphertext, wide=None):
    """A record with its fields one behind the other, laid by hand and not by the oracle's table of them.

    A door is short up to 65535 and wide above (A7). `wide` fills a wide field as no sound record has it: with a number
    up to 65535, or beside a short door.
    """
    if door is not None and door > 65535:
        door, wide = None, door
    bit_map = 12 + (door is not None) + 2 * (time is not None) + 16 * (wide is not None)
    fields = (("<H", door), ("<I", wide), ("<Q", time))
    strings = [struct.pack(form, value) for form, value in fields if value is not None]
    return bytes([bit_map]) + b"".join(strings) + bytes([number]) + ciphertext


def vectors(file):
    """The (message, result) pairs of one of NIST's response files; its lengths are in bits."""
    pairs, fields = [], {}
    for line in (NIST / file).read_text().splitlines():
        name, equals, value = line.strip(" []").partition(" = ")
        if not equals:
            continue
        fields[name] = value
        if name in ("MD", "Output"):
            message, result = bytes.fromhex(fields["Msg"]), bytes.fromhex(value)
            message = message[: int(fields["Len"]) // 8] if "Len" in fields else message
            assert "Outputlen" not in fields or len(result) == int(fields["Outputlen"]) // 8
            pairs.append((message, result))
    return pairs
