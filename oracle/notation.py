"""The line notation of the program sabercall: a call on each line, an answer on each line.

A line is a call's name and its arguments, one space between words: numbers in decimal, bytes as hex
pairs, lists as four hex digits a coefficient, signed lists in decimal with commas between, as `0,-4,4`;
`-` for an empty string or list and for a number that is missing. An output argument is the content of
the buffer that is lent. The answer is the call's number, the numbers that it hands back, then every
output as it is after the call. Lines that begin with `#` are comments. A line ends in a newline or in a
carriage return and a newline; the last one may lack it.

    python3 oracle/notation.py < requests > answers
"""

import re
import struct
import sys

from calls import CALLS, ELEMENTS

LONGEST = 65536
NUMBER = re.compile(rb"[0-9]+")
SIGNED = re.compile(rb"-?[0-9]+(,-?[0-9]+)*")  # all but the empty list
HEXADECIMAL = b"0123456789abcdefABCDEF"


class Unreadable(Exception):
    """A line that is no call; its text is the reason."""


def one_of(numbers, piece):
    """The number that a piece spells in decimal, with `-` before it or not; it has to be one of these."""
    digits = piece.lstrip(b"-0") or b"0"
    if len(digits) <= 20:
        number = -int(digits) if piece.startswith(b"-") else int(digits)
        if number in numbers:
            return number
    raise Unreadable("too large")


def read_number(word, bits):
    if not NUMBER.fullmatch(word):
        raise Unreadable("bad digit")
    return one_of(range(1 << bits), word)


def read_signed(word):
    """The numbers of a signed list. That each piece is a number is asked before how large it is."""
    if word == b"-":
        return []
    if not SIGNED.fullmatch(word):
        raise Unreadable("bad digit")
    return [one_of(ELEMENTS["signed"], piece) for piece in word.split(b",")]


def read_hex(word, unit):
    """The bytes of a word whose digits come in groups of `unit`."""
    if not word:
        raise Unreadable("bad digit")
    if word == b"-":
        return b""
    if len(word) % unit:
        raise Unreadable("odd count")
    if any(byte not in HEXADECIMAL for byte in word):
        raise Unreadable("bad digit")
    return bytes.fromhex(word.decode())


def read_word(word, role):
    if role.kind == "optional" and word == b"-":
        return None
    if role.kind in ("number", "optional"):
        return read_number(word, role.bits)
    if role.kind == "signed":
        return read_signed(word)
    if role.kind == "bytes":
        return read_hex(word, 2)
    string = read_hex(word, 4)
    return list(struct.unpack(f">{len(string) // 2}H", string))


def write_word(value, role):
    if value is None:
        return b"-"
    if role.kind in ("number", "optional"):
        return b"%d" % value
    if role.kind == "signed":
        return b",".join(b"%d" % x for x in value) or b"-"
    string = value if role.kind == "bytes" else struct.pack(f">{len(value)}H", *value)
    return string.hex().encode() or b"-"


def write_answer(name, number, values):
    """The values are those handed back, then the outputs. An answer of None is left out."""
    words = [write_word(value, role) for value, role in zip(values, CALLS[name].results, strict=True)]
    return b" ".join(words if number is None else [b"%d" % number, *words])


def write_request(name, *arguments):
    pairs = zip(arguments, CALLS[name].parameters, strict=True)
    return b" ".join([name.encode(), *(write_word(value, parameter.role) for value, parameter in pairs)])


def read_request(line):
    """The call that a line names and its arguments."""
    if len(line) > LONGEST:
        raise Unreadable("too long")
    name, *words = line.split(b" ")
    call = next((call for call in CALLS.values() if call.name.encode() == name), None)
    if not call:
        raise Unreadable("unknown call")
    arguments = []
    for i, parameter in enumerate(call.parameters):
        if i == len(words):
            raise Unreadable("wrong count")
        arguments.append(read_word(words[i], parameter.role))
    if len(words) > len(arguments):
        raise Unreadable("wrong count")
    return call, arguments


def answer_line(line):
    """The answer to one line, both without newline."""
    try:
        call, arguments = read_request(line)
    except Unreadable as reason:
        return f"error {reason}".encode()
    return write_answer(call.name, *call.run(*arguments))


def lines_of(requests):
    """The lines, without their ends; after a final newline there is no further line."""
    *ended, last = requests.split(b"\n")
    return [line.removesuffix(b"\r") for line in ended] + ([last] if last else [])


def answer_lines(requests):
    """What the program writes for these requests."""
    asked = [line for line in lines_of(requests) if not line.startswith(b"#")]
    return b"".join(answer_line(line) + b"\n" for line in asked)


if __name__ == "__main__":
    sys.stdout.buffer.write(answer_lines(sys.stdin.buffer.read()))
