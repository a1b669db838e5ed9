"""The library through its C interface, for the random tests: calls with guard bytes around all that is lent.

For a test of these guards, a call can be made to write where it may not.
"""

import copy
import ctypes
import struct

from calls import CALLS
from linked import shared

CODES = {8: "B", 32: "I", 64: "Q"}  # of numbers in memory, by their bits
TYPES = {8: ctypes.c_uint8, 32: ctypes.c_uint32, 64: ctypes.c_uint64}
ELEMENTS = {"bytes": "B", "list": "H", "signed": "b"}  # codes too, by the kinds of slices


class Breach(Exception):
    """A call did what no answer excuses; its text is what."""


class Buffer:
    """Numbers in memory with guard bytes on both sides, at any address that suits them."""

    GUARD = bytes(range(64, 128))

    def __init__(self, draw, code, numbers):
        self.count, self.form = len(numbers), f"={len(numbers)}{code}"
        self.before = self.GUARD + bytes(struct.calcsize(f"={code}") * draw.randrange(16))
        self.original = self.before + struct.pack(self.form, *numbers) + self.GUARD
        self.memory = ctypes.create_string_buffer(self.original, len(self.original))

    def pointer(self):
        return ctypes.c_void_p(ctypes.addressof(self.memory) + len(self.before))

    def slice(self):
        return self.pointer(), ctypes.c_size_t(self.count)

    def check_unchanged(self):
        if self.memory.raw != self.original:
            raise Breach("changed an input, a number that it did not hand back, or guard bytes")

    def content(self):
        """The numbers after the call."""
        raw, end = self.memory.raw, len(self.original) - len(self.GUARD)
        if raw[: len(self.before)] != self.before or raw[end:] != self.GUARD:
            raise Breach("changed guard bytes of an output")
        return struct.unpack(self.form, raw[len(self.before) : end])


class Lent:
    """A number of any content, lent for one that is handed back; where that may be missing, a flag before it."""

    def __init__(self, draw, role):
        bits = [8, role.bits] if role.kind == "optional" else [role.bits]
        self.buffers = [Buffer(draw, CODES[n], [draw.getrandbits(n)]) for n in bits]

    def pointers(self):
        return [buffer.pointer() for buffer in self.buffers]

    def handed(self, answer):
        """The number; None where it is missing, which leaves it as it was, and on a refusal, which leaves all so."""
        *flags, number = self.buffers
        if answer != 0:
            for buffer in self.buffers:
                buffer.check_unchanged()
            return None
        for flag in flags:
            [there] = flag.content()
            if there > 1:
                raise Breach(f"handed back a flag of {there}")
            if there == 0:
                number.check_unchanged()
                return None
        [value] = number.content()
        return value


def passed_number(draw, role, value):
    """A number as C passes it. One that may be missing has a flag before it, and is anything where it is."""
    number = TYPES[role.bits]
    if role.kind == "number":
        return [number(value)]
    if value is None:
        return [ctypes.c_uint8(0), number(draw.getrandbits(role.bits))]
    return [ctypes.c_uint8(draw.randrange(1, 256)), number(value)]


class Library:
    def __init__(self, archive, folder):
        library, self.functions = ctypes.CDLL(str(shared(folder, archive))), {}
        for call in CALLS.values():
            for export in call.exports:
                self.functions[export] = library[export]  # each look into the library makes a function anew
                self.functions[export].restype = ctypes.c_uint8 if call.outputs else ctypes.c_size_t

    def replaced(self, export, function):
        """The library with another function in place of an exported one."""
        other = copy.copy(self)
        other.functions = self.functions | {export: function}
        return other

    def run(self, draw, call, arguments):
        """The answer, and what is handed back with the outputs after the call."""
        if not call.outputs:
            return self.look_up(call, *arguments)
        passed, buffers = [], []

        def lend(parameters, values):
            for parameter, value in zip(parameters, values):
                if parameter.role.kind in ELEMENTS:
                    buffers.append(Buffer(draw, ELEMENTS[parameter.role.kind], value))
                    passed.extend(buffers[-1].slice())
                else:
                    passed.extend(passed_number(draw, parameter.role, value))

        lend(call.inputs, arguments)
        numbers = [Lent(draw, parameter.role) for parameter in call.handed]
        passed.extend(pointer for number in numbers for pointer in number.pointers())
        lend(call.outputs, arguments[len(call.inputs) :])
        answer = self.functions[call.exports[0]](*passed)

        lent = len(call.outputs)
        for buffer in buffers[:-lent]:
            buffer.check_unchanged()
        outputs = zip(arguments[-lent:], buffers[-lent:])
        written = [type(value)(buffer.content()) for value, buffer in outputs]
        return answer, [number.handed(answer) for number in numbers] + written

    def look_up(self, call, set_number, secret_key):
        asked = ctypes.c_uint32(set_number), ctypes.c_size_t(len(secret_key))
        offset, length = (self.functions[export](*asked) for export in call.exports)
        if length == 0 and offset != 0:
            raise Breach("an empty part that does not start at 0")
        return None, [secret_key[offset : offset + length]]


# Writes that no call may make


def forbidden(call, arguments):
    """Bits that a call may not change, in and beside what it is lent: a pointer's place, an offset in bytes, a bit."""
    answer, values = call.run(*arguments)
    lent = []  # for each pointer how many bytes it is to, and a bit of them that may not change; 0 if all may

    def add_slices(parameters, values, bit):
        slices = [(p.role.kind, value) for p, value in zip(parameters, values) if p.role.kind in ELEMENTS]
        lent.extend((len(value) * struct.calcsize(f"={ELEMENTS[kind]}"), bit) for kind, value in slices)

    add_slices(call.inputs, arguments, 1)
    for parameter, value in zip(call.handed, values):
        if parameter.role.kind == "optional":
            lent.append((1, 2 if answer == 0 else 1))  # a flag is 0 or 1
        lent.append((parameter.role.bits // 8, 1 if value is None else 0))
    add_slices(call.outputs, arguments[len(call.inputs) :], 0)
    for pointer, (size, bit) in enumerate(lent):
        for offset in (-1, size):
            yield pointer, offset, 1
        if bit and size:
            for offset in {0, size - 1}:
                yield pointer, offset, bit


def straying(function, pointer, offset, bit):
    """The function, which also turns a bit at an offset from one of the pointers that it is passed."""

    def stray(*passed):
        answer = function(*passed)
        pointers = [value.value for value in passed if isinstance(value, ctypes.c_void_p)]
        ctypes.c_uint8.from_address(pointers[pointer] + offset).value ^= bit
        return answer

    return stray
