"""The calls of documents 01 and 02, a form each: what a call takes, hands back and writes, and what it asks.

What is known of a call elsewhere (its answer, its line in sabercall's notation, its exported function, arguments that
are sound or refused) follows from its form and from the roles of its parameters. What it writes is computed by the
function of its name in saber.py.
"""

from types import SimpleNamespace
from typing import Callable, NamedTuple

import saber

# What each element of a slice may be, by the slice's kind
ELEMENTS = {"bytes": range(1 << 8), "list": range(1 << 16), "signed": range(-128, 128)}


# Roles. A length or bound is a number, or a function of the call's inputs by their names: see `Call.given`.


class Number(NamedTuple):
    """The question about a number, and what each one means for which it is answered yes."""

    question: int
    meanings: dict
    kind = "number"
    bits = 32


class Optional(NamedTuple):
    """A number that may be missing, which is None. No question is asked about it."""

    bits: int
    question = None
    kind = "optional"


class Slice(NamedTuple):
    """Bytes, or a list of coefficients or of signed numbers. The question is about its length where it is an input."""

    kind: str  # one of ELEMENTS
    length: int | Callable | None = None  # None: any length
    question: int | None = None
    bound: int | Callable | None = None  # what coefficients lie below

    def size(self, given):
        return self.length(given) if callable(self.length) else self.length

    def limit(self, given):
        return self.bound(given) if callable(self.bound) else self.bound

    def elements(self, given):
        """What each element may be in a call that no question refuses."""
        limit = self.limit(given)
        return ELEMENTS[self.kind] if limit is None else range(limit)


def polynomial(bound):
    return Slice("list", saber.N, 7, bound)


ROLES = {
    "set": Number(1, saber.NUMBERS),
    "width": Number(2, {width: width for width in saber.WIDTHS}),
    "modulus": Number(2, {modulus: modulus for modulus in saber.MODULI}),
    "door": Optional(32),
    "time": Optional(64),
    "any": Slice("bytes"),
    "seed": Slice("bytes", 32, 3),
    "message": Slice("bytes", 32, 3),
    "shared_secret": Slice("bytes", 32),
    "digest_256": Slice("bytes", 32),
    "digest_512": Slice("bytes", 64),
    "public_key": Slice("bytes", lambda given: given.set.public_key, 4),
    "secret_key": Slice("bytes", lambda given: given.set.secret_key, 5),
    "plain_secret": Slice("bytes", lambda given: given.set.plain_secret, 5),
    "ciphertext": Slice("bytes", lambda given: given.set.ciphertext, 6),
    "record": Slice("bytes", lambda given: saber.record_length(saber.fields_for(given.door, given.time), given.set)),
    "packed": Slice("bytes", lambda given: 32 * given.width, 7),
    "below_width": polynomial(lambda given: 1 << given.width),
    "below_modulus": polynomial(lambda given: given.modulus),
    "below_q": polynomial(saber.Q),
    "below_p": polynomial(saber.P),
    "data": polynomial(lambda given: saber.P // given.set.g),
    "bits": polynomial(2),
    "matrix": Slice("list", lambda given: saber.N * given.set.l * given.set.l, bound=saber.Q),
    "secret": Slice("signed", lambda given: saber.N * given.set.l),
}


# Calls


class Parameter(NamedTuple):
    name: str
    role: Number | Optional | Slice
    question: int | None  # about its value or length


class Call(NamedTuple):
    name: str
    inputs: list[Parameter]
    handed: list[Parameter]  # numbers that it hands back, other than its answer
    outputs: list[Parameter]  # a lookup has none: it hands back a part of an input, and no number
    questions: tuple[int]

    @property
    def parameters(self):
        return self.inputs + self.outputs

    @property
    def results(self):
        """The roles of what `run` gives behind the answer; a lookup gives bytes, a part of an input."""
        return [p.role for p in self.handed + self.outputs] or [ROLES["any"]]

    @property
    def exports(self):
        """The names of its exported functions: a lookup has two, since no part of a slice can be handed back there."""
        if self.outputs:
            return [f"saber_{self.name}"]
        part = self.name.removesuffix("_of")
        return [f"saber_{part}_offset", f"saber_{part}_length"]

    def given(self, arguments):
        """The inputs by their names, a number as what it means, and the set that a record names. None means nothing."""
        found = SimpleNamespace()
        for parameter, value in zip(self.inputs, arguments):
            if parameter.role.kind == "number":
                value = parameter.role.meanings.get(value)
            if parameter.name == "record":
                found.set = saber.set_in(value)
            setattr(found, parameter.name, value)
        return found

    def limits(self, arguments):
        """By the place of each input list, what its coefficients have to lie below."""
        lists = [(place, p.role) for place, p in enumerate(self.inputs) if p.role.kind == "list"]
        return {place: role.limit(self.given(arguments)) for place, role in lists}

    def yes(self, question, arguments, again=False):
        """Whether a question is answered yes, where the earlier ones were; `again` where it is asked a second time."""
        given = self.given(arguments)
        if question == 1:
            return given.set is not None
        if question == 2:
            return all(getattr(given, p.name) is not None for p in self.inputs if p.question == 2)
        if question == 8:
            return all(x < limit for place, limit in self.limits(arguments).items() for x in arguments[place])
        if question == 10:
            return len(given.record) > 0 and saber.is_map(given.record[0])
        if question == 11 and not again:
            return len(given.record) > saber.set_place(given.record[0])
        if question == 11:
            return len(given.record) == saber.record_length(saber.fields_in(given.record[0]), given.set)
        if question == 12:
            return not saber.holds_narrow_door(given.record)
        pairs = zip(self.parameters, arguments)
        return all(len(value) == p.role.size(given) for p, value in pairs if p.question == question)

    def run(self, *arguments):
        """The answer, and the numbers handed back with the outputs as they are afterwards; of a lookup just the part.

        The arguments are the inputs and then the outputs as they are lent. On a refusal None is handed back.
        """
        assert len(arguments) == len(self.parameters), f"{self.name} takes {len(self.parameters)} arguments"
        lent = arguments[len(self.inputs) :]
        for i, question in enumerate(self.questions):
            if not self.yes(question, arguments, question in self.questions[:i]):
                return (question, [None] * len(self.handed) + [*lent]) if self.outputs else (None, [b""])
        given = self.given(arguments)
        values = [getattr(given, p.name) for p in self.inputs]
        lengths = [len(x) for p, x in zip(self.outputs, lent) if p.role.length is None]
        results = getattr(saber, self.name)(*values, *lengths)
        return (0 if self.outputs else None), [*results] if len(self.handed + self.outputs) > 1 else [results]


def call(name, inputs, outputs, *questions, handed=""):
    """A form. A parameter is written as its name, which is its role's too, or as `name: role`."""

    def parameters(text, question):
        words = [word.split(": ") for word in text.split(", ") if word]
        return [Parameter(word[0], ROLES[word[-1]], question(ROLES[word[-1]])) for word in words]

    def lent(role):
        return None if role.length is None else 9

    asked, numbers = parameters(inputs, lambda role: role.question), parameters(handed, lambda role: None)
    return Call(name, asked, numbers, parameters(outputs, lent), questions)


TABLE = [
    call("keygen", "set, matrix_seed: seed, secret_seed: seed, z: seed", "public_key, secret_key", 1, 3, 9),
    call("encaps", "set, public_key, seed", "ciphertext, shared_secret", 1, 3, 4, 9),
    call("decaps", "set, secret_key, ciphertext", "shared_secret", 1, 5, 6, 9),
    call("encrypt", "set, public_key, message, seed", "ciphertext", 1, 3, 4, 9),
    call("decrypt", "set, plain_secret, ciphertext", "message", 1, 5, 6, 9),
    call("gen_matrix", "set, seed", "matrix", 1, 3, 9),
    call("gen_secret", "set, seed", "secret", 1, 3, 9),
    call("poly_mul", "modulus, a: below_modulus, b: below_modulus", "product: below_modulus", 2, 7, 8, 9),
    call("poly_mul_karatsuba", "modulus, a: below_modulus, b: below_modulus", "product: below_modulus", 2, 7, 8, 9),
    call("round", "x: below_q", "rounded: below_p", 7, 8, 9),
    call("recon_data", "set, w: below_p", "data", 1, 7, 8, 9),
    call("recover", "set, v: below_p, data", "bits", 1, 7, 8, 9),
    call("pack", "width, coefficients: below_width", "bytes: packed", 2, 7, 8, 9),
    call("unpack", "width, bytes: packed", "coefficients: below_width", 2, 7, 9),
    call("shake128", "input: any", "output: any"),
    call("sha3_256", "input: any", "digest: digest_256", 9),
    call("sha3_512", "input: any", "digest: digest_512", 9),
    call("public_key_of", "set, secret_key", "", 1, 5),
    call("write_record", "door, time, set, ciphertext", "record", 1, 6, 9),
    call("read_record", "record", "ciphertext", 10, 11, 1, 11, 12, 9, handed="door, time, set"),
]
CALLS = {call.name: call for call in TABLE}


def run(name, *arguments):
    return CALLS[name].run(*arguments)
