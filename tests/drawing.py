"""What the random tests share: their options, and arguments that no question refuses."""

import argparse
import random
import sys
from pathlib import Path

ROOT = Path(__file__).resolve().parent.parent
sys.path.insert(0, str(ROOT / "oracle"))

from calls import CALLS, ELEMENTS

RATES = (168, 136, 72)


def options(title, count, unit, **files):
    """The options of a test: a seed, which is printed and repeats a run, a count, and files by their names."""
    parser = argparse.ArgumentParser()
    parser.add_argument("--seed", type=int, default=random.SystemRandom().getrandbits(32))
    parser.add_argument("--count", type=int, default=count)
    for name, place in files.items():
        parser.add_argument(f"--{name}", type=Path, default=ROOT / place)
    given = parser.parse_args()
    print(f"{title}: seed {given.seed}, {given.count} {unit}", flush=True)
    return given


def any_length(draw):
    """A length for a hash: often a byte under, at or over a whole number of blocks."""
    if draw.random() < 0.5:
        return draw.randrange(1000)
    return draw.choice(RATES) * draw.randrange(1, 5) + draw.randrange(-1, 2)


def any_number(draw, bits):
    """A number of `bits` bits, which are more than 16; often at an edge, or on either side of the last short door."""
    edges = (0, 1, 255, 256, 65535, 65536, 1 << draw.randrange(bits), (1 << bits) - 1)
    return draw.choice((*edges, draw.getrandbits(16), draw.getrandbits(bits)))


def any_content(draw, kind, length, elements=None):
    """A string or list of `length` elements, drawn from those that are given or else from all that its kind has."""
    return draw.randbytes(length) if kind == "bytes" else draw.choices(elements or ELEMENTS[kind], k=length)


def sound_record(draw, sets, made):
    """The record of an entry."""
    call = CALLS["write_record"]
    _, [record] = call.run(*sound_arguments(draw, call, sets, made))
    return record


def sound_arguments(draw, call, sets=None, made=lambda set: {}):
    """Arguments of a call that no question refuses.

    Its set number is one of `sets`, where these are given. `made` gives values by name for a set, and all others are
    drawn.
    """
    arguments, values = [], {}
    for place, parameter in enumerate(call.parameters):
        role, given = parameter.role, call.given(arguments)
        if role.kind == "number":
            value = draw.choice(sets if sets and parameter.name == "set" else [*role.meanings])
        elif role.kind == "optional":
            value = draw.choice((None, any_number(draw, role.bits)))
        elif parameter.name in values:
            value = values[parameter.name]
        elif parameter.name == "record" and place < len(call.inputs):
            value = sound_record(draw, sets, made)
        else:
            length = role.size(given)
            length = any_length(draw) if length is None else length
            value = any_content(draw, role.kind, length, role.elements(given))
        arguments.append(value)
        if parameter.name == "set":
            values = made(call.given(arguments).set)
    return arguments
