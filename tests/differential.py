"""The library through its C interface against the oracle, on random calls.

    python3 tests/differential.py [--seed N] [--count N] [--archive FILE]

Every call takes its turn, with arguments that are sound, damaged, of any content, of odd lengths or all of
these at once. Guard bytes stand around every buffer and every number lent. The first difference ends the run
with 1 and a line for `sabercall`. So does a planted difference, or a write where no call may write, that is not
found. The seed that is printed repeats a run.
"""

import itertools
import random
import sys
import tempfile
from collections import Counter

from drawing import any_content, options, sound_arguments

import notation
import saber
from calls import CALLS, ELEMENTS
from library import Breach, Library, forbidden, straying
from planted import Difference, must_find, turned
from samples import laid_record

EDGES = (0, 1, 2, 3, 4, 5, 7, 12, 14, 16, 32, 255, 256, 1000, 1023, 1025, 8191, 8193, 65536, 1 << 31, (1 << 32) - 1)
WAYS = ("sound", "damaged", "any content", "odd lengths", "odd number", "mixed")


# Arguments


def keys_of(draw, set):
    """Keys of a set by their names, with a ciphertext encapsulated to them."""
    public_key, secret_key = saber.keygen(set, *(draw.randbytes(32) for _ in range(3)))
    ciphertext, _ = saber.encaps(set, public_key, draw.randbytes(32))
    plain_secret = secret_key[: set.plain_secret]
    return dict(public_key=public_key, secret_key=secret_key, plain_secret=plain_secret, ciphertext=ciphertext)


def damaged(draw, value):
    """A value with one bit changed, often near its start."""
    if not value:
        return value
    place, changed = draw.randrange(draw.choice((len(value), min(len(value), 14)))), list(value)
    changed[place] ^= 1 << draw.randrange(8 if isinstance(value, bytes) else 16)
    return type(value)(changed)


def odd_length(draw, kind, value):
    """The value made shorter or longer, often by one."""
    right = len(value)
    length = draw.choice((0, 1, max(right - 1, 0), right + 1, 2 * right, draw.randrange(right + 65)))
    return value[:length] + any_content(draw, kind, max(length - right, 0))


def odd_number(draw):
    return draw.choice(EDGES) if draw.random() < 0.8 else draw.getrandbits(32)


def spoilt(draw, way, call, arguments):
    """The arguments changed in the given way. Outputs are lent with any content, so that a refusal shows."""
    input_count, kinds = len(call.inputs), [parameter.role.kind for parameter in call.parameters]
    changed = list(arguments)
    for i in range(input_count, len(kinds)):
        changed[i] = any_content(draw, kinds[i], len(changed[i]))
    numbers = [i for i, kind in enumerate(kinds) if kind == "number"]
    slices = [i for i, kind in enumerate(kinds) if kind in ELEMENTS]
    inputs = [i for i in slices if i < input_count]
    mixed = way == "mixed"
    if way == "damaged" or mixed and draw.random() < 0.5:
        i = draw.choice(inputs)
        changed[i] = damaged(draw, changed[i])
    if way == "any content" or mixed and draw.random() < 0.2:
        i = draw.choice(inputs)
        changed[i] = any_content(draw, kinds[i], len(changed[i]))
    if way == "odd lengths" or mixed and draw.random() < 0.5:
        for i in draw.sample(slices, draw.choice((1, 1, len(slices)))):
            changed[i] = odd_length(draw, kinds[i], changed[i])
    if way == "odd number" or mixed and draw.random() < 0.2:
        for i in numbers:
            changed[i] = odd_number(draw)
    return changed


# The run


def compared(run, draw, call, arguments):
    """What the oracle answers and gives, if `run` does so too."""
    expected = call.run(*arguments)
    try:
        found = run(draw, call, arguments)
    except Breach as breach:
        found = str(breach)
    if found != expected:
        request = notation.write_request(call.name, *arguments).decode()
        right = notation.write_answer(call.name, *expected).decode()
        wrong = found if isinstance(found, str) else notation.write_answer(call.name, *found).decode()
        raise Difference(f"Request:\n{request}\nexpected: {right}\nfound: {wrong}")
    return expected


def with_one_turned(place, answer, values):
    """What a call gave, with a bit of one result turned; at place 0 is the answer."""
    results = [answer, *values]
    results[place] = turned(results[place])
    return results[0], results[1:]


def find_differences(draw, library, cases):
    """Plants a difference in each result of each call. Gives how many were found."""
    count = 0
    for call, arguments in cases:
        for place in range(1 + len(call.results)):

            def planted(*given):
                return with_one_turned(place, *library.run(*given))

            must_find(f"differential, {call.name}, result {place}", compared, planted, draw, call, arguments)
            count += 1
    return count


def find_strays(draw, library, cases):
    """Lets each call write where it may not, accepted and refused. Gives how many of these writes were found."""
    count, blank = 0, bytes(saber.SETS[1].ciphertext)
    accepted = [(call, arguments) for call, arguments in cases if call.outputs]
    refused = [(call, [*arguments[:-1], 2 * arguments[-1]]) for call, arguments in accepted]
    # Records without and with the numbers that may be missing
    records = [(CALLS["read_record"], [laid_record(number, number, 1, blank), blank]) for number in (None, 1)]
    for call, arguments in accepted + refused + records:
        [export] = call.exports
        for pointer, offset, bit in forbidden(call, arguments):
            stray = library.replaced(export, straying(library.functions[export], pointer, offset, bit))
            title = f"differential, {call.name}, a write at {offset} of pointer {pointer}"
            must_find(title, compared, stray.run, draw, call, arguments)
            count += 1
    return count


def find_empty_part(draw, library):
    """Lets the lookup answer with an empty part that does not start at 0."""
    lookup = CALLS["public_key_of"]
    elsewhere = library.replaced(lookup.exports[0], lambda *asked: 1)
    must_find("differential, an empty part at 1", compared, elsewhere.run, draw, lookup, [0, b""])


def table(calls, sets, answers):
    """How often each call was made, with which set and with which answer; the lookup answers with no number."""
    numbers = [0, *sorted({question for call in CALLS.values() for question in call.questions})]
    columns = ["calls", *(f"set {n}" for n in saber.NUMBERS), *(f"-> {n}" for n in numbers)]
    width = 1 + max(map(len, CALLS))
    lines = [f"{'call':{width}}" + "".join(f"{column:>7}" for column in columns)]
    for name in CALLS:
        row = [calls[name], *(sets[name, n] for n in saber.NUMBERS), *(answers[name, n] for n in numbers)]
        lines.append(f"{name:{width}}" + "".join(f"{count or '':>7}" for count in row))
    return "\n".join(lines)


def main():
    given = options("differential", 10000, "calls", archive="target/staticlib/libsaber.a")
    draw = random.Random(given.seed)
    keys = {set: [keys_of(draw, set) for _ in range(8)] for set in saber.SETS.values()}

    def made(set):
        return draw.choice(keys[set])

    calls, sets, answers, ways = Counter(), Counter(), Counter(), Counter()
    with tempfile.TemporaryDirectory() as folder:
        library = Library(given.archive, folder)
        for i, (name, call) in zip(range(given.count), itertools.cycle(CALLS.items())):
            numbered = any(parameter.role.kind == "number" for parameter in call.inputs)
            way = draw.choice([way for way in WAYS if way != "odd number" or numbered])
            arguments = spoilt(draw, way, call, sound_arguments(draw, call, made=made))
            try:
                expected = compared(library.run, draw, call, arguments)
            except Difference as difference:
                print(f"difference at call {i}, {way}. {difference}")
                return 1
            calls[name] += 1
            ways[way] += 1
            answers[name, expected[0]] += 1
            known = zip(call.inputs + call.handed, arguments[: len(call.inputs)] + expected[1])
            sets.update((name, number) for parameter, number in known if parameter.name == "set")
        cases = [(call, sound_arguments(draw, call, made=made)) for call in CALLS.values()]
        differences, strays = find_differences(draw, library, cases), find_strays(draw, library, cases)
        find_empty_part(draw, library)
    print(table(calls, sets, answers))
    print("arguments: " + ", ".join(f"{way} {ways[way]}" for way in WAYS))
    print(f"{given.count} calls, no difference; {differences} planted differences and {strays} stray writes were found")
    return 0


if __name__ == "__main__":
    sys.exit(main())
