"""The C header and the Rust package against the exported functions and the oracle, by their texts alone.

    python3 tests/interface.py

Constants are held to the oracle's sets, functions and their parameters to crates/saber/src/lib.rt, and those to the
oracle's calls. Nothing may be missing, and nothing else may be there. So it is with the refusals that the header names
and the lists of calls in tests/all_calls.h, tests/secrets.c and tests/unread.c. The package's words of a refusal are
held to the header's, and the numbers in the prose of both to the oracle (prose.py). About the stack, which the oracle
does not know, header and package say the same, in whole pages. Then each text is changed in one number, sign, type or
`const`, in the order of two parameters or by a declaration, and every change has to be found. It exits with 1 on a
difference.

What is compared are dictionaries. A function has an entry for its result and one for each parameter as C passes it, in
Rust's words: a slice is a pointer, as `*const u8`, `*mut u16` or `*mut i8`, and a count. A number that may be missing
is a flag and the number, and a number that is handed back is lent.
"""

import functools
import re
import sys
from pathlib import Path

ROOT = Path(__file__).resolve().parent.parent
sys.path.append(str(ROOT / "oracle"))

import saber
from calls import CALLS
from prose import HEADER, PACKAGE, Unreadable, changed_numbers, lengths, only, prose_differences, refusals

LIBRARY = "crates/saber/src/lib.rt"
ALL_CALLS, SECRETS, UNREAD = "tests/all_calls.h", "tests/secrets.c", "tests/unread.c"
NAMES = {number: name.upper() for number, name in saber.NAMES.items()}
SIZES = ("public_key", "secret_key", "plain_secret", "ciphertext")  # of a set, in bytes
ELEMENTS = {"bytes": "[u8]", "list": "[u16]", "signed": "[i8]"}


def code(text):
    """A text without its comments and strings, all but "C"."""
    return re.sub(r'"[^"]*"', lambda string: string[0] if string[0] == '"C"' else '""', re.sub(r"//.*", "", text))


def items(text):
    """What stands between commas."""
    return [" ".join(item.split()) for item in text.split(",") if item.strip()]


def pairs(text, mark):
    """`a: b, c: d`, or with another mark."""
    found = [item.partition(mark) for item in items(text)]
    if not all(part for item in found for part in item):
        raise Unreadable(text.strip())
    return [(first, second) for first, _, second in found]


def entries(name, parameters, result):
    """Those of a function."""
    return {f"result of {name}": result} | {f"parameter {i} of {name}": p for i, p in enumerate(parameters, 1)}


# What the oracle says


@functools.cache
def header_constants():
    found = {"SABER_OK": 0, "SABER_SET_DEFAULT": 0, "SABER_N": saber.N}
    found |= {f"SABER_{name.upper()}": number for name, number in refusals().items()}
    found |= {f"SABER_{name.upper()}_BYTES": length for name, length in lengths().items()}
    for number, set in saber.SETS.items():
        found |= {f"SABER_SET_{NAMES[number]}": number, f"{NAMES[number]}_RANK": set.l}
        found |= {f"{NAMES[number]}_{size.upper()}_BYTES": getattr(set, size) for size in SIZES}
    return found


def refusal_name(name):
    """In the package."""
    return name.title().replace("_", "")


@functools.cache
def package_constants():
    seed = only("the length of a seed, a message and a shared secret", lengths().values())
    found = {"SEED": seed, "N": saber.N, "answer 0": "return Ok(())"}
    for name, number in refusals().items():
        refusal = f"Refusal::{refusal_name(name)}"
        found |= {refusal: number, f"answer {number}": refusal}
    for number, set in saber.SETS.items():
        fields = {"number": number, "rank": set.l, **{size: getattr(set, size) for size in SIZES}}
        found |= {f"{NAMES[number]}.{field}": value for field, value in fields.items()}
    return found


STACK_CONSTANTS = {"SABER_STACK_BYTES": "STACK", "SABER_THREAD_STACK_BYTES": None}  # and the package's names
PAGE = 4096


def header_stack(header):
    """What the header has to say of the stack: what it says, if that is in whole pages."""
    said = {name: header.get(name, 0) for name in STACK_CONSTANTS}
    return {name: bytes if bytes and bytes % PAGE == 0 else "whole pages" for name, bytes in said.items()}


def package_stack(header):
    return {name: header[constant] for constant, name in STACK_CONSTANTS.items() if name and constant in header}


def typed(parameter, lent):
    """Name and type of a parameter: one that may be missing is two, a flag and a number."""
    name, role = parameter.name, parameter.role
    if role.kind in ELEMENTS:
        return [(name, ("&mut " if lent else "&") + ELEMENTS[role.kind])]
    flag = [(f"has_{name}", "u8")] if role.kind == "optional" else []
    return [(name, ("&mut " if lent else "") + type) for name, type in [*flag, (name, f"u{role.bits}")]]


def signature(call):
    """Names and types, outputs last, numbers that are handed back before them."""
    inputs = [pair for p in call.inputs for pair in typed(p, lent=False)]
    return inputs + [pair for p in call.handed + call.outputs for pair in typed(p, lent=True)]


def in_words(pairs):
    return [f"{name}: {type}" for name, type in pairs]


def lookups():
    """The calls that hand back a part of an input: functions of the header and the package, not exported as such."""
    return [call for call in CALLS.values() if not call.outputs]


def oracle_entries():
    """The oracle's calls as exported functions. A lookup is exported as two numbers that depend on counts alone."""
    found = {}
    for call in CALLS.values():
        if call.outputs:
            found |= entries(call.exports[0], in_words(signature(call)), "u8")
        else:
            counts = [(name, "u32" if type == "u32" else "usize") for name, type in signature(call)]
            for export in call.exports:
                found |= entries(export, in_words(counts), "usize")
    return found


# What the library exports

EXPORT = r'#\[unsafe\(no_mangle\)\]\s*pub extern "C" fn (\w+)\(([^)]*)\)\s*->\s*(\w+)'


def exported(text):
    """Names with parameters, each its name and type, and result."""
    found = {name: (pairs(parameters, ": "), result) for name, parameters, result in re.findall(EXPORT, text)}
    if not len(found) == text.count("no_mangle") == text.count('extern "C"'):
        raise Unreadable("an exported function")
    return found


def passed(parameters):
    """How C passes parameters. A count has the name of its slice and `_count`, also where it stands alone."""
    found = []
    for name, type in parameters:
        reference = re.fullmatch(r"&(mut )?(\[?)(\w+)\]?", type)
        if reference:
            found.append(f"{name}: *{'mut' if reference[1] else 'const'} {reference[3]}")
        if type == "usize" or reference and reference[2]:
            found.append(f"{name}_count: usize")
        elif not reference:
            found.append(f"{name}: {type}")
    return found


def passed_entries(functions):
    found = {}
    for name, (parameters, result) in functions.items():
        found |= entries(name, passed(parameters), result)
    return found


# The header

DECLARATION = re.compile(
    r" ?(?:enum \w* ?\{(?P<constants>[^}]*)\};"
    r"|(?:static inline |SABER_\w+ )?(?P<result>(?:const )?\w+ \*?)(?P<name>\w+)\((?P<parameters>[^)]*)\)"
    r"(?:;| \{[^}]*\})) ?"
)


def from_c(text):
    """A parameter, or a type alone, in Rust's words."""
    match = re.fullmatch(r"(const )?(\w+) (\*?)(\w*)", text)
    if not match:
        raise Unreadable(text)
    const, type, star, name = match.groups()
    type = re.sub(r"(u?)int(\d+)_t", lambda m: (m[1] or "i") + m[2], type).replace("size_t", "usize")
    pointer = f"*{'const' if const else 'mut'} " if star else const or ""
    return (f"{name}: " if name else "") + pointer + type


def parameters_of(text):
    return [] if text == "void" else [from_c(parameter) for parameter in items(text)]


def header_entries(text):
    text = re.sub(r"#ifdef __cplusplus.*?#endif", "", text, flags=re.DOTALL)
    text = " ".join(re.sub(r"^#.*", "", text, flags=re.MULTILINE).split())
    found, at = {}, 0
    while at < len(text):
        match = DECLARATION.match(text, at)
        if not match:
            raise Unreadable(text[at : at + 80])
        at = match.end()
        if match["name"]:
            found |= entries(match["name"], parameters_of(match["parameters"]), from_c(match["result"]))
        else:
            found |= {name: int(number) for name, number in pairs(match["constants"], " = ")}
    return found


def expected_of_header(functions, header):
    """A lookup is also an inline function, which stores the count of what it returns. Two more clear the stack."""
    found = header_constants() | header_stack(header) | passed_entries(functions)
    for name in ("saber_overwrite_stack", "saber_clear_stack"):
        found |= entries(name, [], "void")
    for call in lookups():
        count = f"{call.name.removesuffix('_of')}_count: *mut usize"
        found |= entries(f"saber_{call.name}", [*passed(signature(call)), count], "*const u8")
    return found


# The package

# What its macro makes of a form, which names a number, inputs and outputs: declaration, safe function and call. Calls
# with numbers that may be missing or are handed back are written out.
MACRO = (
    "$(fn $export($($number: u32,)? $($input: *const $from, _: usize,)+ $($output: *mut $to, _: usize),+) -> u8;)+",
    "pub fn $name($($number: u32,)? $($input: &[$from],)+ $($output: &mut [$to]),+) -> Result<(), Refusal> {",
    "$export($($number,)? $($input.as_ptr(), $input.len(),)+ $($output.as_mut_ptr(), $output.len()),+)",
)
ROW = r"(\w+) = (\w+) \[(\w*)\] \(([^)]*)\) => \(([^)]*)\);"
DECLARED = r"    fn (saber_\w+)\(([^)]*)\) -> (\w+);"
SAFE = r"\npub fn (\w+)\(([^)]*)\)(?: -> (.*))? \{"
CALLED = r"unsafe \{\s*(saber_\w+)\(((?:[^()]|\([^()]*\))*)\)\s*\}"
FIELDS = r"pub struct Entry \{([^}]*)\}"
VALUES = r"Ok\(Entry \{([^}]*)\}\)"
NUMBER = r"pub const (\w+): usize = (\d+);"
SET = r"pub const (\w+): Set = Set \{([^}]*)\};"
REFUSAL = r"pub enum Refusal \{([^}]*)\}"
ANSWER = r"(\d+) => ([^,]*),"


def numbered(what, listed):
    return {f"{what}, {i}": item for i, item in enumerate(listed, 1)}


def package_entries(text):
    found = {f"macro, line {i}": line if line in text else "another" for i, line in enumerate(MACRO, 1)}
    found |= {name: int(number) for name, number in re.findall(NUMBER, text)}
    for name, fields in re.findall(SET, text):
        found |= {f"{name}.{field}": int(number) for field, number in pairs(fields, ": ")}
    for numbers in re.findall(REFUSAL, text):
        found |= {f"Refusal::{name}": int(number) for name, number in pairs(numbers, " = ")}
    found |= {f"answer {number}": result for number, result in re.findall(ANSWER, text)}
    for name, export, number, inputs, outputs in re.findall(ROW, text):
        parameters = [(number, "u32")] if number else []
        parameters += [(input, f"&[{type}]") for input, type in pairs(inputs, ": ")]
        parameters += [(output, f"&mut [{type}]") for output, type in pairs(outputs, ": ")]
        found |= {f"what {name} calls": export} | entries(export, passed(parameters), "u8")
    for name, parameters, result in re.findall(DECLARED, text) + re.findall(SAFE, text):
        found |= entries(name, items(parameters), result or "()")
    for name, arguments in re.findall(CALLED, text):
        found |= numbered(f"argument to {name}", items(arguments))
    for form, what in ((FIELDS, "field of Entry"), (VALUES, "value of Entry")):
        for listed in re.findall(form, text):
            found |= numbered(what, items(listed))
    for name in re.findall(r"\bsaber_\w+", text):
        found.setdefault(f"result of {name}", "not declared")
    return found


def is_optional(parameter):
    return parameter.role.kind == "optional"


def safe_type(parameter, lent):
    """The type of a parameter, or of a number handed back, in the package's own functions."""
    *_, (_, type) = typed(parameter, lent)
    return f"Option<{type}>" if is_optional(parameter) else type


def passed_on(parameter, lent):
    """What such a function passes on for it."""
    name = parameter.name
    if parameter.role.kind in ELEMENTS:
        return [f"{name}.as_mut_ptr()" if lent else f"{name}.as_ptr()", f"{name}.len()"]
    if lent:
        return [f"&mut {name}" for name, _ in typed(parameter, lent)]
    return [f"{name}.is_some().into()", f"{name}.unwrap_or(0)"] if is_optional(parameter) else [name]


def handed_back(parameter):
    name = parameter.name
    return f"{name}: (has_{name} != 0).then_some({name})" if is_optional(parameter) else name


def written_out(call):
    """A function that is written out: its types, what it passes on, and what it makes of the numbers handed back."""
    inputs, outputs = [(p, False) for p in call.inputs], [(p, True) for p in call.outputs]
    lent = [(p, True) for p in call.handed] + outputs
    parameters = [(p.name, safe_type(p, lent)) for p, lent in inputs + outputs]
    found = entries(call.name, in_words(parameters), f"Result<{'Entry' if call.handed else '()'}, Refusal>")
    found |= numbered(f"argument to {call.exports[0]}", [word for pair in inputs + lent for word in passed_on(*pair)])
    found |= numbered("field of Entry", [f"pub {p.name}: {safe_type(p, lent=False)}" for p in call.handed])
    return found | numbered("value of Entry", map(handed_back, call.handed))


def expected_of_package(functions, header):
    found = {f"macro, line {i}": line for i, line in enumerate(MACRO, 1)} | entries("clear_stack", [], "()")
    for call in CALLS.values():
        if call.handed or any(map(is_optional, call.inputs)):
            found |= written_out(call)
        elif call.outputs:
            found[f"what {call.name} calls"] = call.exports[0]
    for call in lookups():
        found |= entries(call.name, in_words(signature(call)), "&[u8]")
    return found | package_constants() | package_stack(header) | passed_entries(functions)


# What else follows the oracle's table


def listed_entries(texts):
    """The refusals that the header names before each function, and the calls that the tests in C run."""
    found = {}
    for numbers, name in re.findall(r"(?:No refusal|Refusals: ([\d, ]+))\.\nuint8_t (\w+)\(", texts[HEADER]):
        found[f"refusals of {name}"] = items(numbers)
    for name in re.findall(r"\bDO\((\w+),", texts[ALL_CALLS]):
        found[f"{name} in {ALL_CALLS}"] = "run"
    for name in re.findall(r"\b(?:DO\(|saber_)(\w+)[,(]", texts[UNREAD]):
        found[f"{name} in {UNREAD}"] = "run"
    for by, name in re.findall(r"\bBY_(LENGTHS|CONTENT), (\w+),", texts[SECRETS]):
        found.setdefault(f"{name} in {SECRETS}", {by}).add(by)
    for name, words in re.findall(r'Refusal::(\w+) => "([^"]*)"', texts[PACKAGE]):
        found[f"the package's words for {name}"] = words
    return found


def expected_lists(texts):
    """By the oracle's table; the words of each refusal are the header's."""
    words = dict(re.findall(r"^    SABER_(\w+) = \d+,? +// (.*)", texts[HEADER], re.MULTILINE))
    found = {f"the package's words for {refusal_name(name)}": words.get(name.upper()) for name in refusals()}
    for name, call in CALLS.items():
        if call.outputs:
            found[f"refusals of saber_{name}"] = [str(number) for number in call.questions]
            found[f"{name} in {ALL_CALLS}"] = found[f"{name} in {UNREAD}"] = "run"
            found[f"{name} in {SECRETS}"] = {"CONTENT" if 8 in call.questions else "LENGTHS"}
    return found


# The comparison


def read(place, reader, codes):
    try:
        return reader(codes[place])
    except (Unreadable, ValueError) as reason:
        raise Unreadable(f"{place}: cannot be read: {reason}") from None


def compared(place, found, expected):
    return [
        f"{place}: {key}: {found.get(key, 'not there')}, expected {expected.get(key, 'none')}"
        for key in found | expected
        if found.get(key) != expected.get(key)
    ]


def differences(codes):
    """A line each."""
    try:
        functions, types = read(LIBRARY, exported, codes), {}
        for name, (parameters, result) in functions.items():
            types |= entries(name, in_words(parameters), result)
        header = read(HEADER, header_entries, codes)
        return [
            *compared(LIBRARY, types, oracle_entries()),
            *compared(HEADER, header, expected_of_header(functions, header)),
            *compared(PACKAGE, read(PACKAGE, package_entries, codes), expected_of_package(functions, header)),
        ]
    except Unreadable as reason:
        return [str(reason)]


# Changes that have to be found

# Where: the declarations that are compared. What: one of them, the order of two parameters, a token.
PARTS = {
    LIBRARY: EXPORT,
    HEADER: r"enum[^}]*\};|(?m:^)\w[\w ]* \*?\w+\([^)]*\)(?:;|(?= \{))",
    PACKAGE: "|".join(
        [*map(re.escape, MACRO), ROW, DECLARED, SAFE, CALLED, FIELDS, VALUES, NUMBER, SET, REFUSAL, ANSWER]
    ),
}
TOKEN = re.compile(r"\b(?:\d+|u?int\d+_t|[ui]\d+|size_t|usize)\b|\*(?:const|mut) |\bconst |&mut |&\[")
OTHER = {"size_t": "uint32_t", "usize": "u32", "const ": "", "*const ": "*mut ", "*mut ": "*const "}
OTHER |= {"&mut ": "&", "&[": "&mut ["}
SIGNS = {"u": "i", "i": "u", "int": "uint", "uint": "int"}


def others(token):
    """Others of its kind: with the next number, if it has a number in it, and with the other sign, if it is a type."""
    if token in OTHER:
        return [OTHER[token]]
    kind, number, rest = re.fullmatch(r"(\D*)(\d+)(\D*)", token).groups()
    following = f"{kind}{int(number) + 1}{rest}"
    return [following, SIGNS[kind] + number + rest] if kind in SIGNS else [following]


def changes(place, text):
    """The text with one thing changed, every way."""
    for part in re.finditer(PARTS[place], text):
        start, end = part.span()
        yield text[:start] + text[end:]
        for token in TOKEN.finditer(text, start, end):
            for other in others(token[0]):
                yield text[: token.start()] + other + text[token.end() :]
        for group in re.compile(r"\(([^()]*)\)").finditer(text, start, end):
            listed = items(group[1])
            for i in range(1, len(listed)):
                exchanged = ", ".join([*listed[: i - 1], listed[i], listed[i - 1], *listed[i + 1 :]])
                yield text[: group.start(1)] + exchanged + text[group.end(1) :]


def listed_differences(texts):
    """A line each, of lists and prose."""
    try:
        found = compared("lists", listed_entries(texts), expected_lists(texts))
        return found + [line for place in (HEADER, PACKAGE) for line in prose_differences(place, texts[place])]
    except Unreadable as reason:
        return [str(reason)]


def tried(texts, place, changes, differences):
    """How many changes of a text are tried. One that is not found ends the script."""
    count = 0
    for count, changed in enumerate(changes, 1):
        if not differences(texts | {place: changed}):
            pairs = zip(changed.splitlines(), texts[place].splitlines())
            sys.exit(f"{place}: a change is not found: {next(new for new, old in pairs if new and new != old)}")
    return count


def main():
    texts = {place: (ROOT / place).read_text() for place in (LIBRARY, HEADER, PACKAGE, ALL_CALLS, SECRETS, UNREAD)}
    codes = {place: code(texts[place]) for place in (LIBRARY, HEADER, PACKAGE)}
    found = differences(codes) + listed_differences(texts)
    if found:
        sys.exit("\n".join(dict.fromkeys(found)))
    count = sum(tried(codes, place, changes(place, text), differences) for place, text in codes.items())
    for place in (HEADER, PACKAGE):
        count += tried(texts, place, changed_numbers(texts[place]), listed_differences)
    functions = exported(codes[LIBRARY])
    constants = [*header_constants(), *package_constants(), *STACK_CONSTANTS, *filter(None, STACK_CONSTANTS.values())]
    print(f"interface: {len(functions)} functions and {len(constants)} constants agree, {count} changes are found")


if __name__ == "__main__":
    main()
