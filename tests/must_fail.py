"""What the wrong programs show: the first error of each must-fail edit, by classes.

    python3 tests/must_fail.py [--list] [--self-test] [LOG]

`rt ci` and `rt must-fail` print a line for each edit, with the first error of its check, cut to 160 characters. The
lines are read from LOG, which one of them has printed; with no LOG `rt must-fail` is run here, which takes minutes. An
edit shows something where its first error is a fact that no longer holds. Some errors say only that a tactic stopped
before it had an answer, that a name is gone, or that a text cannot be read: right programs are refused with the same
words. It exits with 1 where the first error of an edit is of such a class and the edit is not excused by name, where an
excuse is not needed, where an edit has no line, and where a line has no edit. Edits whose first error may show little
are named: it is cut off before what differs, or it stands at what a call requires, which may still hold. The last lines
are the classes with their counts. `--list` prints the first error of every edit.

A sample of every class is sorted first; `--self-test` does nothing else.
"""

import re
import subprocess
import sys
from collections import Counter
from pathlib import Path

ROOT = Path(__file__).resolve().parent.parent

# Edits whose first error shows nothing, each with the reason why it stays: "crate/label": "reason".
EXCUSED = {}

TRIED = re.compile(r"^rt: must-fail (\w+)/([\w.-]+)\.edit: (.*)", re.MULTILINE)
REFUSED = "refused, as it must be"
CUT = 160  # characters of an error that `rt` prints

NOTHING, LITTLE, SOMETHING = "shows nothing", "named above", ""

# What `rt` says of an edit that it does not simply refuse: classes by how that begins. The second is refused too, but
# for a name alone, and the third because the prover met a limit and gave no verdict.
SAID = {
    "a bad edit": "BAD EDIT: ",
    "a proof file names what the edit took away": f"{REFUSED} (only because a proof file names what the edit took away",
    "a limit of the prover": f"{REFUSED} (only by a limit of the prover",
    "it is still proved": "NOT REFUSED: ",
    "it was not tried": "NOT TRIED: ",
}

# Classes of first errors with what they show and their words, in the order in which they are tried.
CLASSES = {
    "a text that cannot be read": (NOTHING, r"^(?:expected (?!type )|unexpected )"),
    "a name that is not there": (
        NOTHING,
        r"` is not in scope(?! here, so)|that can be named from here|has no field `|has no `|is not a constructor",
    ),
    "it rests on what is not proved": (NOTHING, r"\b(?:was|is) not admitted\b|^\d+ declarations? that depends? on "),
    "values at which a fact fails": (
        SOMETHING,
        r"\); the facts known there al|does not follow from what it read|`grind`: the goal does not follow"
        r"|All of that holds, and (?:the goal|the part|it) fails",
    ),
    "a tactic met a bound": (
        NOTHING,
        r"\); `\w+` gav|`\w+` (?:met|stopped at) (?:a bound of its own|its own limit)|gave up at one of its|broke off"
        r"|resource limit|step limit|ran out of|Not every way was tried|with lemmas still to try|It stopped (?:after|when)",
    ),
    "neither a proof nor values": (NOTHING, r"found no proof, and (?:no values|could not check its values)"),
    "a goal that is left open": (SOMETHING, r"^it is not proved that "),
    "search found no proof": (SOMETHING, r"`(?:search|grind)`: no proof of |`grind` found no proof"),
    "equations that do not join": (SOMETHING, r"the equations do not join "),
    "an equation whose ends differ": (
        SOMETHING,
        r"what it leaves must be a path whose two ends are equal|give a proof of that as the last argument, `",
    ),
    "an equation without its place": (
        SOMETHING,
        r"no occurrence of the path's left endpoint|no part of the goal `|no equation of the list has an instance",
    ),
    "indices that differ": (SOMETHING, r"` lands at index `|the two indices (?:are `|differ only|first differ)"),
    "types that differ": (
        SOMETHING,
        r"\bexpected type `|but this has type `|` ≟ `|the two (?:types|sides) (?:are `|differ only|first differ)"
        r"|the two (?:types|sides) agree until one ends"
        r"|^`Rattle\.[^`]*$",  # a term that is cut off before the one with which it is compared
    ),
}
CUT_OFF, AT_REQUIRES = "cut off", "at what a call requires"
NO_CONTRACT, NO_ERROR, UNKNOWN = "a function without a contract", "no error", "an error of no known class"
SHOWS = dict.fromkeys(SAID, NOTHING) | {name: found for name, (found, _) in CLASSES.items()}
SHOWS |= dict.fromkeys((NO_CONTRACT, NO_ERROR, UNKNOWN), NOTHING)


def shows(name):
    """What a class shows; its name may end in what is lacking."""
    return LITTLE if name.endswith((CUT_OFF, AT_REQUIRES)) else SHOWS[name]


def first(said):
    """The words of the first error of an edit, without its place and the declaration's name, and that name."""
    error = said.removeprefix(f"{REFUSED}: ")
    error = re.sub(r"^(?:note: )?\S+:\d+:\d+: (?:error: )?", "", error)
    name, words = re.fullmatch(r"(?:`([^`]*)`: )?(.*)", error).groups()
    goal = re.search(r"\(`([^`]*)`\)", words) if words.startswith("it is not proved that ") else None
    return words, goal[1] if goal else name or ""


def is_whole(words, name, is_cut):
    """Whether an error shows why a goal is open, or all that it compares: both types, or the place where they differ."""
    if name == "a goal that is left open":
        return not is_cut and words.endswith("`)")
    if name == "search found no proof":
        return bool(re.search(r"Every way was tried|`grind` found no proof\. It did not", words))
    if name != "types that differ":
        return True
    if re.search(r"computed as far as they go, the two (?:types|sides) (?:differ only|first differ) where one", words):
        return True
    pairs = re.findall(r"the two (?:types|sides) are `([^`]*)` \(\w+\) and `([^`]*)` \(\w+\)", words)
    pairs += re.findall(r"expected type `([^`]*)`,? but this has type `([^`]*)`", words)
    pairs += re.findall(r"`([^`]*)` ≟ `([^`]*)`", words)
    return any("…[" not in one + other for one, other in pairs)


def at_requires(words, goal):
    """Whether an error stands at what a call requires, by the name of the goal or by what is not proved."""
    return bool(re.search(r"-requires(?:-|$)", goal) or re.match(r"it is not proved that what .* requires\b", words))


def classify(said):
    """The class of what is said of an edit."""
    for name, start in SAID.items():
        if said.startswith(start):
            return name
    words, goal = first(said)
    if words == REFUSED:
        return NO_ERROR
    for name, (_, pattern) in CLASSES.items():
        if re.search(pattern, words):
            if not is_whole(words, name, len(said) >= len(f"{REFUSED}: ") + CUT):
                return f"{name}, {CUT_OFF}"
            if SHOWS[name] == SOMETHING and name != "values at which a fact fails" and at_requires(words, goal):
                return f"{name}, {AT_REQUIRES}"
            return name
    return UNKNOWN


def without_contract(source):
    """The functions of a source that have a body and no contract."""
    found = re.findall(r"\bfn (\w+)([^{]*)\{", source)
    return {name for name, rest in found if not re.search(r"\b(?:requires|ensures)\b", rest)}


def edited(edit):
    """The sources of a crate by their paths, and the same with an edit in them."""
    crate = edit.parent.parent
    texts = {path.relative_to(crate).as_posix(): path.read_text() for path in sorted(crate.glob("src/**/*.rt"))}
    changed, file, old = dict(texts), "", ""
    for line in edit.read_text().splitlines():
        key, _, rest = line.partition(": ")
        if key == "file":
            file = rest.strip()
        elif key == "old":
            old = rest
        elif line.startswith("new:") and file in changed:
            changed[file] = changed[file].replace(old, line[len("new:") :].removeprefix(" "))
    return texts, changed


def loses_contract(edit):
    """Whether a function has a contract in the crate, and none with the edit."""
    texts, changed = (without_contract("\n".join(found.values())) for found in edited(edit))
    return bool(changed - texts)


# Samples of what `rt` prints of an edit, with the class of each.


def note(words):
    return f"{REFUSED}: note: src/lib.rt:26:5: it is not proved that {words}"


def error(words, place="./proofs/f/Answers.antt:6:66"):
    return f"{REFUSED}: {place}: error: {words}"


HOLDS, RETURNS = "the invariant of the loop holds", "what the function ensures holds when it returns"
SAMPLES = [
    (
        "a bad edit",
        "BAD EDIT: the prover cannot read the edited text, so no contract was tried: src/lib.rt:16:24: error:"
        " `ensures-1`: `y` is not in scope",
    ),
    (
        "a bad edit",
        "BAD EDIT: it did not reach the prover; the first lines of what it said:",
    ),
    ("a bad edit", "BAD EDIT: an 'old:' text is in src/lib.rt 0 times, and not once"),
    (
        "a proof file names what the edit took away",
        f"{REFUSED} (only because a proof file names what the edit took away, so this says little of the contract: change"
        " a value and keep the names): ./proofs/f/Invariants.antt:4:31: error: `invariant-loop-i`:"
        " `goal.invariant-loop-i`: module `Rattle.a.proofs.f.Given` has no `invariant-",
    ),
    (
        "a limit of the prover",
        f"{REFUSED} (only by a limit of the prover, which gave no verdict, so this says less of the contract: choose a"
        " change that it refuses sooner): ./proofs/f/Answers.antt:6:66: error: `returns`: outgrew the memory limit (",
    ),
    ("it is still proved", "NOT REFUSED: the crate is still proved with this edit (one that means the same as before"),
    ("it was not tried", "NOT TRIED: its check was killed, most likely for memory, so nothing is known of it"),
    ("a text that cannot be read", error("expected a declaration, found `)`")),
    ("a name that is not there", error("`returns`: `unknown_of` is not in scope")),
    ("a name that is not there", error("module `A.Laws` has no `law` that can be named from here")),
    ("a name that is not there", error("`returns`: record `A.Lts.At-loop-i` has no field `rest` (nearest: .loop-i)")),
    ("it rests on what is not proved", error("`f_spec`: `returns-3` was not admitted (it has holes or undetermined")),
    (
        "it rests on what is not proved",
        error("1 declaration that depends on `law`, which was not admitted, was not checked: returns"),
    ),
    (
        "values at which a fact fails",
        note(f"{HOLDS} (`loop-i-preserved`); the facts known there allow values at which this goal is fals"),
    ),
    ("values at which a fact fails", note(f"{RETURNS} (`returns-then-not-below-bound`); the facts known there al")),
    (
        "values at which a fact fails",
        note("what `g` requires holds at this call (`g-requires`); the facts known there allow values at which this go"),
    ),
    (
        "values at which a fact fails",
        error("`returns`: `omega`: the goal does not follow from what it read. All of that holds, and the goal fai"),
    ),
    (
        "a tactic met a bound",
        note(f"{RETURNS} (`returns-then-not-wide-bound`); `search` gave up at one of its li"),
    ),
    ("a tactic met a bound", error("`returns`: `omega` stopped at a bound of its own: the goal has more than 64 parts.")),
    ("neither a proof nor values", error("`read`: `omega` found no proof, and no values at which the goal fails: what")),
    ("a goal that is left open", note(f"{RETURNS} (`returns`)")),
    ("a goal that is left open, at what a call requires", note("what `g` requires holds at this call (`g-requires-2`)")),
    (
        "a goal that is left open, cut off",
        note(f"{RETURNS} (`returns-then-not-below-bound-then-not-below-other-bound"),
    ),
    (
        "values at which a fact fails",
        error("`is_set`: `search`: no proof of `IsSet saber` was found. `grind`: the goal does not follow. The hypotheses"),
    ),
    ("search found no proof", error("`returns`: `search`: no proof of `A.Post c` was found. Every way was tried: a deeper")),
    ("search found no proof", error("`returns`: `grind` found no proof. It did not look into `length c.loop-word.list`, `len")),
    (
        "search found no proof, at what a call requires",
        error("`g-requires-2`: `search`: no proof of `A c` was found. Every way was tried: a deeper search would find"),
    ),
    (
        "search found no proof, cut off",
        error("`returns`: `search`: no proof of `mathlib.Core.Path.◌≡◌ (lib.Bits.bit_xor c.args.b (lib.Bits.bit_and (Pri"),
    ),
    ("a tactic met a bound", error("`returns`: `search`: no proof of `A c` was found. Not every way was tried. No hypothe")),
    ("equations that do not join", error("`returns`: `cc`: the equations do not join `A` to `B`")),
    (
        "an equation whose ends differ",
        error("`placed`: give a proof of that as the last argument, `rw L t` (`rw L ?` shows it as a hole's goal), or"),
    ),
    (
        "an equation without its place",
        error("`all_below`: `simp`: no equation of the list has an instance in the goal `all_below m (x ∷ xs) ≡ false`. T"),
    ),
    (
        "indices that differ",
        error("`returns`: computed as far as they go, the two indices are `0` (the constructor's) and `9` (the expected"),
    ),
    (
        "indices that differ",
        error("`returns`: computed as far as they go, the two indices differ only where one has `7` (the constructor's)"),
    ),
    ("types that differ", error("`law`: expected type `a ≡ 256`, but this has type `a ≡ 257`", "./specs/Laws/A.antt:9:3")),
    (
        "types that differ",
        error("`returns`: computed as far as they go, the two types first differ where one has `bound` (expected) and"),
    ),
    (
        "types that differ, cut off",
        error("`returns-then-x`: as printed, the two types first differ where one has `mathlib.Core.Bool.true`"),
    ),
    (
        "types that differ, cut off",
        error("`returns`: expected type `A.Post (lib.ListN.length c.args.x.now) (A.answers c.args.x.now c.args.y.new c.ar"),
    ),
    (
        "types that differ, cut off",
        error("`returns`: expected type `A f…[9 bytes]…`, but this has type `A g…[9 bytes]…`"),
    ),
    (NO_ERROR, REFUSED),
    (UNKNOWN, error("`returns`: words that nobody has seen yet")),
]
# Three functions, the first without a contract.
SOURCE = """fn keep(x: [u8; 3]) -> u8 {
    x[0]
}
pub fn f(x: u8) -> u8
    ensures { result ≡ x }
{
    if x == 0 { 0 } else { x }
}
fn g(x: u8)
    requires { x < 9 }
{
}
"""


def self_test():
    for expected, said in SAMPLES:
        if (found := classify(said)) != expected:
            sys.exit(f"must_fail: a sample of `{expected}` is taken for `{found}`:\n{said}")
    if without_contract(SOURCE) != {"keep"}:
        sys.exit("must_fail: a function without a contract is not told from others")
    if lacking := {*SHOWS} - {NO_CONTRACT} - {name for name, _ in SAMPLES}:
        sys.exit(f"must_fail: no sample of {', '.join(lacking)}")


def printed(logs):
    """What `rt` has printed in these files, or prints now."""
    if logs:
        return "\n".join(Path(log).read_text() for log in logs)
    return subprocess.run(["rt", "must-fail"], cwd=ROOT, stdout=subprocess.PIPE, text=True).stdout


def main():
    words = sys.argv[1:]
    self_test()
    if "--self-test" in words:
        print(f"must_fail: {len(SAMPLES)} samples are sorted as they must be")
        return
    edits = {f"{path.parts[-3]}/{path.stem}": path for path in ROOT.glob("crates/*/must-fail/*.edit")}
    lines = printed([word for word in words if not word.startswith("--")])
    tried = {f"{crate}/{label}": said for crate, label, said in TRIED.findall(lines)}
    wrong = [f"{name}: `rt` says nothing of this edit" for name in sorted({*edits} - {*tried})]
    wrong += [f"{name}: `rt` tells of an edit that is not there" for name in sorted({*tried} - {*edits})]
    classes, little = {}, []
    for name in sorted({*edits} & {*tried}):
        classes[name] = NO_CONTRACT if loses_contract(edits[name]) else classify(tried[name])
        line = f"{name}: {classes[name]}: {tried[name][:240]}"
        if "--list" in words:
            print(line)
        if shows(classes[name]) == NOTHING and name not in EXCUSED:
            wrong.append(line)
        elif shows(classes[name]) == LITTLE:
            little.append(f"{name}: {classes[name]}")
    for name, reason in EXCUSED.items():
        if name not in classes or shows(classes[name]) != NOTHING:
            wrong.append(f"{name}: needs no excuse ({reason})")
    print(*little, *wrong, sep="\n", end="\n" if little or wrong else "")
    print(f"must_fail: {len(edits)} edits, {len(EXCUSED)} excused, {len(wrong)} to be looked at; their first errors:")
    for name, count in Counter(classes.values()).most_common():
        print(f"{count:5}  {name}{f' ({shows(name)})' if shows(name) else ''}")
    sys.exit(bool(wrong))


if __name__ == "__main__":
    main()
