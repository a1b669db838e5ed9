"""README.md is run, from its own text, and its numbers are held to the oracle.

    python3 tests/readme.py          all but the Rust example
    python3 tests/readme.py rust     the Rust example

The example of the first round trip is run by its run.sh. With seeds and a clock that the test gives it, it prints what
the oracle computes from these, which README shows. It is built and run by README's line for C too.
Without a tool, run.sh names it and ends with 1. The block for the shell is run with its calls recorded: each is
answered 0 and as the oracle answers it, and the secrets are equal. A line that starts with `$ ` is run, and what it
prints is what README has below it and what the oracle prints. The table of the calls, the errors and the other numbers
are the oracle's. Then README and the example are changed in a number, in an order or in a name, and every change has to
be found. The first thing that is wrong ends the run with 1.
"""

import contextlib
import functools
import os
import re
import shlex
import shutil
import subprocess
import sys
import tempfile
from pathlib import Path

from linked import ARCHIVE
from prose import NUMBER, ROOT, Records, changed_at, differences, lengths, listed

import notation
import saber
from calls import CALLS, ELEMENTS, ROLES

CLAIM, FIRST, LINKED, SHELL = "The claim", "A first round trip", "From C and Rust", "From a shell"
NEAR = "How near keys come to a miss"
PROSE = (CLAIM, FIRST, LINKED, SHELL, NEAR)  # whose numbers are the oracle's
README, EXAMPLE = "README.md", "examples/round_trip"
BLOCK = r"(?m)(?:^    .*\n|^\n(?=    ))+"
SECONDS = 600  # for a command


class Wrong(Exception):
    """Something in README that is not so; its text is what."""


def section(text, title):
    """From its title to the next."""
    found = re.search(rf"^## {title}\n(.*?)(?=^## |\Z)", text, re.MULTILINE | re.DOTALL)
    if not found:
        raise Wrong(f"there is no section `{title}`")
    return found[1]


def blocks(text):
    """The indented blocks, without their indentation."""
    return [re.sub("(?m)^    ", "", block).strip("\n") + "\n" for block in re.findall(BLOCK, text)]


def the_block(text, title, mark):
    """The one block of a section with this mark."""
    found = [block for block in blocks(section(text, title)) if mark in block]
    if len(found) != 1:
        raise Wrong(f"`{title}` has {len(found)} blocks with `{mark}`, not one")
    return found[0]


def run(what, command, folder, **others):
    """What a command of the shell prints. It has to end with 0 and to be silent on standard error."""
    done = subprocess.run(["sh", "-c", command], cwd=folder, capture_output=True, text=True, timeout=SECONDS, **others)
    if done.returncode or done.stderr:
        lines = done.stderr.splitlines() or ["nothing on standard error"]
        reason = next((line for line in lines if "error" in line.lower()), lines[-1])
        raise Wrong(f"{what} ends with status {done.returncode}: {reason}")
    return done.stdout


def same_secrets(what, printed, count):
    """What is printed has this count of pairs of lines, `sent` and `received`, each pair with one secret."""
    lines = re.findall(r"^ *(sent|received) +(\S*)$", printed, re.MULTILINE)
    if [name for name, _ in lines] != ["sent", "received"] * count:
        raise Wrong(f"{what} prints the lines {[name for name, _ in lines]}")
    for (_, sent), (_, received) in zip(lines[::2], lines[1::2]):
        if sent != received or not re.fullmatch(rf"[0-9a-f]{{{2 * lengths()['shared_secret']}}}", sent):
            raise Wrong(f"{what}: sent {sent or 'nothing'}, received {received or 'nothing'}")


# The two commands at the start, and the example that the first of them runs

DOOR, CLOCK = 70001, 1794963600  # the example's door, and what the test gives it as the time
GIVEN = f"""
#include <sys/types.h>
#include <time.h>
ssize_t getrandom(void *bytes, size_t count, unsigned flags) {{
    static unsigned char next;
    for (size_t i = 0; i < count; i++)
        ((unsigned char *)bytes)[i] = next++;
    return flags == 0 ? (ssize_t)count : -1;
}}
time_t time(time_t *stored) {{ return stored ? -1 : {CLOCK}; }}
"""


def source_of(name):
    return (ROOT / EXAMPLE / name).read_text()


def commands(text):
    """The two commands, and how long the first takes at first."""
    block = next(iter(blocks(text)), "")
    names = re.findall(r"^(\S+) +#", block, re.MULTILINE)
    if names != [f"{EXAMPLE}/run.sh", ".ci/run"] or not all(os.access(ROOT / name, os.X_OK) for name in names):
        raise Wrong(f"the two commands are {names}")
    time = re.search(r"\d+ to \d+ minutes", block)
    if not time or f"took {time[0]}." not in source_of("run.sh"):
        raise Wrong(f"the first command takes {time and time[0]}, and says something else")


def changed_commands(text):
    yield text.replace("    .ci/run  ", "    ci/run  ", 1)
    yield text.replace(f"    {EXAMPLE}/run.sh ", f"    {EXAMPLE}/run ", 1)
    yield text.replace("5 to 10 minutes", "5 to 9 minutes", 1)


@contextlib.contextmanager
def example_folder(source, script):
    """A folder with what the example needs: its two files, the header, the archive, and where `rt` builds it."""
    with tempfile.TemporaryDirectory() as name:
        folder = Path(name)
        for needed in (EXAMPLE, "tools", "crates/saber/out"):
            (folder / needed).mkdir(parents=True)
        (folder / "crates.txt").touch()
        (folder / "tools/build.sh").symlink_to(ROOT / "tools/build.sh")
        (folder / EXAMPLE / "round_trip.c").write_text(source)
        (folder / EXAMPLE / "run.sh").write_text(script)
        (folder / EXAMPLE / "run.sh").chmod(0o755)
        (folder / "target").mkdir()
        (folder / "include").symlink_to(ROOT / "include")
        (folder / "target/staticlib").symlink_to(ARCHIVE.parent)
        yield folder


def without_bytes(printed):
    """What the example prints, without bytes and time, which differ from run to run."""
    return re.sub(r"(?<=bytes, )[0-9a-f]+(?=\.\.$)|(?<=time )\d+$", "*", printed, flags=re.MULTILINE)


def example_runs(source):
    """What the example prints: by run.sh, and then with seeds and a clock that are given."""
    with example_folder(source, source_of("run.sh")) as folder:
        printed = run("the example", f"{EXAMPLE}/run.sh", folder)
        (folder / "given.c").write_text(GIVEN)
        run("the given seeds", "cc -shared -fPIC -o given.so given.c", folder)
        environment = os.environ | {"LD_PRELOAD": str(folder / "given.so")}
        return printed, run("the example with given seeds", "target/round_trip", folder, env=environment)


@functools.cache
def oracle_example():
    """What the oracle makes of the given seeds and time."""
    number, count = saber.DEFAULT, lengths()["seed"]
    set = saber.SETS[number]
    seeds = [bytes(range(count * i, count * (i + 1))) for i in range(4)]
    public_key, secret_key = saber.keygen(set, *seeds[:3])
    ciphertext, sent = saber.encaps(set, public_key, seeds[3])
    record = saber.write_record(DOOR, CLOCK, set, ciphertext)
    door, time, number, ciphertext = saber.read_record(record)
    opened = saber.decaps(set, secret_key, ciphertext)
    return "".join(
        f"{call:13} {result}\n"
        for call, result in (
            ("keygen", f"public key of {len(public_key)} bytes, {public_key[:16].hex()}.."),
            ("encaps", f"ciphertext of {len(ciphertext)} bytes, {ciphertext[:16].hex()}.."),
            ("encaps", f"secret of {len(sent)} bytes, {sent[:8].hex()}.."),
            ("write_record", f"record of {len(record)} bytes, {record[:16].hex()}.."),
            ("read_record", f"set {number}, door {door}, time {time}"),
            ("decaps", f"secret of {len(opened)} bytes, {opened[:8].hex()}.."),
        )
    ) + ("the secret that was opened is the one that was sent\n" if sent == opened else "")


def example_program(source):
    """Every answer is checked, the stack and the secrets are cleared, and what is printed is the oracle's."""
    *calls, last = re.findall(r"\bsaber_(\w+)\(", source)
    for call in calls:
        if f'check("{call}", saber_{call}(' not in source:
            raise Wrong(f"the answer of {call} is not checked")
    if last != "clear_stack" or "\n    explicit_bzero(&own, sizeof own);" not in source:
        raise Wrong("the stack or the secrets are not cleared")
    printed, given = example_runs(source)
    if given != oracle_example():
        raise Wrong(f"of given seeds the example prints {given!r}, and the oracle {oracle_example()!r}")
    if without_bytes(printed) != without_bytes(given):
        raise Wrong(f"the example prints {printed!r}, and of given seeds {given!r}")


def changed_sources(source):
    for old, new in (
        ("saber_decaps(set, own.secret_key, SK,", "saber_decaps(set, public_key, PK,"),
        ("own.z, SEED, public_key, PK,", "own.z, PK, public_key, SEED,"),
        ("SK = SABER_SECRET_KEY_BYTES", "SK = SABER_PLAIN_SECRET_BYTES"),
        ("saber_keygen(", "saber_key_pair("),
        ("SEED, own.secret_seed, SEED,", "SEED, own.matrix_seed, SEED,"),
        ("public_key, PK, own.encaps_seed, SEED,", "public_key, PK, own.z, SEED,"),
        ("(1, DOOR, 1,", "(1, DOOR, 0,"),
        ("DOOR = 70001", "DOOR = 70002"),
        ("SET = SABER_SET_SABER", "SET = SABER_SET_FIRESABER"),
        ("    saber_clear_stack();", "    //"),
        ("    explicit_bzero", "    // explicit_bzero"),
        ("    uint64_t when = 0;", "    uint64_t when = 0, unused;"),
        ('check("encaps", saber_encaps(', "(void)(saber_encaps("),
    ):
        if source.count(old) != 1:
            raise Wrong(f"the example has no longer the one place `{old}`")
        yield source.replace(old, new)


def example_script(script):
    """Without a tool it names the tool and ends with 1. Without the archive it says so and has it built."""
    bash = shutil.which("bash")
    with example_folder(source_of("round_trip.c"), script) as folder:
        few, built = folder / "few", folder / "built"
        for place in (few, built):
            place.mkdir()
        for tool in ("dirname", "uname"):
            (few / tool).symlink_to(shutil.which(tool))
        build = shlex.join(["cp", str(ARCHIVE), f"out/{ARCHIVE.name}"])
        (built / "rt").write_text(f'#!/bin/sh\n[ "$*" = version ] || {{ echo "rt: $* in ${{PWD##*/}}"; {build}; }}\n')
        (built / "rt").chmod(0o755)
        for tools in (["cc"], ["rt", "cc"]):
            command = [bash, f"{EXAMPLE}/run.sh"]
            done = subprocess.run(command, cwd=folder, env={"PATH": str(few)}, capture_output=True, text=True)
            if done.returncode != 1 or re.findall(r"missing: (\w+),", done.stderr) != tools or done.stdout:
                raise Wrong(f"without {tools} run.sh ends with {done.returncode}: {done.stdout}{done.stderr}")
            (folder / "target/staticlib").unlink(missing_ok=True)
        path = {"PATH": f"{built}:{os.environ['PATH']}"}
        printed = run("run.sh", f"{EXAMPLE}/run.sh", folder, env=os.environ | path)
        said = r"There is no target/staticlib/libsaber\.a yet\..* took \d+ to \d+ minutes\.\nrt: lib .*in saber\n"
        if not re.fullmatch(said + re.escape(without_bytes(oracle_example())), without_bytes(printed)):
            raise Wrong(f"without the archive run.sh prints {printed!r}")


def changed_scripts(script):
    for old, new in (
        ("|| exit 1", "|| true"),
        ("|| needed=(rt cc)", "|| needed=(cc)"),
        ("tools/build.sh archive", "tools/build.sh archives"),
        (" 5 to 10 minutes.", " a while."),
        ("-Iinclude ", ""),
    ):
        if script.count(old) != 1:
            raise Wrong(f"run.sh has no longer the one place `{old}`")
        yield script.replace(old, new)


def example_shown(text):
    """README shows what the example prints of the given seeds."""
    shown, expected = the_block(text, FIRST, "keygen"), oracle_example()
    if shown != expected:
        raise Wrong(f"the example is shown with {shown!r}, and the oracle prints {expected!r}")


def changed_shown(text):
    block = re.search(rf"(?s)## {FIRST}\n.*?\n\n    (.*?)\n\n", text)
    for number in re.compile(r"\d+").finditer(text, *block.span(1)):
        yield from changed_at(text, number)


def linked(text):
    """README's line for C builds the example and runs it, and its start shows the same line."""
    line = the_block(text, LINKED, "program.c")
    with example_folder("", "") as folder:
        (folder / "program.c").write_text(source_of("round_trip.c"))
        printed = run("the line for C", line, folder)
    if without_bytes(printed) != without_bytes(oracle_example()):
        raise Wrong(f"the line for C runs a program that prints {printed!r}")
    if f"`{line.split(' && ')[0]}`" not in text:
        raise Wrong("the line for C at the start is another")


def changed_lines(text):
    yield text.replace("    cc -Iinclude ", "    cc ")
    yield text.replace("`cc -Iinclude ", "`cc ")


# From a shell


def shell(text):
    block = the_block(text, SHELL, "sabercall")
    with tempfile.TemporaryDirectory() as name:
        folder = Path(name)
        program, requests, answers = folder / "target/bin/sabercall", folder / "requests", folder / "answers"
        program.parent.mkdir(parents=True)
        recorded = [["tee", "-a", requests], [ROOT / "target/bin/sabercall"], ["tee", "-a", answers]]
        program.write_text("#!/bin/sh\n" + " | ".join(shlex.join(map(str, words)) for words in recorded) + "\n")
        program.chmod(0o755)
        printed = run("the block for the shell", block, folder)
        asked, answered = requests.read_bytes().splitlines(), answers.read_bytes().splitlines()
    names = [line.split()[0].decode() for line in asked]
    if names != ["keygen", "encaps", "decaps"]:
        raise Wrong(f"the block for the shell makes the calls {names}")
    for name, line, found in zip(names, asked, answered, strict=True):
        if found != notation.answer_line(line) or not found.startswith(b"0 "):
            raise Wrong(f"the block for the shell: {name} is answered `{found[:20].decode()}`")
    same_secrets("the block for the shell", printed, 1)


def changed_shell(text):
    """Sizes, set numbers and places of words; arguments in another order."""
    number = re.compile(r"(?<=blank )\d+|(?<=-N)\d+|(?<=-f)\d|(?<=keygen |encaps |decaps )\d")
    block = re.search(rf"(?s)## {SHELL}\n.*?\n\n    (.*?)\n\n", text)
    for found in number.finditer(text, *block.span(1)):
        yield from changed_at(text, found)
    for call in re.compile(r"(?m)(?<=call )(?:keygen|encaps|decaps) .*(?=\)$)").finditer(text, *block.span(1)):
        words = re.findall(r"\$\((?:[^()]|\([^()]*\))*\)|\S+", call[0])
        for i in range(2, len(words)):
            if words[i] != words[i - 1]:
                other = [*words[: i - 1], words[i], words[i - 1], *words[i + 1 :]]
                yield text[: call.start()] + " ".join(other) + text[call.end() :]


# Samples of what programs print


@functools.cache
def printed_by(command):
    return run(f"`{command}`", command, ROOT)


@functools.cache
def oracle_prints(command):
    report = re.fullmatch(r"target/bin/marginreport < (\S+)", command)
    if not report:
        raise Wrong(f"`{command}`: the oracle does not print this")
    return saber.margin_report((ROOT / report[1]).read_bytes()).decode()


def samples(text):
    found = [block for block in blocks(text) if block.startswith("$ ")]
    if not found:
        raise Wrong("there is no sample")
    for block in found:
        for command, shown in re.findall(r"^\$ (.*)\n((?:(?!\$ ).*\n)*)", block, re.MULTILINE):
            for program, printed in (("it", printed_by(command)), ("the oracle", oracle_prints(command))):
                if printed != shown:
                    raise Wrong(f"`{command}` is shown with {shown!r}, and {program} prints {printed!r}")


def changed_samples(text):
    for block in re.finditer(r"^    \$ .*\n((?:    .*\n)*)", text, re.MULTILINE):
        for number in re.compile(NUMBER).finditer(text, *block.span(1)):
            yield from changed_at(text, number)


# The table of the calls, the errors, and numbers in sentences

KINDS = {"list": " (list)", "signed": " (signed list)"}


def words(parameters):
    return ", ".join(p.name.replace("_", " ") + KINDS.get(p.role.kind, "") for p in parameters)


def row(call):
    return "| " + " | ".join([f"`{call.name}`", words(call.inputs), words(call.outputs)]).rstrip() + " |"


def reasons():
    """The oracle's, for a line that cannot be read."""
    return {*re.findall(r'Unreadable\("([^"]+)"\)', Path(notation.__file__).read_text())}


def sentences():
    seed, _, secret = lengths().values()
    times, group, most = saber.Q // saber.P, saber.GROUP, saber.MOST_GROUPS
    bounds = ", ".join(f"{times * set.margin} for {saber.NAMES[number]}" for number, set in saber.SETS.items())
    door, time, _ = CALLS["read_record"].handed
    number, signed = ROLES["set"].bits, ELEMENTS["signed"]
    digits = len(notation.write_word([0], ROLES["bits"]))
    handed = listed([f"the {p.name}" for p in CALLS["read_record"].handed], "and")
    return [
        # The claim
        f"(0 counts as the set it means) and any four seeds of {seed} bytes",
        "all four calls answer 0",
        f"lies in -{times} M .. {times} M ({times} M is {bounds})",
        "SHA3-256 of the fourth seed",
        f"all {secret} bytes of each",
        f"accepted before doors had {door.role.bits} bits",
        "leaves that product of its operands, modulo 65536",
        f"folds it by X^{saber.N} = -1",
        f"The sampler of set {saber.DEFAULT} reads a table",
        # C
        f"when doors had {8 * Records().short} bits",
        # The shell
        f"Keys of {saber.NAMES[saber.DEFAULT]}, set {saber.DEFAULT}",
        f"Numbers are decimal and below 2^{number} (a time below 2^{time.role.bits})",
        f"Lists of coefficients have {digits} hex digits a coefficient",
        f"decimals from {signed[0]} to {signed[-1]} with commas between, as 0,-4,4",
        f"{handed} of read_record",
        f"too long (over {notation.LONGEST:,} bytes)",
        # Margins
        f"one byte from {min(saber.SETS)} to {max(saber.SETS)}, and groups of {group} bytes",
        f"is {times} M minus the largest absolute value of a coefficient",
        f"After {most} groups it reads no further",
        f"answered {saber.margin_report(b'').decode().strip()}",
        f"the margins of {most} groups of each set, with the bound at 0",
        f"Group i of set n is {group} bytes of SHAKE-128",
        f"![The margins of {most} groups of each set: all of them lie far above 0]",
    ]


def statements(text):
    rows = re.findall(r"^\| `.*", section(text, SHELL), re.MULTILINE)
    for found, expected in zip([*rows, "none"], [*map(row, CALLS.values()), "none"]):
        if found != expected:
            raise Wrong(f"the table of the calls has `{found}`, and the oracle `{expected}`")
    errors = re.search(r"gives `error` and a reason: ((?:[^.])*)\.", section(text, SHELL))
    found = {*re.findall("`([^`]*)`", errors[1] if errors else "")}
    if found != reasons():
        raise Wrong(f"the errors are {sorted(found)}, and the oracle's {sorted(reasons())}")
    prose = " ".join(re.sub(BLOCK, "", section(text, title)) for title in PROSE)
    for line in differences("in its sentences", prose, sentences()):
        raise Wrong(line)


def changed_statements(text):
    """Numbers in the prose of these sections, neighbours in the table, an error's name."""
    for title in PROSE:
        start = text.index(section(text, title))
        code = [block.span() for block in re.finditer(BLOCK, text)]
        for number in re.compile(NUMBER).finditer(text, start, start + len(section(text, title))):
            if not any(first <= number.start() < last for first, last in code):
                yield from changed_at(text, number)
    for call in CALLS.values():
        for parameters in (call.inputs, call.outputs):
            for first, second in zip(parameters, parameters[1:]):
                pair, other = words([first, second]), words([second, first])
                if pair != other:
                    yield text.replace(row(call), row(call).replace(pair, other))
    for reason in reasons():
        yield text.replace(f"`{reason}`", "`too short`")


# Each with the file whose text it takes, and its changes
CHECKS = (
    (README, commands, changed_commands),
    (f"{EXAMPLE}/round_trip.c", example_program, changed_sources),
    (f"{EXAMPLE}/run.sh", example_script, changed_scripts),
    (README, example_shown, changed_shown),
    (README, linked, changed_lines),
    (README, shell, changed_shell),
    (README, samples, changed_samples),
    (README, statements, changed_statements),
)


# The Rust example


def rust_example(text):
    line = the_block(text, LINKED, "cargo run")
    environment = {"CARGO_TARGET_DIR": "target/rust"} | os.environ | {"CARGO_TERM_QUIET": "true"}
    example_prints(run("the Rust example", line, ROOT, env=environment))


def example_prints(printed):
    """What the example has to print: the sizes of each set, and the same secret on both sides."""
    for number, set in saber.SETS.items():
        sizes = f"public key {set.public_key} bytes, secret key {set.secret_key}, ciphertext {set.ciphertext}"
        if f"{saber.NAMES[number]}: {sizes}\n" not in printed:
            raise Wrong(f"the Rust example does not print `{saber.NAMES[number]}: {sizes}`")
    same_secrets("the Rust example", printed, len(saber.SETS))


def main():
    count, file = 0, README
    try:
        if sys.argv[1:] == ["rust"]:
            rust_example((ROOT / README).read_text())
            print(f"README.md: its Rust example exchanges a secret in {len(saber.SETS)} sets")
            return
        for file, check, changes in CHECKS:
            text = (ROOT / file).read_text()
            check(text)
            for changed in changes(text):
                try:
                    check(changed)
                except Wrong:
                    count += 1
                    continue
                pairs = zip(changed.splitlines(), text.splitlines())
                line = next((new for new, old in pairs if new != old), "none was made")
                raise Wrong(f"a change is not found: {line}")
    except Wrong as what:
        sys.exit(f"{file}: {what}")
    what = f"example, shell lines and sample run, {len(CALLS)} calls and {len(sentences())} sentences agree"
    print(f"README.md: {what}, {count} changes are found")


if __name__ == "__main__":
    main()
