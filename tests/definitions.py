"""What a reader has to believe, by the folders that files stand in, and that contracts rest on nothing else.

    python3 tests/definitions.py [ROOT]

Of the files of crates/*/specs, `Lib` and `Laws` only name others; `Requires`, `Ensures` and `Layout` are inner files, for
the contracts of inner functions; the files below Laws/ are laws, and the rest are definitions. Checked is:

- a file of definitions cites files of definitions alone; a contract and an inner file cite inner files too;
- files of definitions and inner files hold no proof, and `Lib` and `Laws` nothing but `pub mod` lines;
- no exported function and none of the oracle's calls has a `requires`, or a name of an inner file in its promise.
  Another function that is `pub` and has a `requires` is an inner form.

It lists the files of definitions, and exits with 1 where something is not so.
"""

import re
import sys
from pathlib import Path

ROOT = Path(__file__).resolve().parent.parent
sys.path.append(str(ROOT / "oracle"))

from calls import CALLS

CITED = re.compile(r"\bRattle\.(\w+)[\w.]*")
PLACE = re.compile(r"Rattle\.\w+\.specs\.(\w+)")
PROOF = re.compile(r"\b(unfolding|refl|sym|ap|rw|simp|omega|search|grind|absurd|cc)\b")
INNER = re.compile(r"\.specs\.(?:Requires|Ensures|Layout)\.\{([^}]*)\}")
FUNCTION = re.compile(r'(\bpub )?(extern "C" )?\bfn (\w+)')
NAME = re.compile(r"^pub mod \w+\s*$", re.MULTILINE)
NAMING = {"Lib": "names", "Laws": "names", "Requires": "inner", "Ensures": "inner", "Layout": "inner"}


def kind_of(name):
    """What a file of a name below specs/ holds: definitions, inner, laws or names; None where no file should be."""
    folder, slash, file = name.rpartition("/")
    if not slash:
        return NAMING.get(file, "definitions")
    return "laws" if folder == "Laws" else None


def specs(crate):
    """The files below a crate's specs/ by their names."""
    folder = crate / "specs"
    return {path.relative_to(folder).with_suffix("").as_posix(): path for path in sorted(folder.glob("**/*.antt"))}


def code(path):
    """A file's text without its comments."""
    return re.sub(r"(--|//).*", "", path.read_text())


def functions(text):
    """Of each function of a source: whether it is pub, whether an open call, its name, and the text that follows."""
    found = [*FUNCTION.finditer(text)]
    ends = [match.start() for match in found[1:]] + [len(text)]
    for match, end in zip(found, ends):
        public, exported, name = match.groups()
        yield bool(public), bool(exported or public and name in CALLS), name, text[match.end() : end]


def first(fault, lines):
    """A fault with the first line that shows it, if there is one."""
    return [f"{fault}: {line.strip()}" for line in lines if line.strip()][:1]


def citations(holder, text, crates, allowed):
    """The citations of a text, but those of the kit's own words, that lead to no file whose kind is allowed."""
    for cited, crate in sorted({(match[0], match[1]) for match in CITED.finditer(text)}):
        place = PLACE.match(cited)
        # `declared` holds the types that a source declares
        if crate in crates and not (place and (place[1] == "declared" or (crate, place[1]) in allowed)):
            yield f"{holder} cites {cited}"


def main():
    root = Path(sys.argv[1]) if len(sys.argv) > 1 else ROOT
    crates = sorted((root / "crates").iterdir())
    names = {crate.name for crate in crates}
    files = {(crate.name, name): path for crate in crates for name, path in specs(crate).items()}
    definitions = {key for key in files if kind_of(key[1]) == "definitions"}
    with_inner = definitions | {key for key in files if kind_of(key[1]) == "inner"}

    failed = []
    for (crate, name), path in files.items():
        holder, text, kind = f"{crate}/{name}", code(path), kind_of(name)
        if kind is None:
            failed.append(f"{holder} stands in no place of the layout")
        if kind == "names":
            failed += first(f"{holder} does more than name others", NAME.sub("", text).split("\n"))
        if kind in ("definitions", "inner"):
            failed += citations(holder, text, names, definitions if kind == "definitions" else with_inner)
            failed += first(f"{holder} holds a proof", filter(PROOF.search, text.split("\n")))

    sources = sorted((root / "crates").glob("*/src/**/*.rt"))
    inner, called = 0, set()
    for path in sources:
        holder, text = path.relative_to(root / "crates").as_posix(), code(path)
        failed += citations(holder, text, names, with_inner)
        asked = {"requires", *re.split(r",\s*", ", ".join(INNER.findall(text)))} - {""}
        for public, is_open, name, rest in functions(text):
            if is_open:
                called.add(name)
                words = asked & {*re.findall(r"[^\s(){}.,;]+", rest)}
                failed += [f"{holder}: {name} is an open call and has {word}" for word in sorted(words)]
            elif public:
                inner += "requires" in rest
    failed += [f"{name} is a call of the oracle and no function" for name in CALLS.keys() - called]

    print(" ".join(f"{crate}/{name}" for crate, name in sorted(definitions)))
    others = len(with_inner) - len(definitions)
    found = f"{len(definitions)} files of definitions, {others} inner files, {len(sources)} sources, {inner} inner forms"
    print(f"{found}, {len(failed)} failed")
    sys.exit("\n".join(failed) or not definitions)


if __name__ == "__main__":
    main()
