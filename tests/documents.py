"""What the documents cite is there, and README.md's table of the layers is that of crates.txt.

    python3 tests/documents.py

The documents are those at the root, in docs/ and in bench/. Landing notes, docs/PORT.md, docs/DESIGN-PASS.md and
docs/LOOK-BACK.md, which name what is gone, are not read. A definition is cited as `crate/File.name`, a law as `crate/Laws/File.name`, a
proof as `crate/proofs/function`, whether the function has a folder there or is proved without files, one that calls
itself as `crate/proofs/+function`, a function as `crate::function`, a wrong program by its crate and its name in
backquotes, and a file by its path. A section is cited by its title in quotes, after its file or before the word below
or above. README.md's table of the layers has every crate once, below the crates that it stands on. It exits with 1
where something is not so.
"""

import re
import sys
from pathlib import Path

ROOT = Path(__file__).resolve().parent.parent
DOCUMENTS = ("*.md", "docs/*.md", "bench/*.md")
PAST = {ROOT / "docs" / name for name in ("PORT.md", "DESIGN-PASS.md", "LOOK-BACK.md")}
CRATES = {path.name: path for path in (ROOT / "crates").iterdir()}
FOLDERS = r"(?:bench|bindings|crates|docs|examples|include|oracle|tests|tools|vectors)/"
SPECS = re.compile(r"`(\w+)/((?:Laws/)?[A-Z]\w*)\.((?!(?:antt|md)`)[^`\s]+)`")
PROOFS = re.compile(r"`(\w+)/proofs/(\+?\w+)`")
FUNCTIONS = re.compile(r"`([a-z]\w*)::(\w+)`")
WRONG = re.compile(rf"\b({'|'.join(CRATES)}) (`\w+`(?:, `\w+`)*)")
PATHS = re.compile(rf"`({FOLDERS}[\w./*-]*|[A-Z]+\.md|crates\.txt|\.ci/run)`|\]\(([\w./-]+)\)")
SECTIONS = re.compile(r'`([\w./]+\.md)`, "([^"]+)"(?! below| above)|"([^"]+)"(?= and "[^"]+" below| below| above)')


def layers():
    """Of each crate of crates.txt, the libraries that it stands on. Behind its name may stand what kind it is."""
    lines = [line.partition("#")[0] for line in (ROOT / "crates.txt").read_text().splitlines()]
    named = [line.partition(":") for line in lines if line.strip()]
    return {words.split()[0]: libraries.split() for words, _, libraries in named}


KIT = {library for libraries in layers().values() for library in libraries} - CRATES.keys()


def declares(crate, file, name):
    """Whether a file of definitions or laws declares a name: at the start of a line, as `NAME :`, `record NAME` or
    `data NAME`. Laws may stand in specs/ or in proofs/."""
    name = re.escape(name)
    declaration = rf"^ *(?:(?:pub|abbrev|unfoldable) )*(?:{name} :|(?:record|data) {name})(?=\s)"
    folders = ("specs", "proofs") if file.startswith("Laws/") else ("specs",)
    paths = [ROOT / "crates" / crate / folder / f"{file}.antt" for folder in folders]
    return any(path.is_file() and re.search(declaration, path.read_text(), re.MULTILINE) for path in paths)


def says(crate, pattern):
    """Whether a source of a crate has such a text."""
    sources = (ROOT / "crates" / crate).glob("src/**/*.rt")
    return any(re.search(pattern, source.read_text()) for source in sources)


def is_proved(crate, name):
    """Whether a crate has a proof's folder or else its function, which the check may prove without files."""
    own = name.lstrip("+")
    return (ROOT / "crates" / crate / "proofs" / name).is_dir() or says(crate, rf"\bfn {own}\b|#\[cycle\({own}\)\]")


def has_section(path, title):
    return path.is_file() and re.search(rf"^#+ {re.escape(title)}", path.read_text(), re.MULTILINE)


def cited(path):
    """Each citation of a document, and whether it leads somewhere."""
    text = path.read_text()
    for crate, file, name in SPECS.findall(text):
        yield f"{crate}/{file}.{name}", declares(crate, file, name)
    for crate, name in PROOFS.findall(text):
        yield f"{crate}/proofs/{name}", is_proved(crate, name)
    for crate, name in FUNCTIONS.findall(text):
        if crate not in KIT:
            yield f"{crate}::{name}", says(crate, rf"\bfn {name}\b")
    for crate, names in WRONG.findall(text):
        for name in re.findall(r"\w+", names):
            yield f"{crate} {name}", (CRATES[crate] / "must-fail" / f"{name}.edit").is_file()
    for name, link in PATHS.findall(text):
        if link:
            yield link, (path.parent / link).exists()
        elif not SPECS.match(f"`{name}`") and not PROOFS.match(f"`{name}`"):
            yield name, any(ROOT.glob(name.rstrip("/")))
    for file, there, here in SECTIONS.findall(" ".join(text.split())):
        if there:
            yield f'{file}, "{there}"', has_section(ROOT / file, there)
        else:
            yield f'"{here}"', has_section(path, here)


def table():
    """The crates of README.md's table of the layers."""
    section = re.search(r"^## Layers\n(.*?)^## ", (ROOT / "README.md").read_text(), re.MULTILINE | re.DOTALL)
    return re.findall(r"^\| [^|]*\| `(\w+)` \|", section[1], re.MULTILINE) if section else []


def misplaced():
    """What the table has otherwise than crates.txt, a line each."""
    rows, needed = table(), layers()
    for name in sorted({*rows} | needed.keys()):
        if rows.count(name) != (name in needed):
            yield f"README.md's table of the layers has the crate {name} {rows.count(name)} times"
    for place, name in enumerate(rows):
        for library in needed.get(name, []):
            if library in rows[place:]:
                yield f"README.md's table of the layers has {name} above {library}, on which it stands"


def main():
    total, lost = 0, []
    for path in sorted({path for pattern in DOCUMENTS for path in ROOT.glob(pattern)} - PAST):
        for name, there in cited(path):
            total += 1
            if not there:
                lost.append(f"{path.relative_to(ROOT)} cites {name}, which is not there")
    wrong = [*misplaced()]
    print(f"documents: {total} citations, {len(lost)} lead nowhere; {len(table())} layers, {len(wrong)} misplaced")
    sys.exit("\n".join(lost + wrong) or not total)


if __name__ == "__main__":
    main()
