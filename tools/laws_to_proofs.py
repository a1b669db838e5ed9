#!/usr/bin/env python3
"""Moves the laws of the crates that are named from specs/Laws to proofs/Laws, and rewrites the paths that cite them.

Run at the top of the repository: tools/laws_to_proofs.py CRATE..
A must-fail edit of a definition is read as refused only where no law in specs/ rests on that definition.
"""
import pathlib
import re
import shutil
import sys

ROOT = pathlib.Path(".")
CRATES = sys.argv[1:]


def main():
    for crate in CRATES:
        specs, proofs = ROOT / "crates" / crate / "specs", ROOT / "crates" / crate / "proofs"
        proofs.mkdir(exist_ok=True)
        for name in ("Laws", "Laws.antt"):
            if (specs / name).exists():
                shutil.move(specs / name, proofs / name)
        lib = specs / "Lib.antt"
        lib.write_text("".join(line for line in lib.read_text().splitlines(True) if line.strip() != "pub mod Laws"))
        lib = proofs / "Lib.antt"
        text = lib.read_text() if lib.exists() else ""
        if "pub mod Laws\n" not in text:
            lib.write_text(text + "pub mod Laws\n")
    cited = re.compile(rf"\bRattle\.({'|'.join(CRATES)})\.specs\.Laws\b")
    for pattern in ("specs/**/*.antt", "proofs/**/*.antt", "src/*.rt", "must-fail/*.edit"):
        for path in ROOT.glob(f"crates/*/{pattern}"):
            text = path.read_text()
            moved = cited.sub(r"Rattle.\1.proofs.Laws", text)
            if path.suffix == ".edit" and path.parts[1] in CRATES:
                moved = moved.replace("file: specs/Laws/", "file: proofs/Laws/")
            if moved != text:
                path.write_text(moved)


main()
