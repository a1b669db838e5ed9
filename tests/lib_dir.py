"""The Rust package finds the archive where SABER_LIB_DIR says.

    python3 tests/lib_dir.py

A copy of the package, in a folder of its own. With no archive where the repository has it and none named, the build
fails and says which file is missing. With the archive's folder named, the example runs. Then there is an archive where
the repository has it: with a folder named that has none the build fails all the same, and with none named the example
runs. It exits with 1 at the first of these that is not so.
"""

import os
import shutil
import subprocess
import sys
import tempfile
from pathlib import Path

from readme import ROOT, SECONDS, Wrong, example_prints

ARCHIVE = ROOT / "target/staticlib/libsaber.a"


def example(package, named):
    """The example, built and run with the folder named that has the archive, or with none named."""
    environment = os.environ | {"CARGO_TARGET_DIR": str(package / "built")}
    environment.pop("SABER_LIB_DIR", None)
    if named:
        environment["SABER_LIB_DIR"] = str(named)
    command = ["cargo", "run", "--offline", "--quiet", "--example", "round_trip"]
    return subprocess.run(command, cwd=package, env=environment, capture_output=True, text=True, timeout=SECONDS)


def runs(what, package, named=None):
    done = example(package, named)
    if done.returncode != 0:
        raise Wrong(f"{what}: the example is not built:\n{done.stderr}")
    example_prints(done.stdout)


def fails(what, package, missing, named=None):
    done = example(package, named)
    if done.returncode == 0 or f"{missing}/libsaber.a is missing" not in done.stderr:
        raise Wrong(f"{what}: cargo ends with {done.returncode} and does not say that the archive is missing there")


def main():
    with tempfile.TemporaryDirectory() as name:
        folder = Path(name)
        package, own = folder / "copy/bindings/rust", folder / "copy/target/staticlib"
        named, empty = folder / "named", folder / "empty"
        shutil.copytree(ROOT / "bindings/rust", package, ignore=shutil.ignore_patterns("target"))
        named.mkdir()
        empty.mkdir()
        shutil.copy(ARCHIVE, named)
        try:
            fails("no archive and none named", package, package / "../../target/staticlib")
            runs("the archive's folder named", package, named)
            own.mkdir(parents=True)
            shutil.copy(ARCHIVE, own)
            fails("a folder named that has no archive", package, empty, empty)
            runs("the repository's archive and none named", package)
        except Wrong as what:
            sys.exit(f"SABER_LIB_DIR: {what}")
    print("SABER_LIB_DIR: 2 builds that find the archive, 2 that say that it is missing")


if __name__ == "__main__":
    main()
