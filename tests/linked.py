"""A C program of tests/, built with the library's archive."""

import subprocess
from pathlib import Path

ROOT = Path(__file__).resolve().parent.parent
OPTIONS = ["-std=c99", "-Wall", "-Wextra", "-pedantic", "-Werror", "-I", ROOT / "include"]
ARCHIVE = ROOT / "target" / "staticlib" / "libsaber.a"


def linked(name, folder, compiler="cc", options=(), library=ARCHIVE):
    """The program of tests/NAME.c. If no option says so it is not optimised, so that a control in it stays there."""
    program = Path(folder) / name
    subprocess.run([compiler, *OPTIONS, *options, "-o", program, ROOT / "tests" / f"{name}.c", library], check=True)
    return program


def shared(folder, archive=ARCHIVE):
    """The archive as a shared library, whose functions are bound when they are first called."""
    library = Path(folder) / "libsaber.so"
    whole = ["-Wl,--whole-archive", archive, "-Wl,--no-whole-archive"]
    subprocess.run(["cc", "-shared", "-Wl,-z,lazy", "-o", library, *whole], check=True)
    return library
