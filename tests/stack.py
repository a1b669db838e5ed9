"""What the calls leave on the stack, and that saber_clear_stack() clears it, however a program is built.

    python3 tests/stack.py

Builds tests/stack.c with cc and, where it is there, clang, at each of LEVELS, as it is and with the header as read by a
compiler with neither gcc's attributes nor MSVC's, and once with the library as a shared one. Functions are bound when
they are first called. It runs each program, which does the looking, and exits with 1 at the first that fails.
"""

import os
import shutil
import subprocess
import sys
import tempfile

from linked import ARCHIVE, linked, shared

LEVELS = ("-O0", "-O2", "-O3")
LAZY = {name: value for name, value in os.environ.items() if name != "LD_BIND_NOW"}


def builds(compilers, library):
    """Compiler, options and library of each program."""
    for compiler in compilers:
        for level in LEVELS:
            yield compiler, [level], ARCHIVE
            yield compiler, [level, "-DWITHOUT_ATTRIBUTES"], ARCHIVE
    yield "cc", ["-O2", "-Wl,-rpath,$ORIGIN"], library


def main():
    compilers = [compiler for compiler in ("cc", "clang") if shutil.which(compiler)]
    if "clang" not in compilers:
        print("skipped: the stack of programs by clang (no clang)")
    with tempfile.TemporaryDirectory() as folder:
        for compiler, options, library in builds(compilers, shared(folder)):
            words = " ".join([compiler, *options, library.name])
            program = linked("stack", folder, compiler, [*options, "-Wl,-z,lazy"], library)
            run = subprocess.run([program], env=LAZY, capture_output=True, text=True)
            print(f"{words}: {run.stdout or run.stderr or run.returncode}".rstrip())
            if run.returncode:
                return 1
    return 0


if __name__ == "__main__":
    sys.exit(main())
