"""Divisions in the archive: how long one takes depends on its operands, and any function may be given secrets.

    python3 tests/divisions.py

Names each function of libsaber.a that holds a division of whole or floating numbers, and exits with 1 if there is
one. A division outside is looked for too: the archive may call memcpy and memset and nothing else.
"""

import re
import subprocess
import sys
import tempfile
from pathlib import Path

ROOT = Path(__file__).resolve().parent.parent
sys.path.append(str(ROOT / "oracle"))

from calls import CALLS

CONTROL = "int whole(int x, int y) { return x % y; } double floating(double x, double y) { return x / y; }"


def read(code):
    """The division instructions of each function of an object or archive, and the names it takes from outside."""
    command = ["objdump", "--disassemble", "--syms", "--no-show-raw-insn", code]
    functions, outside, name = {}, set(), None
    for line in subprocess.run(command, stdout=subprocess.PIPE, text=True, check=True).stdout.splitlines():
        if label := re.fullmatch(r"[0-9a-f]+ <(.+)>:", line):
            name = label[1]
            functions.setdefault(name, [])
        elif instruction := re.match(r"\s+([0-9a-f]+:\t[^<#]*div[^<#]*)", line):
            functions[name].append(" ".join(instruction[1].split()))
        elif "*UND*" in line:
            outside.add(line.split()[-1])
    return functions, outside


def main():
    with tempfile.TemporaryDirectory() as folder:
        control = Path(folder) / "control.o"
        subprocess.run(["cc", "-O2", "-c", "-x", "c", "-o", control, "-"], input=CONTROL, text=True, check=True)
        found, _ = read(control)
    if not (found.keys() == {"whole", "floating"} and all(found.values())):
        sys.exit(f"divisions: the control's were not found: {found}")
    functions, outside = read(ROOT / "target" / "staticlib" / "libsaber.a")
    exported = {export for call in CALLS.values() for export in call.exports}
    wrong = [f"in {name}: {', '.join(places)}" for name, places in functions.items() if places]
    wrong += [f"perhaps in {name}, which the archive calls" for name in sorted(outside - {"memcpy", "memset"})]
    wrong += [f"not looked for in {name}, which the archive lacks" for name in sorted(exported - functions.keys())]
    if wrong:
        print(*(f"divisions {line}" for line in wrong), sep="\n")
        return 1
    print(f"divisions: none in the {len(functions)} functions of the archive")
    return 0


if __name__ == "__main__":
    sys.exit(main())
