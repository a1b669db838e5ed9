#!/usr/bin/env python3
"""Brings the repository's own words of specs/ and proofs/ to today's spelling: words in snake case, with no dash.

Run once, at the top of the repository, after port.py. Functions of src/, exported names, strings, inputs and outputs keep their
names. Names of types and modules keep theirs. With --list it prints what it would rename and where names would fall together.
"""
import collections
import pathlib
import re
import sys

ROOT = pathlib.Path(".")
# what a word of antt is made of
WORD = re.compile(r"[^\s(){}\[\];,.:«»\"`|\\⌜⌝&]+")
BINDS = re.compile(r"^\s*(?:pub |abbrev |unfoldable )*([^\s:(){}]+)\s*:(?:\s|$)")
# words that Rattle makes or the kit has, and that look like the repository's own
MADE = re.compile(r"^(invariant|decreases|loop|returns|After|At|In|Need|Start|overflow|bounds)(-|$)")
# where two words would fall together, or with a function of src/
APART = {
    **{
        word: word.replace("-", "_") + "_lem"
        for word in (
            "bits-of ct-is ct-long is-set key-part least-long norm-fits out-long pk-is rest-long secret-below sk-is taken-by wrong-few"
        ).split()
    },
    "coins-of": "coins_step",
    "message-of": "message_step",
    "secret-of": "secret_step",
}


def antt_files():
    return sorted([*ROOT.glob("crates/*/specs/**/*.antt"), *ROOT.glob("crates/*/proofs/**/*.antt")])


def snake(word):
    word = re.sub(r"(?<=[a-z0-9])([A-Z])", lambda m: "_" + m[1].lower(), word) if word[0].islower() else word
    return word.replace("-", "_")


def is_camel(word):
    return bool(re.match(r"^[a-z][A-Za-z0-9_'₀-₉]*$", word) and re.search(r"[a-z0-9][A-Z]", word))


def code_of(line, comment):
    """The line up to its comment, and the comment."""
    at = line.find(comment)
    while at > 0 and not line[at - 1].isspace():
        at = line.find(comment, at + 1)
    return (line, "") if at < 0 else (line[:at], line[at:])


def imported():
    """The words that files take from the kit."""
    words = set()
    for path in [*antt_files(), *ROOT.glob("crates/*/src/*.rt")]:
        for m in re.finditer(r"use ([\w.·]+)\.\{([^}]*)\}", path.read_text()):
            if not re.match(r"Rattle\.(?!std\.|core\.)\w+\.(specs|proofs)", m[1]):
                words |= {w.strip().split(" as ")[0] for w in m[2].split(",")}
    return words


def renames():
    own, camel = set(), set()
    for path in antt_files():
        for line in path.read_text().split("\n"):
            code = code_of(line, "--")[0]
            m = BINDS.match(code)
            if m and "-" in m[1] and not m[1].startswith("-"):
                own.add(m[1])
            camel |= {w for w in WORD.findall(code) if is_camel(w)}
    kit = imported()
    words = {w for w in own | camel if w not in kit and not MADE.match(w)}
    return {w: APART.get(w, snake(w)) for w in words}


def renamed(text, names):
    return WORD.sub(lambda m: names.get(m[0], m[0]), text)


def quoted(text, names):
    """Names in backquotes, as in comments and pages: alone, or behind a crate's path."""
    def one(m):
        return "`" + re.sub(r"[^\s(){}\[\];,.:«»\"`|\\/=]+", lambda w: names.get(w[0], w[0]), m[1]) + "`"
    return re.sub(r"`([^`\n]+)`", one, text)


def antt(text, names):
    out = []
    for line in text.split("\n"):
        code, comment = code_of(line, "--")
        out.append(renamed(code, names) + quoted(comment, names))
    return "\n".join(out)


def rattle(text, names):
    """Clauses and ghost imports alone."""
    out, depth = [], 0
    for line in text.split("\n"):
        code, comment = code_of(line, "//")
        if depth == 0 and re.match(r"\s*(ghost\s|requires\b|ensures\b)", code):
            depth = code.count("{") - code.count("}")
            code = renamed(code, names)
        elif depth > 0:
            depth += code.count("{") - code.count("}")
            code = renamed(code, names)
        out.append(code + quoted(comment, names))
    return "\n".join(out)


def edit(path, names):
    text, out, of = path.read_text(), [], None
    for line in text.split("\n"):
        key, _, rest = line.partition(":")
        if key == "file":
            of = rest.strip()
        if key in ("old", "new") and of:
            rest = antt(rest, names) if of.endswith(".antt") else rattle(rest, names)
            line = key + ":" + rest
        elif line.startswith("#"):
            line = quoted(line, names)
        out.append(line)
    return "\n".join(out)


def main():
    names = renames()
    if "--list" in sys.argv:
        back = collections.defaultdict(list)
        functions = set(re.findall(r"\bfn (\w+)", "\n".join(p.read_text() for p in ROOT.glob("crates/*/src/*.rt"))))
        for old, new in names.items():
            back[new].append(old)
        every = collections.Counter()
        for path in antt_files():
            every.update(WORD.findall(path.read_text()))
        for new, olds in sorted(back.items()):
            together = len(olds) > 1 or every[new] or new in functions
            print(", ".join(olds), "->", new, ("(function)" if new in functions else "") + ("(there: %d)" % every[new] if every[new] else "") + ("(both)" if len(olds) > 1 else "") if together else "")
        return
    for path in antt_files():
        path.write_text(antt(path.read_text(), names))
    for path in sorted(ROOT.glob("crates/*/src/*.rt")):
        path.write_text(rattle(path.read_text(), names))
    for path in sorted(ROOT.glob("crates/*/must-fail/*.edit")):
        path.write_text(edit(path, names))
    for path in [ROOT / "README.md", ROOT / "CONTRIBUTING.md", ROOT / "SECURITY.md", *sorted(ROOT.glob("docs/*.md"))]:
        path.write_text(quoted(path.read_text(), names))


main()
