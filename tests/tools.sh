# What the gate and the tests need, for .ci/run and tests/run.sh to source at their start. If something required is not
# there, it says so and ends them. Tests that need one of the other tools are skipped, which is said here and again
# where they would have run.

# The oldest Rust that the package takes.
rust=$(sed -n 's/^rust-version = "\([0-9.]*\)"$/\1/p' bindings/rust/Cargo.toml)
if [ -z "$rust" ]; then
    echo 'bindings/rust/Cargo.toml: no rust-version is found' >&2
    exit 1
fi

# oldest TOOL: the oldest version of it that will do; nothing where any will.
oldest() {
    case $1 in
    python3) echo 3.10 ;;
    cargo | rustc) echo "$rust" ;;
    esac
}

# source_of TOOL: what it is a part of.
source_of() {
    case $1 in
    rt) echo 'the Rattle kit, no Debian package' ;;
    cc) echo 'Debian package: gcc' ;;
    c++) echo 'Debian package: g++' ;;
    objdump) echo 'Debian package: binutils' ;;
    *) echo "Debian package: $1" ;;
    esac
}

# why_not TOOL: why a tool cannot be used; nothing where it can. A version is the second word that a tool prints of it.
# cargo runs rustc.
why_not() {
    if ! command -v "$1" >/dev/null 2>&1; then
        echo "no $1; $(source_of "$1")"
        return
    fi
    least=$(oldest "$1")
    if [ -n "$least" ]; then
        version=$("$1" --version 2>/dev/null | cut -d ' ' -f 2) || version=
        if [ "$(printf '%s\n' "$least" "$version" | sort -V | head -n 1)" != "$least" ]; then
            echo "$1 ${version:-of an unknown version}; $least or later is needed"
            return
        fi
    fi
    if [ "$1" = cargo ]; then why_not rustc; fi
}

# has TOOL: is there such a tool, and is it new enough?
has() {
    [ -z "$(why_not "$1")" ]
}

there=
lacking=
for tool in rt python3 cc c++ objdump; do
    if has "$tool"; then
        there="$there $tool"
    else
        echo "required: $(why_not "$tool")" >&2
        lacking=1
    fi
done
if [ -n "$lacking" ]; then exit 1; fi
for tool in valgrind clang cargo; do
    if has "$tool"; then there="$there $tool"; fi
done
echo "tools:$there"
echo "kit: $(rt --version)"
has valgrind || echo "skipped: tests under valgrind ($(why_not valgrind))"
has clang || echo "skipped: tests built by clang ($(why_not clang))"
has cargo || echo "skipped: tests of the Rust package ($(why_not cargo))"
