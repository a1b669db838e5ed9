#!/bin/sh
# The library as its users meet it, a test a line. Needs the programs that `tools/build.sh` builds, and builds the archive.
# tests/README.md lists the tests: one that is run and not listed there, or listed and not run, fails at the end.
set -eu
cd "$(dirname "$0")/.."
. tests/tools.sh
if [ ! -x target/bin/sabercall ]; then
    echo 'target/bin/sabercall is missing: run `tools/build.sh` first' >&2
    exit 1
fi
archive=target/staticlib/libsaber.a
work=$(mktemp -d)
beside= # the process of the test that runs beside the others
trap 'kill $beside 2>/dev/null || :; rm -rf "$work"' EXIT
export PYTHONDONTWRITEBYTECODE=1 CARGO_TARGET_DIR=target/rust
passed=0
skipped=0
needed= # the tool without which a test is skipped

# test_of TITLE COMMAND..: runs the command and says how many seconds it took. The first that fails ends the script.
test_of() {
    title=$1
    shift
    echo "$title | $needed" >>"$work/tried"
    echo "-- $title"
    started=$(date +%s)
    "$@" || {
        echo "FAILED: $title"
        exit 1
    }
    echo "-- $title: $(($(date +%s) - started)) s"
    passed=$((passed + 1))
}

# test_with TOOL TITLE COMMAND..: the same, where there is such a tool.
test_with() {
    needed=$1
    shift
    if has "$needed"; then
        test_of "$@"
    else
        echo "$1 | $needed" >>"$work/tried"
        echo "skipped: $1 ($(why_not "$needed"))"
        skipped=$((skipped + 1))
    fi
    needed=
}

# test_beside TITLE COMMAND..: the same as test_of, beside the tests that follow; `joined` waits for it.
test_beside() {
    test_of "$@" >"$work/beside" 2>&1 &
    beside=$!
}

joined() {
    wait "$beside" || {
        cat "$work/beside"
        exit 1
    }
    cat "$work/beside"
    beside=
    passed=$((passed + 1))
}

# c99 OUTPUT SOURCE..: builds a program with the archive.
c99() {
    output=$1
    shift
    cc -std=c99 -O2 -Wall -Wextra -pedantic -Werror -Iinclude -Ioracle -o "$work/$output" "$@" "$archive"
}

test_beside 'margins against the oracle' python3 tests/margins.py
test_of 'the archive' tools/build.sh archive
test_of 'the header as C++17' \
    c++ -std=c++17 -Wall -Wextra -pedantic -Werror -fsyntax-only -Iinclude -x c++ tests/round_trip.c
test_of 'the header as C99' c99 round_trip tests/round_trip.c
test_of 'a round trip in C' "$work/round_trip"
test_with valgrind 'a round trip under valgrind' \
    valgrind --quiet --leak-check=full --error-exitcode=1 "$work/round_trip"
test_of 'divisions' python3 tests/divisions.py
test_with valgrind 'jumps and addresses that depend on secrets' python3 tests/secrets.py
test_with valgrind 'instructions of decapsulation, accepted and rejected' python3 tests/counts.py
test_of 'what the calls leave on the stack, and its clearing' python3 tests/stack.py
test_of 'the test of thread stacks, built' c99 thread_stacks tests/thread_stacks.c -pthread -Wl,-z,lazy
test_of 'the least stack of a thread' env -u LD_BIND_NOW "$work/thread_stacks"
test_of 'the test of threads, built' c99 threads tests/threads.c oracle/plain.c -pthread
test_of 'calls in several threads against the plain implementation' "$work/threads" 3
test_of 'the test of unread memory, built' c99 unread tests/unread.c
test_of 'refused calls on memory that cannot be read' "$work/unread"
test_of 'random calls against the oracle' python3 tests/differential.py
test_of 'records, sound and mutated, against the oracle' python3 tests/records.py
test_of 'the plain implementation on the known answers' python3 tests/plain.py
test_of 'the comparison with the plain implementation, built' c99 agree tests/agree.c oracle/plain.c
test_of 'random calls against the plain implementation' "$work/agree" 2000
test_of 'sabercall under hostile input' python3 tests/hostile.py
test_of 'sabercall on the known answers' python3 tests/kat.py
test_of 'programs whose input or output fails' python3 tests/failing.py
test_of 'README: its example, shell lines, table and numbers' python3 tests/readme.py
test_with cargo 'README: its Rust example' python3 tests/readme.py rust
test_with cargo 'the Rust package' cargo test --offline --quiet --manifest-path bindings/rust/Cargo.toml
test_with cargo 'the Rust package, optimised' \
    cargo test --release --offline --quiet --manifest-path bindings/rust/Cargo.toml
test_with cargo 'the archive where SABER_LIB_DIR says' python3 tests/lib_dir.py
joined

# The tests that were run or skipped against the list, each as `TITLE | TOOL`.
awk -F ' *[|] *' 'rows && /^[|]/ { print $2 " | " $4 } /^[|]---/ { rows = 1 }' tests/README.md | sort >"$work/listed"
sort "$work/tried" | diff "$work/listed" - >"$work/differences" || {
    sed -n 's/^< /listed in tests\/README.md and not run: /p; s/^> /run and not listed in tests\/README.md: /p' \
        "$work/differences"
    exit 1
}
# Every script and program of this folder is run above or in .ci/run, or another one uses it.
for file in tests/*.py tests/*.c; do
    name=${file#tests/}
    name=${name%.*}
    grep -q "$file" .ci/run tests/run.sh || grep -Eq "^(from|import) $name\b|linked\(\"$name\"|\"$file\"" tests/*.py || {
        echo "no test runs $file"
        exit 1
    }
done
echo "tests passed: $passed, skipped: $skipped"
