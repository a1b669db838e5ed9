#!/usr/bin/env bash
# Builds what the examples and the tests use, and lays it where they look: the library's archive at target/staticlib, and
# the programs sabercall, saberset and marginreport in target/bin. Where nothing has changed since, it does nothing.
#
#   tools/build.sh             all of it
#   tools/build.sh archive     the archive alone
#   tools/build.sh programs    the programs alone
#   tools/build.sh after-ci    all of it, with the programs as `rt ci` has just built them here
#
# `rt` proves a crate before it builds it, and keeps its work in crates/*/out. The archive runs on any x86-64.
set -euo pipefail
cd "$(dirname "$0")/.."
what=${1:-all}
case $what in
all | archive | programs | after-ci) ;;
*)
    sed -n '2,/^set /s/^# \{0,1\}//p' "$0" >&2
    exit 2
    ;;
esac
if ! command -v rt >/dev/null; then
    echo 'missing: rt, the Rattle kit' >&2
    exit 1
fi

log=$(mktemp)
trap 'rm -f "$log"' EXIT

# sum: of the kit, and of all that `rt` builds from.
sum() {
    {
        rt version
        sha256sum tools/build.sh crates.txt
        find crates -type f \( -path 'crates/*/src/*' -o -path 'crates/*/specs/*' -o -path 'crates/*/proofs/*' \) \
            -not -path 'crates/*/out/*' -print0 | LC_ALL=C sort -z | xargs -0 --no-run-if-empty sha256sum
    } | sha256sum
}

# is_new NAME FILE..: are the files there, and built from what is there now?
is_new() {
    local stamp=target/built/$1 file
    shift
    for file in "$@"; do [ -f "$file" ] || return 1; done
    [ "$(cat "$stamp" 2>/dev/null)" = "$now" ]
}

# in_crate NAME COMMAND..: runs it in the crate's folder with nothing to read. Lines of rt's own are shown, and all that it
# prints where it fails.
in_crate() {
    local crate=$1
    shift
    (cd "crates/$crate" && "$@") </dev/null 2>&1 | tee "$log" | sed -u -n '/^rt: /p' || {
        cat "$log" >&2
        echo "crates/$crate: $* failed" >&2
        exit 1
    }
}

# laid FROM TO: copies a file to its place at once.
laid() {
    mkdir -p "$(dirname "$2")"
    cp "$1" "$2.new"
    mv "$2.new" "$2"
}

archive() {
    local file=target/staticlib/libsaber.a
    if is_new archive "$file"; then return; fi
    in_crate saber rt lib --cpu x86-64
    laid crates/saber/out/libsaber.a "$file"
    mark archive
}

programs() {
    local names=(sabercall saberset marginreport) name
    if is_new programs "${names[@]/#/target/bin/}"; then return; fi
    for name in "${names[@]}"; do
        [ "$what" = after-ci ] || in_crate "$name" rt run
        laid "crates/$name/out/$name" "target/bin/$name"
    done
    mark programs
}

# mark NAME: notes what has been built, unless a file has changed meanwhile.
mark() {
    mkdir -p target/built
    rm -f "target/built/$1"
    if [ "$(sum)" = "$now" ]; then echo "$now" >"target/built/$1"; fi
}

now=$(sum)
case $what in
archive) archive ;;
programs) programs ;;
*)
    programs
    archive
    ;;
esac
