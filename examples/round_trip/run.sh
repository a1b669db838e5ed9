#!/usr/bin/env bash
# A first round trip: builds the library's archive if it is not there, then round_trip.c of this folder, and runs it.
set -euo pipefail
cd "$(dirname "$0")/../.."
archive=target/staticlib/libsaber.a
program=target/round_trip

# The kit is needed for the archive alone.
needed=(cc)
[ -f "$archive" ] || needed=(rt cc)
missing=0
for tool in "${needed[@]}"; do
    if ! command -v "$tool" >/dev/null; then
        case $tool in
        rt) echo "missing: rt, the Rattle kit" >&2 ;;
        cc) echo "missing: cc, a C compiler (Debian package: gcc)" >&2 ;;
        esac
        missing=1
    fi
done
if [ "$(uname -sm)" != "Linux x86_64" ]; then
    echo "missing: Linux on x86-64 (this is $(uname -sm))" >&2
    missing=1
fi
[ "$missing" = 0 ] || exit 1

if [ ! -f "$archive" ]; then
    echo "There is no $archive yet. With an older kit, proving and building the library took 5 to 10 minutes."
    tools/build.sh archive
fi
cc -std=c99 -O2 -Wall -Wextra -pedantic -Iinclude -o "$program" examples/round_trip/round_trip.c "$archive"
"$program"
