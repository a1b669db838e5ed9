#!/bin/sh
# run.sh ARCHIVE [ROUNDS]: the speed of SHA3-256 and SHAKE-128 beside OpenSSL's.
# ARCHIVE is the library of the crate that exports saber_sha3_256 and saber_shake128.
# The two take turns of a second, ROUNDS times (5 if not given), and the best turn of each counts.
set -eu
here=$(cd "$(dirname "$0")" && pwd)
archive=$1
rounds=${2:-5}
work=$(mktemp -d)
trap 'rm -rf "$work"' EXIT
cc -O2 -I "$here/../../include" -o "$work/speed" "$here/speed.c" "$archive"

theirs() {
    openssl speed -mr -seconds 1 -bytes "$2" -evp "$1" 2>/dev/null | awk -F: '$1 == "+F" { printf "%.0f\n", $4 }'
}

printf '%-9s %7s %12s %12s %7s\n' hash bytes 'saber kB/s' 'openssl kB/s' ratio
for hash in sha3-256 shake128; do
    for bytes in 16 64 256 1024 8192 16384; do
        i=0
        while [ "$i" -lt "$rounds" ]; do
            echo "$("$work/speed" "$hash" "$bytes" 1) $(theirs "$hash" "$bytes")"
            i=$((i + 1))
        done | awk -v h="$hash" -v b="$bytes" '
            { if ($1 > s) s = $1; if ($2 > o) o = $2 }
            END { printf "%-9s %7d %12.0f %12.0f %7.2f\n", h, b, s / 1000, o / 1000, s / o }'
    done
done
