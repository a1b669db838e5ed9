#!/bin/sh
# run.sh ARCHIVE: cycles for one product modulo 8192 by each of the two calls, beside a plain product in C.
# ARCHIVE is the library of the crate that exports saber_poly_mul and saber_poly_mul_karatsuba.
set -eu
here=$(cd "$(dirname "$0")" && pwd)
work=$(mktemp -d)
trap 'rm -rf "$work"' EXIT
cc -O3 -I "$here/../../include" -o "$work/cycles" "$here/cycles.c" "$1"
"$work/cycles"
