#!/bin/sh
# run.sh ARCHIVE: cycles for the secret of a seed in each set, beside SHAKE-128 alone and beside plain C.
# ARCHIVE is the library of the crate that exports saber_gen_secret and saber_shake128.
set -eu
here=$(cd "$(dirname "$0")" && pwd)
work=$(mktemp -d)
trap 'rm -rf "$work"' EXIT
cc -O3 -I "$here/../../include" -o "$work/cycles" "$here/cycles.c" "$1"
"$work/cycles"
