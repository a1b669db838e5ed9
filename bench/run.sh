#!/bin/sh
# Builds the archive and measures it: the scheme beside others, the ring products and the secrets beside plain C, the
# hashes beside OpenSSL's; and a group of marginreport beside keygen, where `tools/build.sh` has built that program.
set -eu
cd "$(dirname "$0")/.."
tools/build.sh archive
archive=target/staticlib/libsaber.a
python3 bench/scheme/run.py "$archive"
echo
sh bench/product/run.sh "$archive"
echo
sh bench/sampling/run.sh "$archive"
if [ -x target/bin/marginreport ]; then
    echo
    python3 bench/margin/run.py "$archive" target/bin/marginreport
fi
if command -v openssl >/dev/null; then
    echo
    sh bench/hash/run.sh "$archive"
fi
