#!/usr/bin/env bash
# Proves the crates with C names, or those of them that are named, and puts libjuzambore.a and libgauge.a into
# target/staticlib.
#
#     host/libraries.sh [NAME..]
set -eu
cd "$(dirname "$0")/.."
said=$(mktemp)
trap 'rm "$said"' EXIT
[ $# -gt 0 ] || set -- juzambore gauge
mkdir -p target/staticlib
for name; do
    (cd "crates/$name" && rt lib) > "$said" 2>&1 || { tail -n 20 "$said"; exit 1; }
    cp "crates/$name/out/lib$name.a" target/staticlib/
done
