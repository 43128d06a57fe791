#!/bin/sh
# usage: bench/edits.sh [CRATE..]
#
# Tries the wrong bodies under bench/edits: each changes a line of a crate, and the prover has to refuse it. The gate tries
# those under crates/*/must-fail alone, which tell most, since each takes a check. These are for whoever changes the
# contracts of a crate. With no CRATE all of them are tried, which takes hours.
#
# It works on a copy of the sources. The lines and the status are those of rt must-fail.
set -eu

here=$(cd "$(dirname "$0")/.." && pwd)
[ $# -gt 0 ] || set -- $(ls "$here/bench/edits")
for name; do
    [ -d "$here/bench/edits/$name" ] || { echo "bench/edits.sh: bench/edits has no folder $name" >&2; exit 2; }
done

room=$(mktemp -d)
trap 'rm -rf "$room"' EXIT
trap 'exit 129' HUP
trap 'exit 130' INT
trap 'exit 143' TERM

# What earlier checks left in out/ isn't copied: rt finds it where it lies.
cp "$here/crates.txt" "$here/HANDLES" "$room"
for crate in "$here"/crates/*; do
    name=$(basename "$crate")
    mkdir -p "$room/crates/$name"
    for part in src specs proofs; do
        [ ! -d "$crate/$part" ] || cp -R "$crate/$part" "$room/crates/$name"
    done
done
for name; do
    cp -R "$here/bench/edits/$name" "$room/crates/$name/must-fail"
done

cd "$room"
rt must-fail "$@"
