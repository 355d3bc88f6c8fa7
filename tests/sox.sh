#!/usr/bin/env bash
# Compares our mu-law decoding with that of sox: tests/sox.sh [SURVEY]
# SURVEY is the program `survey`, called as: SURVEY --mulaw FILE --write OUT
# sox itself is first held to G.711's published values. Not part of the gate.
set -euo pipefail
cd "$(dirname "$0")/.."

skip() {
    echo "skipped: $1"
    exit 0
}

fail() {
    echo "FAILED: $1 (files kept in $work)"
    trap - EXIT
    exit 1
}

# 16-bit samples, the low byte first, as sox decodes the mu-law bytes of $1; -D: no dither
by_sox() {
    sox -D -t raw -r 48000 -c 1 -e mu-law -b 8 "$1" \
        -t raw -e signed-integer -b 16 --endian little "$2"
}

# four times the published value of each byte from 00 to FF, one to a line
published() {
    sed -n '/^const PUBLISHED/,/^];/p' crates/vectors/src/g711.rt | sed 1d | grep -o '[0-9]*' |
        awk '{ size[NR - 1] = 4 * $1 }
             END {
                 if (NR != 128) exit 1
                 for (b = 0; b < 128; b++) print -size[127 - b]
                 for (b = 128; b < 256; b++) print size[255 - b]
             }'
}

if [ $# -ge 1 ] && [ ! -x "$1" ]; then
    echo "FAILED: $1 is no program"
    exit 1
fi
command -v sox >/dev/null || skip "sox is not installed (apt-get install sox)"

work=$(mktemp -d)
trap 'rm -rf "$work"' EXIT

for b in $(seq 0 255); do printf "\\x$(printf %02x "$b")"; done >"$work/all.ul"
head -c 1000001 /dev/urandom >"$work/random.ul"
for name in all random; do by_sox "$work/$name.ul" "$work/$name.sox"; done

published >"$work/published" || fail "the 128 published values were not found"
od -An -v -td2 -w2 --endian=little "$work/all.sox" | tr -d ' ' >"$work/all.values"
cmp "$work/published" "$work/all.values" || fail "sox differs from the published values"
echo "ok: sox decodes all 256 bytes to four times the published values"

[ $# -ge 1 ] || skip "no binary given, so only sox was looked at"

for name in all random; do
    "$1" --mulaw "$work/$name.ul" --write "$work/$name.ours" || fail "$1 refuses $name.ul"
    cmp "$work/$name.sox" "$work/$name.ours" || fail "$1 differs from sox at $name.ul"
    echo "ok: $1 and sox write the same samples for $name.ul"
done
