#!/usr/bin/env bash
# The lines of rivercalls and riverplan go part by part: the library tries a part 64 times and once more a byte, so that a line whose parts were
# kept together would fail where signals interrupt each write thirty times and it moves no more than sixteen bytes.
set -euo pipefail
cd "$(dirname "$0")/.."
export LC_ALL=C

crates=$PWD/crates
work=$(mktemp -d)
trap 'rm -rf "$work"' EXIT
gcc -O2 -std=c11 -Wall -Wextra -Werror -shared -fPIC tests/riverrun/faulty_io.c -o "$work/faulty_io.so"

for name in rivercalls riverplan; do
    status=0
    (cd "$crates/$name/data" && timeout 60 env LD_PRELOAD="$work/faulty_io.so" INTERRUPTED=30 AT_MOST=16 "../out/$name") \
        >"$work/out" 2>"$work/err" || status=$?
    if [ "$status" != 0 ] || ! cmp -s "$crates/$name/stdout" "$work/out"; then
        echo "$name, interrupted: ended with $status, and printed (< wanted, > found)" >&2
        diff -a "$crates/$name/stdout" "$work/out" | head -20 >&2 || true
        cat "$work/err" >&2
        exit 1
    fi
done
echo "lines: rivercalls and riverplan print theirs, though each write is interrupted thirty times"
