#!/usr/bin/env bash
# The examples with the library of RIVER_LIB_DIR, each against its stored output: C without a warning, the same as C++
# where there is a compiler for it and under valgrind where that is there, and Rust.
set -euo pipefail
cd "$(dirname "$0")/../.."
library=$RIVER_LIB_DIR/libledger.a
built=$PWD/target/examples
strict=(-O2 -Wall -Wextra -Werror -Iinclude)
mkdir -p "$built"

has() {
    command -v "$1" >/dev/null
}
ways=(C)
! has g++ || ways+=(C++)
! has valgrind || ways+=(valgrind)

build() { # FOLDER NAME
    gcc -std=c11 "${strict[@]}" "$1/$2.c" "$library" -o "$built/$2"
    ! has g++ || g++ "${strict[@]}" -x c++ "$1/$2.c" -x none "$library" -o "$built/$2++"
}
run() { # STORED NAME WORDS...
    for way in "${ways[@]}"; do
        case $way in
        C) "$built/$2" "${@:3}" ;;
        C++) "$built/$2++" "${@:3}" ;;
        valgrind) valgrind -q --error-exitcode=1 "$built/$2" "${@:3}" ;;
        esac | diff - "$1"
    done
}

gcc -std=c11 "${strict[@]}" -fsyntax-only tests/native/places.c
! has g++ || g++ "${strict[@]}" -x c++ -fsyntax-only tests/native/places.c
for name in check verdict fresh month stock short_months year store; do
    build examples "$name"
done
build tests/native refused
build tests/native stores

october=samples/october.basin.bin
run examples/check.expected check samples/*.bin
run examples/verdict.expected verdict
run examples/fresh.expected fresh "$october"
run examples/month.expected month "$october" samples/october.months.bin
run examples/stock.expected stock "$october"
run examples/year.expected year samples/provo.basin.bin samples/provo.book.bin 1964
run examples/short_months.expected short_months samples/provo.basin.bin samples/provo.book.bin 1964
run examples/store.expected store "$october"
run tests/native/refused.expected refused "$october"
run tests/native/stores.expected stores

# The files of rivercheck have its answers. Two cannot be read, which is all that stands on standard error.
mapfile -t files <crates/rivercheck/args
told=$(mktemp)
trap 'rm -f "$told"' EXIT
(cd crates/rivercheck/data && run ../stdout verdict "${files[@]}") 2>"$told"
sort -u "$told" | diff - <(printf '%s\n' 'a_folder: Is a directory' 'no_such_file: No such file or directory')
echo "examples as stored, ${#files[@]} named files answered as listed: ${ways[*]}"

rustc -O --edition 2021 -L "$RIVER_LIB_DIR" -l static=ledger examples/month.rs -o "$built/month.rs"
"$built/month.rs" "$october" 2000 700 300 | diff - examples/month_rs.expected
echo "example as stored: Rust"
