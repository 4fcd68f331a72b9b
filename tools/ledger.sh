#!/usr/bin/env bash
# Proves the library for C and the crates below it, where they have changed, and writes target/staticlib/libledger.a.
#     bash tools/ledger.sh
# With --after-ci, as the gate calls it, the crates below are those that `rt ci` has just proved and left in out/. `rt lib`
# does not take these and would prove each of them once more; so the compiler, which proves what it builds, is asked itself.
set -euo pipefail
cd "$(dirname "$0")/../crates/ledger"

over_what_ci_proved() {
    local kit name words=()
    kit=$(dirname "$(rt doc)")
    for name in $(sed -nE 's/^ledger staticlib: *//p' ../../crates.txt); do
        words+=(--extern "$name=../$name/out/rlib/$name.rlib")
    done
    for name in ../*/out/rlib; do
        words+=(-L "dependency=$name")
    done
    "$kit/bin/rattle" build --crate-name ledger src/lib.rt --crate-type staticlib "${words[@]}" \
        --extern "std=$kit/rlibs/std.rlib" -L "dependency=$kit/rlibs" --links ledger= \
        --antt-project "$kit/rattle/logic/antt-project.json" --logic-built "$kit/logic_built" \
        --toolchain "$kit/toolchain" --backend llvm -o out/libledger.a
}

mkdir -p out
rm -f out/libledger.a
# A stamp says that a check built the crate and not `rt ci`; such crates do not go together with the others.
if [ "${1:-}" != --after-ci ] || compgen -G '../*/out/rlib/stamp' >/dev/null || ! over_what_ci_proved; then
    bash ../../tools/progress.sh rt lib
fi
mkdir -p ../../target/staticlib
cp out/libledger.a ../../target/staticlib
