#!/usr/bin/env bash
# The static library as its callers see it: the examples in C, C++ and Rust, then the numbers worked out by hand and the
# comparison with the plain Rust engine, then check, month, year and store of both timed in one run. RIVER_LIB_DIR names
# the folder of a libledger.a that is there already; without it the library is proved and built first.
set -euo pipefail
cd "$(dirname "$0")/.."

[ -n "${RIVER_LIB_DIR:-}" ] || bash tools/ledger.sh
RIVER_LIB_DIR=$(cd "${RIVER_LIB_DIR:-target/staticlib}" && pwd)
export RIVER_LIB_DIR
bash tests/native/examples.sh

# Nothing is allocated: of others the library wants the filling and moving of bytes alone.
if nm --undefined-only "$RIVER_LIB_DIR/libledger.a" | grep ' U ' | grep -vE ' mem(cpy|move|set)$'; then
    echo "libledger.a wants these of other libraries" >&2
    exit 1
fi

native() {
    cargo "$1" --release --offline --quiet --manifest-path tests/Cargo.toml --features native "${@:2}"
}
# All tests, those worked out by hand through the library too. Built once, with the library, since a second build costs
# more than the tests. The comparisons are run by themselves, since they tell what they counted.
compared=(native native_month native_year native_store native_stack)
others=()
for test in tests/tests/*; do
    name=$(basename "$test" .rs)
    case " ${compared[*]} " in *" $name "*) ;; *) others+=(--test "$name") ;; esac
done
native test --lib --bins "${others[@]}"

said=$(mktemp)
trap 'rm -f "$said"' EXIT
native test "${compared[@]/#/--test=}" -- --nocapture | tee "$said"
# Adds up what the tests counted.
count() {
    grep -oE "[0-9]+ $1" "$said" | awk '{ sum += $1 } END { print sum }'
}
total="$(count files:) files, $(count boards:) boards, $(count calls,) month calls, $(count refused:) of them refused, \
$(count 'year runs,') year runs, $(count 'turned down:') of them refused, $(count look-ups:) look-ups, \
$(count 'rights asked:') rights asked for short months, $(count 'store calls,') store calls, \
$(count 'sent back:') of them refused"
echo "the library answers as the plain engine: $total"
asked=${RIVER_CALLS:-}${RIVER_YEARS:-}${RIVER_STORE_CALLS:-}${RIVER_SEED:-}
if [ -z "$asked" ] && ! grep -qF "$total" tests/README.md; then
    echo "tests/README.md tells other counts" >&2
    exit 1
fi
native run --bin bench_check
native run --bin bench_month
native run --bin bench_year
native run --bin bench_store
