#!/usr/bin/env bash
# Times the program riverrun against the plain Rust program of the same job, on years of the largest basin: both in turn, medians and their ratio; instructions of both where valgrind is there.
# Argument: the riverrun to time, by default crates/riverrun/out/riverrun. BENCH_MONTHS and BENCH_RUNS: how much is run.
set -euo pipefail
cd "$(dirname "$0")/.."

riverrun=$(realpath "${1:-crates/riverrun/out/riverrun}")
months=${BENCH_MONTHS:-2400}
runs=${BENCH_RUNS:-21}
folder=$(mktemp -d)
trap 'rm -rf "$folder"' EXIT

cargo build --release --offline --quiet --manifest-path tests/Cargo.toml --bin plain_riverrun --bin write_bench
built=$(realpath "${CARGO_TARGET_DIR:-tests/target}")/release
plain=$built/plain_riverrun
"$built/write_bench" "$folder" "$months"
cd "$folder"

"$riverrun" >listing
"$plain" >plain_listing
cmp listing plain_listing
echo "listings: $(wc -l <listing) lines, the same byte for byte"

# Microseconds that a run takes.
time_of() {
    local start=$EPOCHREALTIME
    "$1" >/dev/null
    local end=$EPOCHREALTIME
    echo $((${end/./} - ${start/./}))
}
median() {
    sort -n "$1" | sed -n "$(((runs + 1) / 2))p"
}
for _ in $(seq "$runs"); do
    time_of "$riverrun" >>riverrun_times
    time_of "$plain" >>plain_times
done
ours=$(median riverrun_times)
theirs=$(median plain_times)
echo "months riverrun_us plain_us ratio (medians of $runs runs)"
echo "$months $ours $theirs $(awk "BEGIN { printf \"%.3f\", $ours / $theirs }")"

# Instructions of a month: what a run of 72 months has more than one of 12, so that the start of a program does not count.
instructions() {
    head -c $((4 * 64 * $2)) "$folder/months.bin" >"$folder/short/months.bin"
    (cd "$folder/short" && valgrind --tool=cachegrind --cache-sim=no --cachegrind-out-file=/dev/null "$1" 2>&1 >/dev/null) |
        sed -n 's/,//g; s/.*I *refs: *//p'
}
if command -v valgrind >/dev/null; then
    mkdir short
    cp basin.bin short
    ours=$((($(instructions "$riverrun" 72) - $(instructions "$riverrun" 12)) / 60))
    theirs=$((($(instructions "$plain" 72) - $(instructions "$plain" 12)) / 60))
    echo "instructions of a month: riverrun $ours, plain $theirs, ratio $(awk "BEGIN { printf \"%.3f\", $ours / $theirs }")"
fi
