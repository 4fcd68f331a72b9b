#!/usr/bin/env bash
# The program riverrun as the rules name it: without arguments, on the basin.bin and months.bin of the folder that it is run in. Each case has a
# folder of its own; compared are standard output, standard error and how the program ended. The first difference is shown and fails the run.
# Argument: the riverrun to test, by default crates/riverrun/out/riverrun.
set -euo pipefail
cd "$(dirname "$0")/.."
export LC_ALL=C # the system's reasons in the words that the cases have

program=$(realpath "${1:-crates/riverrun/out/riverrun}")
samples=$PWD/samples
parts=$PWD/tests/riverrun
cargo build --release --offline --quiet --manifest-path tests/Cargo.toml --bin plain_riverrun --bin write_bench
built=$(realpath "${CARGO_TARGET_DIR:-tests/target}")/release
plain=$built/plain_riverrun
work=$(mktemp -d)
# A writer into a pipe may outlive a case that fails.
trap 'kill $(jobs -p) 2>/dev/null || true; rm -rf "$work"' EXIT

. "$parts/judge.sh"
. "$parts/files.sh"
. "$parts/streams.sh"
. "$parts/long.sh"

echo "riverrun: $cases cases as wanted; $lines lines compared with the plain program's"
