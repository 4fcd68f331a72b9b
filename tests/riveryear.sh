#!/usr/bin/env bash
# The program riveryear on a basin, a book and years of it. Each case has a folder of its own; compared are standard output, standard error and
# how the program ended. The first difference is shown and fails the run. Argument: the riveryear to test, by default crates/riveryear/out/riveryear.
set -euo pipefail
cd "$(dirname "$0")/.."
export LC_ALL=C # the system's reasons in the words that the cases have

program=$(realpath "${1:-crates/riveryear/out/riveryear}")
samples=$PWD/samples
crates=$PWD/crates
parts=$PWD/tests/riverrun
years=$PWD/tests/riveryear
cargo build --release --offline --quiet --manifest-path tests/Cargo.toml --bin plain_riveryear --bin write_bench --bin write_book
built=$(realpath "${CARGO_TARGET_DIR:-tests/target}")/release
plain=$built/plain_riveryear
work=$(mktemp -d)
# A writer into a pipe may outlive a case that fails.
trap 'kill $(jobs -p) 2>/dev/null || true; rm -rf "$work"' EXIT

. "$parts/judge.sh"
. "$years/books.sh"
. "$years/words.sh"
. "$years/files.sh"
. "$years/streams.sh"
. "$years/long.sh"

echo "riveryear: $cases cases as wanted; $lines lines compared with the plain program's"
