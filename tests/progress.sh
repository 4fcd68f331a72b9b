#!/usr/bin/env bash
# What `make run` shows of the proofs: a line for a crate that is proved, everything of one that is not, then what the
# program writes, and the same end as the command's.
set -euo pipefail
cd "$(dirname "$0")/.."

expect() { # STATUS SAID SHOWN
    local status=0 shown
    shown=$(bash tools/progress.sh bash -c 'printf "%s\n" "$2" >&2; exit "$1"' said "$1" "$2") || status=$?
    if [ "$status" != "$1" ] || [ "$shown" != "$3" ]; then
        printf 'ended with %s, not %s, and showed:\n%s\n' "$status" "$1" "$shown" >&2
        exit 1
    fi
}

expect 0 'rt: general: begins with what a check kept in another copy
rt: chose --jobs 2 for general
note: of the prover
fn general::sum: proved
crate general: modules loaded=27 checked=6
logic=proved functions=1 sum=dac8208d650f15bf logic-built=trusted
rt: chose --jobs 2 for riverrun
fn riverrun::main: proved
logic=proved functions=1 axioms=3 logic-built=trusted
linked target=x86_64-unknown-linux-gnu
rt: running out/riverrun; to give it other input, run that file yourself
MONTH PERMIT RIVER STORE WHY AT
refused 1 0' 'proved general
proved riverrun
MONTH PERMIT RIVER STORE WHY AT
refused 1 0'

expect 1 'rt: chose --jobs 2 for general
note: of the prover
logic=proved functions=1
rt: chose --jobs 2 for rules
note: it is not proved that this holds
fn rules::path: no proof
logic=not-proved
rt: the library rules did not build, so nothing above it was checked' 'proved general
note: it is not proved that this holds
fn rules::path: no proof
logic=not-proved
rt: the library rules did not build, so nothing above it was checked'

expect 3 'rt: nothing has changed since the last proved build, by out/riverrun.stamp, so nothing is checked now
rt: running out/riverrun; to give it other input, run that file yourself
months.bin: No such file or directory' 'proved before, and nothing has changed since
months.bin: No such file or directory'

expect 2 'stopped in the middle' 'stopped in the middle'
echo "progress: shown as wanted in 4 cases"
