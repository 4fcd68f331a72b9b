#!/usr/bin/env bash
# Runs a command that proves crates and shows how far it is: a line for each crate that is proved, and of one that fails
# all that was said of it. Once a program runs, what it writes is shown as it is. It ends as the command does.
#     cd crates/riverrun && bash ../../tools/progress.sh rt run -- BASIN MONTHS
set -uo pipefail

begins='^rt: chose --jobs [0-9]+ for ([a-z0-9_]+)$'

show() {
    local line crate='' held=''
    while IFS= read -r line || [ -n "$line" ]; do
        if [[ $line =~ $begins ]]; then
            crate=${BASH_REMATCH[1]}
            held=''
        elif [[ $line == 'logic=proved '* ]]; then
            echo "proved $crate"
            held=''
        elif [[ $line == 'rt: nothing has changed since the last proved build'* ]]; then
            echo "proved before, and nothing has changed since"
        elif [[ $line == 'rt: running '* ]]; then
            cat
            return
        elif [[ $line != 'rt: '*': begins with what a check kept in '* ]]; then
            # What the prover says of a crate comes before its verdict, and matters where that is a failure.
            held+=$line$'\n'
        fi
    done
    printf '%s' "$held"
}

"$@" 2>&1 | show
