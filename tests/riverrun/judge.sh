# How a case of riverrun.sh or riveryear.sh is run and judged, and what the cases are made of. Sourced.
# From there: program, the program; plain, the plain one of the same job; parts, the folder of this file; samples, the folder of the sample
# rivers; work, a folder for everything that is written.

# ---- how a case is run and judged ----

cases=0
lines=0
called=$(basename "$program")
mkdir "$work/cases"
# A fresh folder, into which what follows puts the two files. The words that the program is run with are none at first.
begin() {
    name=$1
    words=()
    mkdir "$work/cases/$name"
    cd "$work/cases/$name"
}

# Whoever called this script may have SIGPIPE ignored, which is handed down; a program that hangs is ended. Arguments: those of env.
launch() {
    timeout 20 env --default-signal=PIPE "$@" "$program" "${words[@]}"
}

run() {
    status=0
    launch "$@" >"$work/out" 2>"$work/err" || status=$?
}

not_as_wanted() {
    echo "$called, case $name: $1 (< wanted, > found)" >&2
    head -20 "$work/difference" >&2
    exit 1
}

# Compares the run with its status, with what it is to say on standard error, and with the file of what it is to print.
judge() {
    printf '%s' "${2:+$2$'\n'}" >"$work/wanted_err"
    diff <(echo "$1") <(echo "$status") >"$work/difference" || not_as_wanted "how it ended"
    diff -a "$work/wanted_err" "$work/err" >"$work/difference" || not_as_wanted "standard error"
    diff -a "$3" "$work/out" >"$work/difference" || not_as_wanted "standard output"
    cases=$((cases + 1))
}

# The same, with the lines that it is to print.
wants() {
    local status_wanted=$1 said=$2
    shift 2
    if [ $# -gt 0 ]; then printf '%s\n' "$@"; fi >"$work/wanted_out"
    judge "$status_wanted" "$said" "$work/wanted_out"
}

# The plain program's listing of the files of the folder.
plain_listing() {
    "$plain" "${words[@]}" >plain
}

# Compares the run with it. Arguments: what is to be said on standard error; the last line, where the rules tell it.
wants_the_plain_listing() {
    lines=$((lines + $(wc -l <plain)))
    if [ $# -gt 1 ]; then
        diff <(echo "$2") <(tail -n 1 "$work/out") >"$work/difference" || not_as_wanted "the last line"
    fi
    judge 0 "$1" plain
}

both() {
    plain_listing
    run
    wants_the_plain_listing '' "$@"
}

# ---- what is read and written as no plain file shows it ----

# A pipe that a file is written to, a byte with each write.
trickle() {
    mkfifo "$1"
    timeout 20 dd if="$2" of="$1" bs=1 status=none &
}

# Reads and writes that are interrupted, short, or fail in the middle.
gcc -O2 -std=c11 -Wall -Wextra -Werror -shared -fPIC "$parts/faulty_io.c" -o "$work/faulty_io.so"
faulty="LD_PRELOAD=$work/faulty_io.so"

if ! [ -c /dev/full ]; then # to write there would make a plain file of that name
    echo "$called: there is no device /dev/full to write to" >&2
    exit 1
fi
# Nothing that is printed is taken.
run_on_a_full_device() {
    status=0
    launch >/dev/full 2>"$work/err" || status=$?
    : >"$work/out"
}

# ---- files ----

# A number of four bytes, the least first.
number() {
    printf "$(printf '\\x%02x\\x%02x\\x%02x\\x%02x' $(($1 & 255)) $(($1 >> 8 & 255)) $(($1 >> 16 & 255)) $(($1 >> 24 & 255)))"
}

numbers() {
    for n in "$@"; do number "$n"; done
}

# Puts one byte, given in hexadecimal, in a place of a file.
put() {
    printf "\\x$3" | dd of="$1" bs=1 seek="$2" conv=notrunc status=none
}

# Writes the file on itself that many times, doubling it.
double() {
    for _ in $(seq "$2"); do
        cat "$1" "$1" >"$1.twice"
        mv "$1.twice" "$1"
    done
}

# Thirteen sheets of three stations, dry, usual and at the limit: over and over they come in other months of each year that follows.
thirteen_sheets() {
    for sheet in '2000 700 300' '0 0 0' '5 0 1' '900 900 900' '0 3000 0' '1500 0 0' '1000000000 1000000000 1000000000' \
        '1 1 1' '0 0 4000' '700 1201 0' '3000 2000 1000' '50 50 50' '0 0 1500'; do
        numbers $sheet
    done
}

# Makes the patterns of the largest basin, sixteen of twelve bytes from 1088 on, lose water: the first all of it, the others every third percent.
lose_water() {
    local at
    for at in $(seq 1088 1099) $(seq 1100 3 1279); do put basin.bin "$at" 00; done
}

october_basin() {
    cp "$samples/october.basin.bin" basin.bin
}

october_months() {
    cp "$samples/october.months.bin" months.bin
}

october() {
    october_basin
    october_months
}

# ---- texts ----

header='MONTH PERMIT RIVER STORE WHY AT'
# As the rules print it (01, One October, whole).
october='0 11 1500 0 0 0
0 12 1201 0 0 0
0 13 701 0 2 300
0 14 0 600 0 0
0 15 0 0 1 100
0 end 0 75 1026 403'
# The same sheet again, worked out by hand. Flow is 2000, 2700 and, with the 242 due, 3242. 11 and 12 are whole; 805 return as before, 402 of them
# at once. 13 demands 900 of 2000, 1499, 943 and has them. 14 finds 599 and 43: 43 from the river, 557 from storage. 15 finds nothing at 300.
# Stored: 1026 + 900 - 557. On their way: 161 and again 242 and 161.
november='1 11 1500 0 0 0
1 12 1201 0 0 0
1 13 900 0 0 0
1 14 43 557 0 0
1 15 0 0 2 300
1 end 0 0 1369 564'
missing='No such file or directory'
