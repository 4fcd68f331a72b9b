# What the cases of riveryear.sh are made of: a basin of one station and its book, whose listings are told at sight. Sourced.

# A book: how many bytes a body has, then each year with the file that its body is cut from. To standard output.
book() {
    local body=$1 offset
    shift
    offset=$((4 + 4 * $#))
    number $(($# / 2))
    local bodies=()
    while [ $# -gt 0 ]; do
        numbers "$1" "$offset"
        offset=$((offset + body))
        bodies+=("$2")
        shift 2
    done
    for file in "${bodies[@]}"; do head -c "$body" "$file"; done
}

# October's sheet that many times.
octobers() {
    for _ in $(seq "$1"); do cat "$samples/october.months.bin"; done
}

# One station, number 7, and nothing else: what runs off is all that there is to list.
bare_basin() {
    numbers 32 1 40 0 40 0 40 0 7 1 >basin.bin
}

# The runoff of its years, month by month.
of_1964='1 2 3 4 5 6 7 8 9 10 11 12'
of_1965='100 0 0 0 0 0 0 0 0 0 0 1000000000'
of_1967='5 5 5 5 5 5 5 1000000001 5 5 5 5' # over its limit in May
for year in 1964 1965 1967; do
    runoff=of_$year
    numbers ${!runoff} >"$work/$year"
done

bare_book() {
    book 48 1964 "$work/1964" 1965 "$work/1965" 1967 "$work/1967" >book.bin
}

# Both files, and the words that ask for years.
bare() {
    bare_basin
    bare_book
    asks "$@"
}

asks() {
    words=(basin.bin book.bin "$@")
}

# The lines of years of it, one after another.
lines_of() {
    local month=0 year runoff
    for year in "$@"; do
        for runoff in $year; do
            echo "$month end $runoff 0 0 0"
            month=$((month + 1))
        done
    done
}

year_1964=$(lines_of "$of_1964")
year_1965=$(lines_of "$of_1965")
