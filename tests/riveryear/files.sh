# Cases of riveryear.sh: the two files, there or not, whole or not. Sourced.

# ---- a file that is missing, can't be opened, is empty, is a directory ----

begin basin_missing
bare_book
asks 1964
run
wants 0 "basin.bin: $missing" "$header" 'refused 1 0'

begin basin_missing_and_no_year
asks
run
wants 0 "basin.bin: $missing" "$header" 'refused 1 0'

begin book_missing
bare_basin
asks 1964
run
wants 0 "book.bin: $missing" "$header" 'refused 9 0'

# There, but not to be opened, by root either.
begin basin_not_to_be_opened
bare_book
ln -s basin.bin basin.bin
asks 1964
run
wants 0 'basin.bin: Too many levels of symbolic links' "$header" 'refused 1 0'

begin book_not_to_be_opened
bare_basin
ln -s book.bin book.bin
asks 1964
run
wants 0 'book.bin: Too many levels of symbolic links' "$header" 'refused 9 0'

begin basin_empty
bare_book
: >basin.bin
asks 1964
run
wants 0 '' "$header" 'refused 1 0'

begin book_empty
bare_basin
: >book.bin
asks 1964
run
wants 0 '' "$header" 'refused 9 0'

# A directory opens, and no read of it succeeds.
begin basin_is_a_directory
bare_book
mkdir basin.bin
asks 1964
run
wants 0 'basin.bin: Is a directory' "$header" 'refused 1 0'

begin book_is_a_directory
bare_basin
mkdir book.bin
asks 1964
run
wants 0 'book.bin: Is a directory' "$header" 'refused 9 0'

# ---- a basin that is refused: nothing is asked of the book ----

for which in there bad missing directory pipe; do
    for year in 1964 ''; do
        begin "basin_refused_book_$which${year:+_and_a_year}"
        october_basin
        put basin.bin 375 63 # a right without return points has efficiency 100
        case $which in
        there) bare_book ;;
        bad) number 21 >book.bin ;;
        missing) ;;
        directory) mkdir book.bin ;;
        pipe) mkfifo book.bin ;; # nobody writes to it: to open it would be to wait
        esac
        asks $year
        run
        wants 0 '' "$header" 'refused 5 3'
    done
done

# ---- a book that breaks its layout: one thing wrong each ----

# Arguments: a name; what is done to a good book.
broken_book() {
    begin "book_$1"
    bare 1964 1965
    "${@:2}"
    run
    wants 0 '' "$header" 'refused 9 0'
}
# Puts a number in a place of the book: the number of years at 0, the year and the offset of place i at 4 + 8i and 8 + 8i.
number_at() {
    number "$2" | dd of=book.bin bs=1 seek="$1" conv=notrunc status=none
}
cut_to() {
    head -c "$1" book.bin >part
    mv part book.bin
}
for bytes in 1 2 3 4 12 27 171; do
    broken_book "cut_to_$bytes" cut_to "$bytes"
done
for count in 0 1 2 4 21 259 536870915 1073741827 4294967295; do
    broken_book "of_$count" number_at 0 "$count"
done
for year in 0 1799 1965 1966 2201 4294967295; do
    broken_book "first_year_$year" number_at 4 "$year"
done
for year in 1963 1964 1967 1968 2201; do
    broken_book "second_year_$year" number_at 12 "$year"
done
for offset in 0 27 29 32 76 4294967276 4294967295; do
    broken_book "first_offset_$offset" number_at 8 "$offset"
done
for offset in 28 75 77 124 65612; do
    broken_book "second_offset_$offset" number_at 16 "$offset"
done
longer() {
    head -c "$1" /dev/zero >>book.bin
}
for bytes in 1 4 48 100000; do
    broken_book "longer_by_$bytes" longer "$bytes"
done
# A byte before the second body, and offsets that tell where the bodies are.
gap() {
    { head -c 76 book.bin && printf x && tail -c +77 book.bin; } >wider
    mv wider book.bin
    number_at 16 77
    number_at 24 125
}
broken_book with_a_gap gap
# Bodies of three stations.
of_october() {
    octobers 12 >sheets
    book 144 1964 sheets 1965 sheets >book.bin
}
broken_book of_another_basin of_october
# 21 years, packed as if they were allowed.
of_21_years() {
    local list=()
    for year in $(seq 1964 1984); do list+=("$year" "$work/1964"); done
    book 48 "${list[@]}" >book.bin
}
broken_book of_21_years of_21_years

begin book_of_20_years
bare_basin
list=()
for year in $(seq 2181 2200); do list+=("$year" "$work/1964"); done
book 48 "${list[@]}" >book.bin
asks 2200 2181
run
wants 0 '' "$header" "$(lines_of "$of_1964" "$of_1964")"

begin book_of_1800
bare_basin
book 48 1800 "$work/1965" 2200 "$work/1964" >book.bin
asks 1800
run
wants 0 '' "$header" "$year_1965"
