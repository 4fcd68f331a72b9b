# Cases of riveryear.sh: the years that are asked for. Sourced.

begin one_year
bare 1964
run
wants 0 '' "$header" "$year_1964"

# On one board, and the months are counted on; years fall, and come again.
begin years_in_any_order
bare 1965 1964 1964 1965
run
wants 0 '' "$header" "$(lines_of "$of_1965" "$of_1964" "$of_1964" "$of_1965")"

begin sample
cp "$samples"/provo.*.bin .
words=(provo.basin.bin provo.book.bin 1967 1964 1967 1968)
run
judge 0 '' "$crates/riveryear/stdout"

# ---- no year, or no file, is named ----

begin no_word
run
wants 0 ": $missing" "$header" 'refused 1 0'

begin basin_alone
bare_basin
words=(basin.bin)
run
wants 0 '' "$header"

begin no_year
bare
run
wants 0 '' "$header"

# The book is not opened then: it may be missing, or a pipe that nobody writes to.
begin no_year_and_no_book
bare_basin
asks
run
wants 0 '' "$header"

begin no_year_and_a_pipe
bare_basin
mkfifo book.bin
asks
run
wants 0 '' "$header"

begin no_year_and_a_bad_book
bare_basin
: >book.bin
asks
run
wants 0 '' "$header"

# ---- words that name a listed year, and words that name none ----

for word in 1964 01964 000000000000000000000000001964; do
    begin "word_$word"
    bare "$word"
    run
    wants 0 '' "$header" "$year_1964"
done

nth=0
for word in 19x64 '' ' ' 99999999999999999999 +1964 -1964 ' 1964' '1964 ' 1964.0 0x7ac 1963 1966 0 1799 2201 4294967295 4294967296 \
    4294969260 18446744073709553580 $'1964\n' $'\xff'; do
    nth=$((nth + 1))
    begin "word_of_no_year_first_$nth"
    bare "$word" 1964
    run
    wants 0 '' "$header" 'refused 10 0'

    begin "word_of_no_year_in_the_middle_$nth"
    bare 1964 "$word" 1964
    run
    wants 0 '' "$header" "$year_1964" 'refused 10 0'

    # The book is told before it.
    begin "word_of_no_year_and_a_bad_book_$nth"
    bare "$word"
    printf x >>book.bin
    run
    wants 0 '' "$header" 'refused 9 0'
done

begin book_of_no_year
bare_basin
number 0 >book.bin
asks 1964
run
wants 0 '' "$header" 'refused 10 0'

# ---- runoff over its limit: nothing of the year is printed ----

begin over_its_limit_first
bare 1967 1964
run
wants 0 '' "$header" 'refused 8 0'

begin over_its_limit_in_the_middle
bare 1964 1967 1965
run
wants 0 '' "$header" "$year_1964" 'refused 8 0'

# The row of the first sheet that has it, here the third of October's three.
begin over_its_limit_in_a_row
october_basin
{ octobers 5 && numbers 0 0 1000000001 1000000001 0 0 && octobers 5; } >sheets
book 144 1964 sheets >book.bin
asks 1964
run
wants 0 '' "$header" 'refused 8 2'

# October's sheet in its first two months, as in riverrun's cases.
begin october_and_november
october_basin
octobers 12 >sheets
book 144 1964 sheets >book.bin
asks 1964
run
head -n 13 "$work/out" >"$work/first"
mv "$work/first" "$work/out"
wants 0 '' "$header" "$october" "$november"
