# Cases of riveryear.sh: many years, and the largest files, against the plain program. Sourced.

# Five years of three stations.
thirteen_sheets >"$work/sheets"
double "$work/sheets" 3
list=()
for place in 0 1 2 3 4; do
    tail -c +$((1 + 144 * place)) "$work/sheets" >"$work/of_$place"
    list+=($((1960 + 3 * place)) "$work/of_$place")
done
october_book() {
    october_basin
    book 144 "${list[@]}" >book.bin
}

begin each_year
october_book
asks 1960 1963 1966 1969 1972
both

# The third month's 20 percent of October's pattern go deep.
begin losing_each_year
october_book
put basin.bin 126 00
asks 1960 1963 1966 1969 1972
both

begin many_years
october_book
mapfile -t list_of_years < <(for n in $(seq 300); do echo $((1960 + 3 * (n * n / 3 % 5))); done)
asks "${list_of_years[@]}"
both

begin many_years_and_one_unlisted
october_book
asks "${list_of_years[@]}" 1961 1960
both 'refused 10 0'

# Twenty years of the largest basin: every number of its book.
begin largest_basin
"$built/write_bench" . 240
"$built/write_book" basin.bin months.bin book.bin $(seq 1960 1979)
asks $(seq 1960 1979) 1960
both

begin losing_largest_basin
"$built/write_bench" . 240
lose_water
"$built/write_book" basin.bin months.bin book.bin $(seq 1960 1979)
asks 1960 1979 1960
both

begin largest_basin_and_a_byte_more
"$built/write_bench" . 240
"$built/write_book" basin.bin months.bin book.bin $(seq 1960 1979)
printf x >>book.bin
asks 1960
both 'refused 9 0'

begin provo
cp "$samples"/provo.*.bin .
words=(provo.basin.bin provo.book.bin 1964 1967 1967 1964)
both
