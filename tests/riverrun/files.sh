# Cases of riverrun.sh: the two files, there or not, whole or not. Sourced.

begin october
october
run
wants 0 '' "$header" "$october"

begin two_sheets
october
double months.bin 1
run
wants 0 '' "$header" "$october" "$november"

# ---- October's pattern, 50, 30 and 20 percent from byte 124 on, with less in it: the rest goes deep and is not listed ----

# 161 of what 12 returns in each month never come; so far nothing else is another.
begin losing_pattern_of_80
october
double months.bin 1
put basin.bin 126 00
run
wants 0 '' "$header" "${october%403}242" "${november%564}242"

# Nothing of it comes. 13 finds 299 at 300, of 3000 less 1500 and 1201; 14 has its 600 from storage, where 1299 are; 699 have 13 acres.
begin losing_pattern_of_zeros
october
for at in 124 125 126; do put basin.bin "$at" 00; done
run
wants 0 '' "$header" '0 11 1500 0 0 0' '0 12 1201 0 0 0' '0 13 299 0 2 300' '0 14 0 600 0 0' '0 15 0 0 1 100' '0 end 0 65 634 0'

# ---- a file that is missing, can't be opened, is empty, is a directory ----

# The basin is judged first; where it is refused nothing is said of months.bin.
begin basin_missing
october_months
run
wants 0 "basin.bin: $missing" "$header" 'refused 1 0'

begin months_missing
october_basin
run
wants 0 "months.bin: $missing" "$header"

begin both_missing
run
wants 0 "basin.bin: $missing" "$header" 'refused 1 0'

# There, but not to be opened, by root either.
begin basin_not_to_be_opened
ln -s basin.bin basin.bin
october_months
run
wants 0 'basin.bin: Too many levels of symbolic links' "$header" 'refused 1 0'

begin months_not_to_be_opened
october_basin
ln -s months.bin months.bin
run
wants 0 'months.bin: Too many levels of symbolic links' "$header"

begin basin_empty
october_months
: >basin.bin
run
wants 0 '' "$header" 'refused 1 0'

begin months_empty
october_basin
: >months.bin
run
wants 0 '' "$header"

begin both_empty
: >basin.bin
: >months.bin
run
wants 0 '' "$header" 'refused 1 0'

# A directory opens, and no read of it succeeds.
begin basin_is_a_directory
mkdir basin.bin
october_months
run
wants 0 'basin.bin: Is a directory' "$header" 'refused 1 0'

begin months_is_a_directory
october_basin
mkdir months.bin
run
wants 0 'months.bin: Is a directory' "$header" 'refused 6 0'

begin both_are_directories
mkdir basin.bin months.bin
run
wants 0 'basin.bin: Is a directory' "$header" 'refused 1 0'

# ---- a last part that is no whole sheet; October's has 12 bytes ----

for bytes in 1 11; do
    begin "part_of_$bytes"
    october_basin
    head -c "$bytes" "$samples/october.months.bin" >months.bin
    run
    wants 0 '' "$header" 'refused 6 0'

    begin "sheet_and_$bytes"
    october
    head -c "$bytes" "$samples/october.months.bin" >>months.bin
    run
    wants 0 '' "$header" "$october" 'refused 6 0'
done

begin part_of_13
october
printf x >>months.bin
run
wants 0 '' "$header" "$october" 'refused 6 0'

begin sheet_and_13
october
double months.bin 1
printf x >>months.bin
run
wants 0 '' "$header" "$october" "$november" 'refused 6 0'

# 6 is lower than 8: what is over its limit in a part does not count.
begin part_over_its_limit
october
numbers 4294967295 4294967295 >>months.bin
run
wants 0 '' "$header" "$october" 'refused 6 0'

begin sheet_over_its_limit
october
numbers 5 1000000001 4294967295 >>months.bin
cat "$samples/october.months.bin" >>months.bin
run
wants 0 '' "$header" "$october" 'refused 8 1'

# ---- a basin that is refused: one byte of October's, and the rule that it breaks ----

refused_basin() {
    for months in there missing directory pipe; do
        begin "basin_$1_months_$months"
        october_basin
        put basin.bin "$2" "$3"
        case $months in
        there) october_months ;;
        missing) ;;
        directory) mkdir months.bin ;;
        pipe) mkfifo months.bin ;; # nobody writes to it: to open it would be to wait
        esac
        run
        wants 0 '' "$header" "$4"
    done
}
refused_basin station_count_4 4 04 'refused 1 0'          # bodies follow the contents without gaps
refused_basin last_row_of_order_2 52 02 'refused 2 1'     # row 1, of order 1, then has no row below
refused_basin start_above_capacity 65 23 'refused 3 0'    # 9192 units stored in a reservoir of 5000
refused_basin pattern_of_101 124 33 'refused 4 0'         # a pattern's percents sum to 100 at most
refused_basin efficiency_99 375 63 'refused 5 3'          # a right without return points has efficiency 100
