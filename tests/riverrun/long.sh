# Cases of riverrun.sh: files of months longer than a block of 64 KiB, against the plain program. Sourced.

# 26,624 months, 319,488 bytes. A block holds 5461 of their sheets, 65,532 bytes.
thirteen_sheets >"$work/long"
double "$work/long" 11

begin long
october_basin
cp "$work/long" months.bin
both

begin long_and_a_part
october_basin
cp "$work/long" months.bin
printf 1234567 >>months.bin
both 'refused 6 0'

# In the third block.
begin long_with_a_refusal
october_basin
cp "$work/long" months.bin
numbers 1 1 1000000001 | dd of=months.bin bs=12 seek=13000 conv=notrunc status=none
both 'refused 8 2'

# About the ends of blocks.
for bytes in 65531 65532 65533 65536 65543 65544 131064; do
    begin "block_of_$bytes"
    october_basin
    head -c "$bytes" "$work/long" >months.bin
    both
done

# The same listing where the bytes come one by one, over the end of a block.
begin long_months_trickle
october_basin
head -c 80000 "$work/long" >months.bin
plain_listing
mv months.bin sheets
trickle months.bin sheets
run
wants_the_plain_listing '' 'refused 6 0'
wait $!

# A read that fails just after a block: the sheets before it are listed, and then a part that is not whole. So the plain program lists a byte more.
begin long_fails_after_a_block
october_basin
head -c 65533 "$work/long" >months.bin
plain_listing
cp "$work/long" months.bin
run "$faulty" FAILING=months.bin AFTER=65532
wants_the_plain_listing 'months.bin: Input/output error' 'refused 6 0'

# One station and nothing else: its sheets fill a block of 65,536 bytes exactly.
number 2000 >"$work/long_of_one"
double "$work/long_of_one" 15
for bytes in 65536 65537; do
    begin "one_station_$bytes"
    numbers 32 1 40 0 40 0 40 0 7 1 >basin.bin
    head -c "$bytes" "$work/long_of_one" >months.bin
    both
done

# The text of a few months fills the room that riverrun writes from.
begin largest_basin
"$built/write_bench" . 120
both

begin losing_largest_basin
"$built/write_bench" . 120
lose_water
both

begin provo
cp "$samples/provo.basin.bin" basin.bin
cp "$samples/provo.months.bin" months.bin
both
