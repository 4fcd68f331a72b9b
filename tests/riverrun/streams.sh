# Cases of riverrun.sh: what is read comes through a pipe, in pieces or not to its end; what is written is not taken. Sourced.

# ---- pipes in the place of files ----

begin months_trickle
october_basin
cp "$samples/october.months.bin" sheets
double sheets 1
trickle months.bin sheets
run
wants 0 '' "$header" "$october" "$november"
wait $!

begin basin_trickles
october_months
trickle basin.bin "$samples/october.basin.bin"
run
wants 0 '' "$header" "$october"
wait $!

# Five bytes are there, then for a while none: a short read is neither the file's end nor a whole sheet.
begin months_stall_in_a_sheet
october_basin
mkfifo months.bin
{
    head -c 5 "$samples/october.months.bin"
    sleep 0.1
    tail -c +6 "$samples/october.months.bin"
    sleep 0.1
    cat "$samples/october.months.bin"
} >months.bin &
run
wants 0 '' "$header" "$october" "$november"
wait $!

# ---- reads and writes that are interrupted, short, or fail in the middle (faulty_io.c) ----

for most in 1 7 5000; do
    begin "interrupted_and_$most"
    october
    double months.bin 1
    run "$faulty" AT_MOST="$most"
    wants 0 '' "$header" "$october" "$november"
done

# A basin that can't be read to its end counts as empty, and nothing is said of months.bin.
begin basin_fails_in_the_middle
october
run "$faulty" FAILING=basin.bin AFTER=100
wants 0 'basin.bin: Input/output error' "$header" 'refused 1 0'

# Months that can't be read to their end: what came before is listed, and the rest is a part that is not whole, wherever it stopped.
for bytes in 0 5; do
    begin "months_fail_at_$bytes"
    october
    run "$faulty" FAILING=months.bin AFTER="$bytes"
    wants 0 'months.bin: Input/output error' "$header" 'refused 6 0'
done
for bytes in 12 20; do
    begin "months_fail_at_$bytes"
    october
    double months.bin 1
    run "$faulty" FAILING=months.bin AFTER="$bytes"
    wants 0 'months.bin: Input/output error' "$header" "$october" 'refused 6 0'
done

# A disk that is full after forty bytes: these are written, and the reason is told.
begin disk_full_in_the_middle
october
run "$faulty" FULL_AFTER=40
printf '%s\n%s' "$header" '0 11 150' >"$work/forty"
judge 0 'standard output: No space left on device' "$work/forty"

# ---- output that is not taken ----

# October's sheet 131,072 times, some sixteen megabytes of listing.
cp "$samples/october.months.bin" "$work/many_sheets"
double "$work/many_sheets" 17
many() {
    october_basin
    ln -s "$work/many_sheets" months.bin
}

begin full_device
october
run_on_a_full_device
wants 0 'standard output: No space left on device'

# The reason is told once: the first write that fails ends the run.
begin full_device_for_many_months
many
run_on_a_full_device
wants 0 'standard output: No space left on device'

begin output_closed
october
status=0
launch >&- 2>"$work/err" || status=$?
: >"$work/out"
wants 0 'standard output: Bad file descriptor'

begin output_and_error_closed
october
status=0
launch >&- 2>&- || status=$?
: >"$work/out"
: >"$work/err"
wants 0 ''

# There is nowhere to tell the reason, and the listing is what it is.
begin error_closed
october_basin
status=0
launch >"$work/out" 2>&- || status=$?
: >"$work/err"
wants 0 '' "$header"

# A reader leaves after the header: the library has SIGPIPE ignored, so the write fails, and the reason is told.
begin reader_leaves
many
status=0
launch 2>"$work/err" | head -c 32 >"$work/out" || status=${PIPESTATUS[0]}
wants 0 'standard output: Broken pipe' "$header"

# The same where whoever called the program has it ignored.
begin reader_leaves_and_the_signal_is_ignored
many
status=0
launch --ignore-signal=PIPE 2>"$work/err" | head -c 32 >"$work/out" || status=${PIPESTATUS[0]}
wants 0 'standard output: Broken pipe' "$header"
