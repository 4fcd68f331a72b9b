# Cases of riveryear.sh: what is read comes through a pipe, in pieces or not to its end; what is written is not taken. Sourced.

# ---- what is read ----

begin book_trickles
bare 1965
mv book.bin bytes
trickle book.bin bytes
run
wants 0 '' "$header" "$year_1965"
wait $!

begin basin_trickles
bare 1965
mv basin.bin bytes
trickle basin.bin bytes
run
wants 0 '' "$header" "$year_1965"
wait $!

for most in 1 7 5000; do
    begin "interrupted_and_$most"
    bare 1965 1964 1966
    run "$faulty" AT_MOST="$most"
    wants 0 '' "$header" "$(lines_of "$of_1965" "$of_1964")" 'refused 10 0'
done

# A file that can't be read to its end counts as empty.
for bytes in 0 20; do
    begin "basin_fails_at_$bytes"
    bare 1964
    run "$faulty" FAILING=basin.bin AFTER="$bytes"
    wants 0 'basin.bin: Input/output error' "$header" 'refused 1 0'
done
for bytes in 0 4 100; do
    begin "book_fails_at_$bytes"
    bare 1964
    run "$faulty" FAILING=book.bin AFTER="$bytes"
    wants 0 'book.bin: Input/output error' "$header" 'refused 9 0'
done

# ---- output that is not taken ----

begin disk_full_in_the_middle
bare 1964
run "$faulty" FULL_AFTER=40
printf '%s\n%s' "$header" '0 end 1 ' >"$work/forty"
judge 0 'standard output: No space left on device' "$work/forty"

begin full_device
bare 1964
run_on_a_full_device
wants 0 'standard output: No space left on device'

# The reason is told once: the first write that fails ends the run.
many_years() {
    local list
    mapfile -t list < <(for _ in $(seq 1500); do printf '1964\n1965\n'; done)
    bare "${list[@]}"
}
begin full_device_for_many_years
many_years
run_on_a_full_device
wants 0 'standard output: No space left on device'

begin output_closed
bare 1964
status=0
launch >&- 2>"$work/err" || status=$?
: >"$work/out"
wants 0 'standard output: Bad file descriptor'

begin output_and_error_closed
bare 1964
status=0
launch >&- 2>&- || status=$?
: >"$work/out"
: >"$work/err"
wants 0 ''

# There is nowhere to tell the reason, and the listing is what it is.
begin error_closed
bare_basin
asks 1964
status=0
launch >"$work/out" 2>&- || status=$?
: >"$work/err"
wants 0 '' "$header" 'refused 9 0'

# A reader leaves after the header: the library has SIGPIPE ignored, so the write fails, and the reason is told.
begin reader_leaves
many_years
status=0
launch 2>"$work/err" | head -c 32 >"$work/out" || status=${PIPESTATUS[0]}
wants 0 'standard output: Broken pipe' "$header"

# The same where whoever called the program has it ignored.
begin reader_leaves_and_the_signal_is_ignored
many_years
status=0
launch --ignore-signal=PIPE 2>"$work/err" | head -c 32 >"$work/out" || status=${PIPESTATUS[0]}
wants 0 'standard output: Broken pipe' "$header"
