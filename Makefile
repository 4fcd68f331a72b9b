# Two commands do all the set-up from a fresh checkout: `make run` and `make test`.
.PHONY: run test

# The main job: the listings of the two sample rivers, after a line for each crate as it is proved.
samples = ../../samples
run:
	@cd crates/riverrun && bash ../../tools/progress.sh rt run -- \
		$(samples)/october.basin.bin $(samples)/october.months.bin $(samples)/provo.basin.bin $(samples)/provo.months.bin

# Everything: tests in Rust and C, proofs, must-fail edits, programs.
test:
	bash .ci/run
