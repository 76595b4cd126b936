# make run: writes a datagram and reads it back, then shows the program on sample datagrams, or on a file: make run IN=path
# make test: the toolchain's identity, then layout and the whole proof with must-fail edits and programs, the samples, the static
# library with its C example and its Rust wrapper, and the library against a plain reference.
.PHONY: run test check fmt library sums example bench

run:
	@IN="$(IN)" sh tools/run.sh

test:
	@sh tools/test.sh

# The quick way: proves what changed, tries no must-fail edit.
check:
	rt all check

fmt:
	@for crate in crates/*/; do (cd "$$crate" && rt fmt) || exit 1; done

# The static library for hosts, target/staticlib/libhost_calls.a.
library:
	@sh tools/build.sh library host_calls

# The sum and the CRC32c by themselves, for the benchmark: target/staticlib/libhost_sums.a.
sums:
	@sh tools/build.sh library host_sums

# A C program on the library.
example: library
	@sh tools/example.sh

# Times of the library beside those of the plain reference, written to docs/BENCHMARKS.md, and instructions where there is valgrind.
# Not a test.
bench: library sums
	@CARGO_TARGET_DIR="$(CURDIR)/target/rust" cargo run --quiet --release --offline --manifest-path rust/bench/Cargo.toml -- docs/BENCHMARKS.md
	@! command -v valgrind >/dev/null || sh tools/instructions.sh docs/BENCHMARKS.md
