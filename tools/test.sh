#!/bin/sh
# All tests. Its last line is 'N passed, M failed', and it exits 0 only where nothing failed.
set -u
cd "$(dirname "$0")/.." || exit 2
log=target-test.log
passed=0 failed=0
start=$(date +%s)

# report NAME STATUS: counts one test.
report() {
    if [ "$2" -eq 0 ]; then
        passed=$((passed + 1))
        echo "test $1: ok"
    else
        failed=$((failed + 1))
        echo "test $1: FAILED"
    fi
}

# quietly NAME COMMAND..: one test, whose output is shown only if it fails.
quietly() {
    name=$1
    shift
    "$@" >"$log" 2>&1
    status=$?
    [ "$status" -eq 0 ] || tail -n 30 "$log" | cut -c 1-2000
    rm -f "$log"
    report "$name" "$status"
}

if ! command -v rt >/dev/null 2>&1; then
    echo "The Rattle kit is not on the PATH: see README.md."
    echo "0 passed, 1 failed"
    exit 1
fi

# The toolchain that the proofs were last checked with. A difference is reported and does not fail by itself: the proof decides.
if [ "$(rt version)" != "$(cat TOOLCHAIN)" ]; then
    echo "note: this toolchain is '$(rt version)', the one pinned in TOOLCHAIN is '$(cat TOOLCHAIN)'"
fi

# Files of Rattle or antt that stand outside crates/, which the proof does not see.
stray=$(find . -path ./target -prune -o -path ./crates -prune -o -path ./.git -prune -o \( -name '*.rt' -o -name '*.antt' \) -print)
[ -z "$stray" ] || echo "stray files: $stray"
test -z "$stray"
report stray-files $?

# The layout and the proof of every crate, every must-fail edit, and every program against its stored output. An edit that no longer fits
# the text shows nothing, and fails the test too.
{ rt ci 2>&1; echo $? >"$log.status"; } | tee "$log" | grep -v '^[0-9]* passed, [0-9]* failed'
status=$(cat "$log.status")
counts=$(tail -n 1 "$log" | sed -n 's/^\([0-9]*\) passed, \([0-9]*\) failed.*$/\1 \2/p')
mv "$log" "$log.ci"
rm -f "$log.status"
proved=$(date +%s)
test "$status" -eq 0
report rt-ci $?
! grep -q '^rt: ok.*, [1-9][0-9]* bad' "$log.ci"
report edits-fit $?
if [ -n "$counts" ]; then
    passed=$((passed + ${counts% *}))
    failed=$((failed + ${counts#* }))
else
    echo "rt ci did not end in a count"
    failed=$((failed + 1))
fi

# The programs and the library, built of what is proved now.
quietly program-built sh tools/build.sh program program_inspect
quietly static-library sh tools/build.sh library host_calls

# The program on each sample, against the output that stands beside it.
for sample in samples/*.bin; do
    [ -f "$sample" ] || continue
    target/bin/program_inspect <"$sample" | cmp -s - "${sample%.bin}.txt"
    report "$sample" $?
done

# The C header held to the static library, and the C example on it against the output that stands beside it.
if command -v gcc >/dev/null 2>&1; then
    quietly c-surface sh tools/surface/test.sh
    quietly c-example sh tools/example.sh examples/host.expected
else
    echo "note: gcc is missing, so tests c-surface and c-example are skipped"
fi

# The wrapper for Rust, the scripts of packets, writings and table calls against the answers that stand beside them, the plain
# reference, and the library against the reference on seeded inputs.
scripts=
if command -v cargo >/dev/null 2>&1; then
    CARGO_TARGET_DIR=$PWD/target/rust
    export CARGO_TARGET_DIR
    quietly rust-wrapper cargo test --offline --manifest-path rust/wuraketozo/Cargo.toml
    quietly scripts-built cargo build --release --offline --manifest-path rust/scripts/Cargo.toml
    scripts=$CARGO_TARGET_DIR/release/scripts
    for list in readings writings calls; do
        "$scripts" "$list" <"rust/scripts/lists/$list.txt" | cmp - "rust/scripts/lists/$list.expected"
        report "$list" $?
    done
    quietly rust-reference cargo test --release --offline --manifest-path rust/reference/Cargo.toml
    cargo run --quiet --release --offline --manifest-path rust/differential/Cargo.toml -- --seed 1 --payloads 200000 --calls 50000
    report differential $?
else
    echo "note: cargo is missing, so tests rust-wrapper, readings, writings, calls, rust-reference and differential are skipped"
fi

hosts=$(date +%s)

# What readers in Python, written from the papers apart from this code, say of the same bytes.
if command -v python3 >/dev/null 2>&1; then
    PYTHONDONTWRITEBYTECODE=1
    export PYTHONDONTWRITEBYTECODE
    quietly reader-by-hand python3 tools/vectors/make.py check
    python3 tools/vectors/make.py numbers | cmp -s - crates/program_vectors/stdout
    report vectors-predicted $?
    python3 tools/vectors/make.py script | cmp -s - rust/scripts/lists/readings.txt
    report readings-listed $?
    python3 tools/vectors/make.py readings | cmp -s - rust/scripts/lists/readings.expected
    report readings-predicted $?
    python3 tools/vectors/writer.py example | cmp -s - crates/program_roundtrip/stdout
    report roundtrip-predicted $?
    python3 tools/vectors/writer.py script | cmp -s - rust/scripts/lists/writings.txt
    report writings-listed $?
    python3 tools/vectors/writer.py cases | cmp -s - rust/scripts/lists/writings.expected
    report writings-predicted $?
    python3 tools/vectors/lists.py | cmp -s - rust/scripts/lists/calls.txt
    report calls-listed $?
    python3 tools/vectors/table.py calls | cmp -s - rust/scripts/lists/calls.expected
    report calls-predicted $?
    if [ -n "$scripts" ]; then
        python3 tools/vectors/table.py random 300 "$scripts"
        report random-calls $?
    fi
    python3 tools/samples/compare_random.py 1000
    report random-datagrams $?
fi

clock="rt ci $((proved - start)), samples and hosts $((hosts - proved)), predictions $(($(date +%s) - hosts))"
echo "seconds on the clock: $clock"
rm -f "$log.ci"
echo "$passed passed, $failed failed"
[ "$failed" -eq 0 ] && [ "$passed" -gt 0 ]
