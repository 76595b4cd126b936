#!/bin/sh
# Writes a datagram and reads it back with `program_roundtrip`, then shows what `program_inspect` says of sample datagrams; with IN, what it says of
# that file alone: 8 address bytes (source, destination), then a UDP payload.
set -u
cd "$(dirname "$0")/.." || exit 2
program=target/bin/program_inspect

sh tools/build.sh program program_inspect || exit 1
if [ -n "${IN:-}" ]; then
    exec "$program" <"$IN"
fi
sh tools/build.sh program program_roundtrip || exit 1
echo "-- written and read back"
target/bin/program_roundtrip
for sample in samples/*.bin; do
    echo "-- $sample"
    "$program" <"$sample"
done
