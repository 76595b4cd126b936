#!/bin/sh
# Builds the C example against the static library and runs it; with a file, compares what it prints with the file.
set -eu
cd "$(dirname "$0")/.."
program=target/host-example
gcc -std=c11 -Wall -Wextra -Werror -Iinclude examples/host.c target/staticlib/libhost_calls.a -o "$program"
if [ $# -gt 0 ]; then
    "$program" | diff "$1" -
else
    exec "$program"
fi
