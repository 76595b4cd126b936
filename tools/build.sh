#!/bin/sh
# build.sh library|program NAME: proves and builds the static library target/staticlib/libNAME.a or the program target/bin/NAME.
set -u
cd "$(dirname "$0")/.." || exit 2
kind=$1
name=$2
log=$PWD/target-build.log

# A program is built by running it, here on nothing.
case $kind in
library) (cd "crates/$name" && rt lib) >"$log" 2>&1 </dev/null ;;
program) (cd "crates/$name" && rt run) >"$log" 2>&1 </dev/null ;;
*) echo "build.sh library|program NAME"; exit 2 ;;
esac
status=$?
case $kind in
library) made=crates/$name/out/lib$name.a to=target/staticlib/lib$name.a ;;
program) made=crates/$name/out/$name to=target/bin/$name ;;
esac
if [ "$status" -ne 0 ] || [ ! -f "$made" ]; then
    tail -n 20 "$log"
    echo "$name could not be built: see target-build.log"
    exit 1
fi
rm -f "$log"
mkdir -p "$(dirname "$to")" && cp "$made" "$to"
