#!/bin/sh
# Instructions per call, counted by valgrind's callgrind: what four more runs of a case add to what four runs take. Prints tables as the
# benchmark has them, and with a file puts them between the marks there. Build the benchmark first (make bench).
set -eu
cd "$(dirname "$0")/.."
bench=target/rust/release/bench
counts=target/instructions.txt
tables=target/instructions.md

# total CASE SIDE RUNS: instructions of the whole program.
total() {
    valgrind --tool=callgrind --callgrind-out-file=/dev/null "$bench" --count "$1" "$2" "$3" 2>&1 | sed -n 's/.*Collected : \([0-9]*\).*/\1/p'
}

# each CASE SIDE CALLS: instructions of one call.
each() {
    few=$(total "$1" "$2" 4)
    many=$(total "$1" "$2" 8)
    echo $(((many - few) / (4 * $3)))
}

# A line for each case: the name and the instructions of each side, with bars between.
"$bench" --names | while read -r number calls sides name; do
    line="$name|$(each "$number" library "$calls")|$(each "$number" reference "$calls")"
    if [ "$sides" = 3 ]; then
        line="$line|$(each "$number" good "$calls")"
    fi
    echo "$line"
    echo "$name" >&2
done >"$counts"

awk -F '|' '
    NF == 3 { two = two sprintf("| %s | %d | %d | %.2f |\n", $1, $2, $3, $2 / $3) }
    NF == 4 {
        three = three sprintf("| %s | %d | %d | %d | %.2f | %.2f |\n", $1, $2, $3, $4, $2 / $3, $2 / $4)
        names[++count] = $1
        library[$1] = $2; plain[$1] = $3; good[$1] = $4
    }
    END {
        printf "| work | library | reference | ratio |\n|---|---|---|---|\n%s\n", two
        printf "| table call | library | plain | good | library / plain | library / good |\n|---|---|---|---|---|---|\n%s\n", three
        printf "| 4 x 63 held over 4 x 16 held | library | plain | good |\n|---|---|---|---|\n"
        for (i = 1; i <= count; i++) {
            many = few = name = names[i]
            if (sub(/4 x 63/, "4 x 16", few) && few in library) {
                sub(/ 4 x 63 held,/, "", name)
                printf "| %s | %.2f | %.2f | %.2f |\n", name, library[many] / library[few], plain[many] / plain[few], good[many] / good[few]
            }
        }
        printf "\n| for each further client | library | plain | good |\n|---|---|---|---|\n"
        for (i = 1; i <= count; i++) {
            many = one = name = names[i]
            if (sub(/client [0-9]+ of 12/, "client 0 of 1", one) && one in library) {
                sub(/ of 12,.*/, "", name)
                printf "| %s | %.1f | %.1f | %.1f |\n", name, (library[many] - library[one]) / 11, (plain[many] - plain[one]) / 11, (good[many] - good[one]) / 11
            }
        }
    }' "$counts" | tee "$tables"
if [ $# -gt 0 ]; then
    sed -i -e "/^<!-- instructions:/,/^<!-- end of instructions -->/{//!d}" -e "/^<!-- instructions:/r $tables" "$1"
fi
