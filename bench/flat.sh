#!/usr/bin/env bash
# Whether a request costs the same late as early, and at many warehouses as at one: two rows for docs/BENCH.md, of the serial program (bench/serial).
#
# The first row is the processor time of the last tenth of about a million requests beside that of the first tenth, at (4, 3,000, 100,000);
# the second a request at (20, 3,000, 10,000) beside one at (1, 3,000, 10,000). The program tells when each tenth of its requests begins, so
# both figures of the first row are of one process, and no opening is counted. CARDS is how many cards each of 16 terminals asks (60,000), RUNS of how
# many runs the middle one by its ratio counts (3), BUILT as for bench/table.sh.
set -eu -o pipefail
serial_too=yes # read by built.sh
. "$(dirname "$0")/plain/built.sh"
serial="$BUILT/tpcc_bench/out/tpcc_bench"
cards=${CARDS:-60000}
runs=${RUNS:-3}

# The requests and the processor nanoseconds of the serial program with so many cards at a scale, each time that a tenth begins or the last ends.
marks() {
    local word count
    exec 3< <(exec "$serial" 16 "$@")
    local pid=$!
    while read -r word count <&3; do
        [ "$word" != at ] || echo "$count $(cut -d' ' -f1 "/proc/$pid/schedstat")"
    done
    exec 3<&-
}

# Microseconds a request between two of the marks that it reads, counted from 1.
between() {
    awk -v from="$1" -v to="$2" 'NR == from { n = $1; t = $2 } NR == to { printf "%.3f\n", ($2 - t) / 1000 / ($1 - n) }'
}

# Reads 'first second' lines, and gives the one whose ratio is in the middle, with its ratio and the least and the greatest.
middle() {
    awk '{ printf "%s %s %.2f\n", $1, $2, $2 / $1 }' | sort -n -k 3 | awk '
        { first[NR] = $1; second[NR] = $2; ratio[NR] = $3 }
        END { m = int((NR + 1) / 2); printf "%s, %s | %s (%s to %s)", first[m], second[m], ratio[m], ratio[1], ratio[NR] }'
}

early_and_late() {
    for _ in $(seq "$runs"); do
        marks "$cards" 4 3000 100000 > "$work/marks"
        echo "$(between 1 2 < "$work/marks") $(between 10 11 < "$work/marks")"
    done
}

one_and_many() {
    for _ in $(seq "$runs"); do
        marks $((cards / 10)) 1 3000 10000 > "$work/one"
        marks $((cards / 10)) 20 3000 10000 > "$work/many"
        echo "$(between 1 11 < "$work/one") $(between 1 11 < "$work/many")"
    done
}

echo "| What | Microseconds a request | Ratio |"
echo "|---|---|---|"
late=$(early_and_late | middle)
entries=$(tail -n 1 "$work/marks" | cut -d' ' -f1)
echo "| the first and the last tenth of $entries requests, (4, 3,000, 100,000), 16 terminals | $late |"
echo "| 1 warehouse and 20, (3,000, 10,000), 16 terminals | $(one_and_many | middle) |"
