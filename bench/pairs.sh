#!/usr/bin/env bash
# The words of a command are kept in one string, and split on purpose.
# shellcheck disable=SC2086
# How many times as dear the serial program (bench/serial) is as the plain one, where seconds are noisy: each pair of runs stands side by side,
# and the median of the pairs' ratios counts.
#
#   bench/pairs.sh [PAIRS]      (14)
#
# A time is the processor seconds of a run with CARDS (5000) cards of 16 terminals at (4, 300, 10,000), less the least of a run with none. BUILT names a
# crates/ folder where the product and its serial program are built already.
set -eu -o pipefail
serial_too=yes # read by built.sh
. "$(dirname "$0")/plain/built.sh"
serial="$BUILT/tpcc_bench/out/tpcc_bench"
cards=${CARDS:-5000}
words="serial --seeded --warehouses 4 --customers 300 --items 10000 --terminals 16 --cards"

seconds_of() {
    local TIMEFORMAT='%U %S'
    { time "$@" > "$work/out"; } 2>&1 | awk '{ print $1 + $2 }'
}

for _ in $(seq "${1:-14}"); do
    echo "$(seconds_of "$serial" 16 0) $(seconds_of "$serial" 16 "$cards")" \
        "$(seconds_of "$serial" 16 0 4 300 10000 1) $(seconds_of "$serial" 16 "$cards" 4 300 10000 1)" \
        "$(seconds_of "$plain" $words 0) $(seconds_of "$plain" $words "$cards")"
done > "$work/pairs"

# The median of a column's times as a ratio to the plain program's.
median() {
    awk -v C="$1" '
        { for (k = 1; k <= 5; k += 2) if (NR == 1 || $k < least[k]) least[k] = $k; own[NR] = $(C + 1); plain[NR] = $6 }
        END { for (k = 1; k <= NR; k++) print (own[k] - least[C]) / (plain[k] - least[5]) }' "$work/pairs" | sort -n |
        awk '{ r[NR] = $1 } END { printf "%.2f (%.2f to %.2f)\n", (r[int((NR + 1) / 2)] + r[int(NR / 2) + 1]) / 2, r[1], r[NR] }'
}

echo "the product: $(median 1) times the plain program"
echo "the product, with a receipt of each request: $(median 3) times the plain program"
