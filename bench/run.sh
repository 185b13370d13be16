#!/usr/bin/env bash
# The words of a command are kept in one string, and split on purpose.
# shellcheck disable=SC2086
# Requests a second of runs for 1 to 64 terminals: by their own turns (`--direct`) and by 1, 2 and 4 servers, beside the
# same requests served one after another on one thread with their receipts (bench/serial), and beside the plain program of bench/plain on one
# thread and with a thread a terminal behind `std::sync::Mutex`. All in one run, as a table for docs/BENCH.md; each ratio
# is to the serial program of the same row. bench/plot.sh draws it.
#
# A rate is what a run tells with `--time`, so no opening is counted; the serial program tells when each tenth of its requests begins. A request is
# an entry of the journal. TERMINALS are the rows (1 2 4 8 16 64), CARDS is how many cards a terminal asks (1000), RUNS of how many runs the quickest
# counts (3), SCALE the warehouses, customers and items ("4 300 10000"). BUILT names a crates/ folder where the product and its serial program are
# built already.
set -eu -o pipefail
serial_too=yes # read by built.sh
. "$(dirname "$0")/plain/built.sh"
cards=${CARDS:-1000}
runs=${RUNS:-3}

greatest() {
    sort -n | tail -n 1
}

# The requests a second that the program tells, with these words.
rate() {
    for _ in $(seq "$runs"); do
        "$@" --time 2>&1 > /dev/null | sed -n 's/^requests .* s, \([0-9]*\) a second$/\1/p'
    done | greatest
}

# The requests a second of the serial program, with these words.
serial_rate() {
    local word count
    for _ in $(seq "$runs"); do
        "$BUILT/tpcc_bench/out/tpcc_bench" "$@" | while read -r word count; do
            [ "$word" != at ] || echo "$EPOCHREALTIME $count"
        done | awk 'NR == 1 { t = $1; n = $2 } END { printf "%.0f\n", ($2 - n) / ($1 - t) }'
    done | greatest
}

# The same as a ratio to the serial program.
beside() {
    echo "$(rate "$@") $alone" | awk '{ printf "%.2f", $1 / $2 }'
}

read -r warehouses customers items <<< "${SCALE:-4 300 10000}"
scale="--seeded --warehouses $warehouses --customers $customers --items $items"
echo "| Terminals | Serial, requests/s | Direct | 1 server | 2 servers | 4 servers | Plain, one thread | Plain, mutex |"
echo "|---|---|---|---|---|---|---|---|"
for terminals in ${TERMINALS:-1 2 4 8 16 64}; do
    alone=$(serial_rate "$terminals" "$cards" "$warehouses" "$customers" "$items" 1)
    asked="$scale --terminals $terminals --cards $cards"
    row="| $terminals | $alone | $(beside "$product" run $asked --direct) |"
    for servers in 1 2 4; do
        row+=" $(beside "$product" run $asked --servers "$servers") |"
    done
    for mode in serial mutex; do
        row+=" $(beside "$plain" "$mode" $asked) |"
    done
    echo "$row"
done
