#!/usr/bin/env bash
# The words of a command are kept in one string, and split on purpose.
# shellcheck disable=SC2086
# The product beside the plain program of bench/plain, as the rows of the first table of docs/BENCH.md.
#
#   bench/table.sh [ROW]...      rows: serial script lines opening check dumps instructions; without any, all of them
#   bench/table.sh own           the plain program's own figures
#   bench/table.sh profiles      instructions a request of the product, profile by profile
#
# Each row runs both programs with the same words in turn and takes the quickest of RUNS (3) runs of each, in seconds of
# processor time; memory is the greatest of a run. A call that takes more than LIMIT (300) seconds is said not to have ended.
# BUILT names a crates/ folder where the product and its serial program (bench/serial) are built already.
set -eu -o pipefail
serial_too=yes # read by built.sh
. "$(dirname "$0")/plain/built.sh"
runs=${RUNS:-3}
limit=${LIMIT:-300}
input=/dev/null
serial="$BUILT/tpcc_bench/out/tpcc_bench"
large="--seeded --warehouses 4 --customers 3000 --items 100000"
middle="--seeded --warehouses 4 --customers 300 --items 10000"

# Runs a program: its processor seconds in `seconds`, or nothing where it did not end, and its megabytes in `memory`.
run_once() {
    local TIMEFORMAT='%U %S' status=0
    { time /usr/bin/time -f %M -o "$work/memory" timeout "$limit" "$@" < "$input" > "$work/out" 2> "$work/err"; } \
        2> "$work/seconds" || status=$?
    case $status in
        0) seconds=$(awk '{ print $1 + $2 }' "$work/seconds") ;;
        124) seconds= ;;
        *) echo "$* ended with status $status: $(cat "$work/err")" >&2; exit 1 ;;
    esac
    memory=$(tail -n 1 "$work/memory" | awk '{ printf "%.0f", $1 / 1024 }')
}

least() {
    [ -z "$1" ] && echo "$2" && return
    [ -z "$2" ] && echo "$1" && return
    echo "$1 $2" | awk '{ print ($1 < $2) ? $1 : $2 }'
}

# Both programs in turn, the words of the first up to `--`: `product_seconds`, `plain_seconds` and both memories.
beside() {
    local first=() k
    while [ "$1" != -- ]; do first+=("$1"); shift; done
    shift
    product_seconds='' plain_seconds=''
    for ((k = 0; k < runs; k++)); do
        run_once "$@"
        plain_seconds=$(least "$plain_seconds" "$seconds") plain_memory=$memory
        # One run that did not end is enough.
        [ "$k" -gt 0 ] && [ -z "$product_seconds" ] && continue
        run_once "${first[@]}"
        product_seconds=$(least "$product_seconds" "$seconds") product_memory=$memory
    done
}

ratio() {
    echo "$1 $2" | awk '{ r = $1 / $2; printf (r < 10) ? "%.2f" : "%.0f", r }'
}

row() {
    echo "| $1 | $2 | $3 | $4 | \`bench/table.sh $name\` |"
}

# A row of seconds.
timed() {
    if [ -z "$product_seconds" ]; then
        row "$1" "did not end in $limit s" "$plain_seconds s" "over $(ratio "$limit" "$plain_seconds")"
    else
        row "$1" "$product_seconds s" "$plain_seconds s" "$(ratio "$product_seconds" "$plain_seconds")"
    fi
}

# A row of requests a second: the run less the same run with no card.
serial_row() {
    local terminals=$1 cards=$2 entries started_product started_plain product_rate plain_rate
    beside "$serial" "$terminals" 0 -- "$plain" serial $middle --terminals "$terminals" --cards 0
    started_product=$product_seconds started_plain=$plain_seconds
    beside "$serial" "$terminals" "$cards" -- "$plain" serial $middle --terminals "$terminals" --cards "$cards"
    # What ran last is the product, unless it did not end.
    entries=$("$plain" serial $middle --terminals "$terminals" --cards "$cards" | sed -n 's/^entries //p')
    if [ -n "$product_seconds" ] && [ "$(sed -n 's/^entries //p' "$work/out")" != "$entries" ]; then
        echo "the serial programs' journals differ in length" >&2
        exit 1
    fi
    plain_rate=$(echo "$entries $plain_seconds $started_plain" | awk '{ printf "%.0f", $1 / ($2 - $3) }')
    if [ -z "$product_seconds" ]; then
        row "serial, (4, 300, 10,000), $terminals terminals, $cards cards" "did not end in $limit s" "$plain_rate a second" "-"
        return
    fi
    product_rate=$(echo "$entries $product_seconds $started_product" | awk '{ printf "%.0f", $1 / ($2 - $3) }')
    row "serial, (4, 300, 10,000), $terminals terminals, $cards cards" "$product_rate a second" "$plain_rate a second" \
        "$(ratio "$plain_rate" "$product_rate")"
    row "the same run's memory" "$product_memory MB" "$plain_memory MB" "$(ratio "$product_memory" "$plain_memory")"
}

row_serial() {
    serial_row 16 "${CARDS:-1000}"
}

row_script() {
    input="$work/lines"
    awk -v LINES=20000 -f "$top/bench/lines.awk" > "$input"
    beside "$product" script -- "$plain" script
    timed "script of 20,000 mixed lines with screens, (1, 10, 100)"
    row "the same script's memory" "$product_memory MB" "$plain_memory MB" "$(ratio "$product_memory" "$plain_memory")"
    input=/dev/null
}

# The requests of one terminal as a script, at a larger scale.
row_lines() {
    input="$work/lines"
    "$plain" requests $middle --terminal 1 --cards 1000 > "$input"
    beside "$product" script $middle -- "$plain" script $middle
    timed "script of a terminal's 1,000 requests with screens and the opening, (4, 300, 10,000)"
    input=/dev/null
}

row_opening() {
    beside "$product" dump WAREHOUSE $large -- "$plain" dump WAREHOUSE $large
    timed "opening, seeded, (4, 3,000, 100,000)"
    row "its memory" "$product_memory MB" "$plain_memory MB" "$(ratio "$product_memory" "$plain_memory")"
}

row_check() {
    input="$work/lines"
    echo check > "$input"
    local small="--seeded --warehouses 1 --customers 300 --items 10000"
    beside "$product" script $small -- "$plain" script $small
    timed "\`check\` with the opening, seeded, (1, 300, 10,000)"
    beside "$product" script $large -- "$plain" script $large
    timed "the same at (4, 3,000, 100,000)"
    input=/dev/null
}

row_dumps() {
    local table
    for table in WAREHOUSE DISTRICT CUSTOMER HISTORY ORDER ORDER-LINE NEW-ORDER ITEM STOCK; do
        beside "$product" dump "$table" $large -- "$plain" dump "$table" $large
        timed "\`dump $table\` with the opening, seeded, (4, 3,000, 100,000)"
    done
}

# The instructions of a program.
instructions() {
    valgrind --tool=callgrind --callgrind-out-file=/dev/null "$@" < "$input" 2>&1 > "$work/out" | sed -n 's/.*Collected : //p'
}

# Instructions a request: the difference of two lengths of a run, by the difference of their entries.
per_request() {
    local words=$1 few=$2 many=$3 less more less_entries more_entries
    less=$(instructions $words "$few")
    less_entries=$(sed -n 's/^entries //p' "$work/out")
    more=$(instructions $words "$many")
    more_entries=$(sed -n 's/^entries //p' "$work/out")
    echo "$more $less $more_entries $less_entries" | awk '{ printf "%.0f", ($1 - $2) / ($3 - $4) }'
}

# Instructions a line: the difference of two lengths of the script of bench/lines.awk.
per_line() {
    local less more
    input="$work/lines"
    awk -v LINES=1000 -f "$top/bench/lines.awk" > "$input"
    less=$(instructions "$1" script)
    awk -v LINES=2000 -f "$top/bench/lines.awk" > "$input"
    more=$(instructions "$1" script)
    input=/dev/null
    echo "$more $less" | awk '{ printf "%.0f", ($1 - $2) / 1000 }'
}

# The same of the requests of one terminal at a larger scale.
per_drawn_line() {
    local less more
    input="$work/lines"
    "$plain" requests $middle --terminal 1 --cards 115 > "$input"
    less=$(instructions "$1" script $middle)
    "$plain" requests $middle --terminal 1 --cards 345 > "$input"
    more=$(instructions "$1" script $middle)
    input=/dev/null
    echo "$more $less" | awk '{ printf "%.0f", ($1 - $2) / 230 }'
}

row_instructions() {
    local of_product of_plain
    of_product=$(per_request "$serial 16" 23 46)
    of_plain=$(per_request "$plain serial $middle --terminals 16 --cards" 23 46)
    row "instructions a request, serial, (4, 300, 10,000), 16 terminals, 23 and 46 cards" "$of_product" "$of_plain" \
        "$(ratio "$of_product" "$of_plain")"
    of_product=$(per_drawn_line "$product")
    of_plain=$(per_drawn_line "$plain")
    row "instructions a line of a terminal's requests with their screens, (4, 300, 10,000), 115 and 345 lines" \
        "$of_product" "$of_plain" "$(ratio "$of_product" "$of_plain")"
    of_product=$(per_line "$product")
    of_plain=$(per_line "$plain")
    row "instructions a line of a script with its screen, (1, 10, 100), 1,000 and 2,000 lines" "$of_product" "$of_plain" \
        "$(ratio "$of_product" "$of_plain")"
}

# Instructions of a request of one profile in the serial program, where the others are drawn and passed over: what drawing takes is left out.
profiles() {
    local number=0 name drawn more entries
    drawn=$(instructions "$serial" 16 230 4 300 10000 0 6)
    echo "| Profile | Instructions a request |"
    echo "|---|---|"
    for name in New-Order Payment Order-Status Delivery Stock-Level; do
        number=$((number + 1))
        more=$(instructions "$serial" 16 230 4 300 10000 0 "$number")
        entries=$(sed -n 's/^entries //p' "$work/out")
        echo "| $name | $(echo "$more $drawn $entries" | awk '{ printf "%.0f", ($1 - $2) / $3 }') |"
    done
}

# A serial run of the plain program at a scale.
own_run() {
    "$plain" serial "${@:2}" --terminals 16 --cards 20000 --time 2> "$work/err" > "$work/out"
    echo "| $1, 16 terminals, 20,000 cards | $(sed -n 's/^requests .*, //p' "$work/err") |"
    echo "| its journal | $(sed -n 's/^journal //p' "$work/err") |"
}

# What the plain program does by itself.
own() {
    echo "| What | Plain |"
    echo "|---|---|"
    own_run '(4, 300, 10,000)' $middle
    own_run '(4, 3,000, 100,000)' $large
    echo "| instructions a request, 1 terminal, 2,300 and 4,600 cards | $(per_request "$plain serial $middle --terminals 1 --cards" 2300 4600) |"
    echo "| the same, 16 terminals, 1,000 and 4,000 cards | $(per_request "$plain serial $middle --terminals 16 --cards" 1000 4000) |"
    echo "| instructions a line of a script with its screen | $(per_line "$plain") |"
    run_once "$plain" dump WAREHOUSE $large
    echo "| opening, seeded, (4, 3,000, 100,000) | $memory MB |"
    run_once "$plain" dump WAREHOUSE ${large#--seeded }
    echo "| the same, plain | $memory MB |"
}

if [ "${1:-}" = own ] || [ "${1:-}" = profiles ]; then
    "$1"
    exit
fi
echo "| What | Product | Plain | Ratio | Command |"
echo "|---|---|---|---|---|"
[ $# -gt 0 ] || set -- serial script lines opening check dumps instructions
for name in "$@"; do
    "row_$name"
done
