#!/usr/bin/env bash
# The words of a command are kept in one string, and split on purpose.
# shellcheck disable=SC2046,SC2086
# How runs wait: many terminals beside few, and one processor that others want too, as two tables for docs/BENCH.md.
#
# The first has 64 terminals with one server, and then 256 and 999 terminals with 1, 4 and 16 servers and by their own turns, all
# with the same number of cards in sum: seconds by the clock and of processors, and both as ratios to the first row. The second
# has 8 terminals on one processor, alone and beside two busy loops: requests a second with one server and by their own turns,
# and as ratios to the plain program's threads behind `std::sync::Mutex` in the same place.
#
# CARDS is how many cards a run asks in sum (128,000), RUNS of how many runs the quickest counts (3), LIMIT the seconds after
# which a run is given up (300), BUILT as for bench/table.sh.
set -eu -o pipefail
. "$(dirname "$0")/plain/built.sh"
cards=${CARDS:-128000}
runs=${RUNS:-3}
limit=${LIMIT:-300}

# The words of an opening of so many warehouses, customers and items.
opening() { echo "--seeded --warehouses $1 --customers $2 --items $3"; }

# How a run is served: by so many servers, or by the terminals' own turns.
service() { [ "$1" = direct ] && echo --direct || echo "--servers $1"; }

# Seconds by the clock and of processors that a run with these words takes, without its opening; of some runs the quickest counts.
spent() {
    local TIMEFORMAT='%R %U %S' taken opening
    for _ in $(seq "$runs"); do
        taken=$({ time timeout "$limit" "$product" run "$@" --time > /dev/null 2> "$work/told"; } 2>&1)
        opening=$(sed -n 's/^opening \([0-9.]*\) s$/\1/p' "$work/told")
        echo "$taken $opening" | awk '{ printf "%.3f %.3f\n", $1 - $4, $2 + $3 - $4 }'
    done | sort -n | head -n 1
}

# Requests a second that a program tells with these words; of some runs the quickest counts.
rate() {
    for _ in $(seq "$runs"); do
        timeout "$limit" "$@" --time 2>&1 > /dev/null | sed -n 's/^requests .* s, \([0-9]*\) a second$/\1/p'
    done | sort -n | tail -n 1
}

echo "| Scale | Terminals | Servers | Seconds | Ratio | Of processors | Ratio |"
echo "|---|---|---|---|---|---|---|"
for scale in "1 10 100" "4 3000 100000"; do
    least=""
    for row in "64 1" "256 1" "256 4" "256 16" "256 direct" "999 1" "999 4" "999 16" "999 direct"; do
        read -r terminals servers <<< "$row"
        read -r seconds processors < <(spent $(opening $scale) --terminals "$terminals" $(service "$servers") --cards $((cards / terminals)))
        least=${least:-$seconds $processors}
        echo "$scale|$terminals|$servers|$seconds|$processors|$least" | awk -F'|' '{ split($6, least, " ")
            printf "| (%s) | %s | %s | %.2f | %.2f | %.2f | %.2f |\n", $1, $2, $3, $4, $4 / least[1], $5, $5 / least[2] }'
    done
done

echo
echo "| One processor, 8 terminals, (1, 10, 100) | Mutex, requests/s | 1 server | Ratio | Direct | Ratio |"
echo "|---|---|---|---|---|---|"
asked="$(opening 1 10 100) --terminals 8 --cards $((cards / 8))"
for beside in alone "two busy loops"; do
    loops=()
    if [ "$beside" != alone ]; then
        for _ in 1 2; do
            taskset -c 0 sh -c 'while :; do :; done' &
            loops+=($!)
        done
    fi
    mutex=$(rate taskset -c 0 "$plain" mutex $asked)
    server=$(rate taskset -c 0 "$product" run $asked --servers 1)
    direct=$(rate taskset -c 0 "$product" run $asked --direct)
    [ "${#loops[@]}" -eq 0 ] || kill "${loops[@]}"
    awk -v beside="$beside" -v mutex="$mutex" -v server="${server:-0}" -v direct="${direct:-0}" \
        'BEGIN { printf "| %s | %d | %d | %.2f | %d | %.2f |\n", beside, mutex, server, server / mutex, direct, direct / mutex }'
done
