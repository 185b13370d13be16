#!/usr/bin/env bash
# Tests that examples/databases ends as its page says on SQLite: EQUAL where transactions are kept apart, and DIFFERENT
# where rows are read and written back without a transaction. TPCC is the program (crates/tpcc/out/tpcc). Prints what
# ended otherwise, and last a count; where python3 has no sqlite3 it says so.
set -u -o pipefail
cd "$(dirname "$0")/.." || exit 1
tpcc=$(realpath "${TPCC:-crates/tpcc/out/tpcc}")
if ! python3 -c 'import sqlite3' 2> /dev/null; then
    echo "databases: there is no python3 with sqlite3 here"
    exit 0
fi
passed=0
failed=0
# how it ends, its status, and the options
ends() {
    local wanted=$1 status=$2 last ended
    shift 2
    last=$(timeout 120 python3 -B examples/databases/check.py sqlite --tpcc "$tpcc" --cards 60 \
        --customers 60 "$@" 2>&1 | tail -n 1)
    ended=$?
    if [ "$ended" -eq "$status" ] && [ "${last%%[: ]*}" = "$wanted" ]; then
        passed=$((passed + 1))
    else
        failed=$((failed + 1))
        echo "databases: sqlite $* ended with status $ended and '$last', not $wanted"
    fi
}
ends EQUAL 0 --isolation immediate
ends DIFFERENT 1 --naive
echo "databases: $passed passed, $failed failed"
[ "$failed" -eq 0 ]
