#!/usr/bin/env bash
# Each allocation refused in turn under the tests of refused.rt in tpcc_tests, each of which makes a call, looks that a refused one has
# changed nothing, and makes it again. Prints test by test how many allocations were refused within its call; those before it end the test, and say
# so. Stops at the first that differs.
#
# TESTS is the program of tests (in out/ of the crate, where `rt ci` leaves it); STEP (1) tries each STEP-th allocation alone.
set -u -o pipefail
top=$(cd "$(dirname "$0")/.." && pwd)
tests=$(realpath -m "${TESTS:-$top/crates/tpcc_tests/out/tpcc_tests_tests}")
[ -x "$tests" ] || { echo "refusals: there is no program at $tests; rt test in its crate's folder builds it"; exit 1; }
scratch=$(mktemp -d)
trap 'rm -rf "$scratch"' EXIT
trap 'exit 1' INT TERM
cd "$scratch" || exit 1

compiler=
for word in cc clang /opt/rattle/toolchain/bin/clang; do
    [ -z "$compiler" ] && command -v "$word" > /dev/null && compiler=$word
done
"${compiler:-cc}" -O1 -shared -fPIC -o failing.so "$top/programs/failing.c" || { echo "refusals: failing.c needs a C compiler"; exit 1; }

# One test with one allocation refused: 0 where it passed, 1 where it was refused before its call, 2 where it differs, 3 where there is
# no such allocation.
tried() {
    timeout 60 env FAILING="alloc $2" LD_PRELOAD="$scratch/failing.so" "$tests" "$1" > said 2>&1 9> hit
    local status=$?
    [ -s hit ] || return 3
    [ $status -eq 0 ] && return 0
    grep -q 'memory to begin with' said && return 1
    return 2
}

# Every allocation of one test refused in turn.
refuse() {
    local within=0
    for ((call = 1; ; call += ${STEP:-1})); do
        tried "$1" "$call" 2> /dev/null
        case $? in
            0) within=$((within + 1)) ;;
            2) echo "refusals: '$1' differs where allocation $call is refused:"; cat said; exit 1 ;;
            3) break ;;
        esac
    done
    [ "$within" -gt 0 ] || { echo "refusals: no allocation was refused within the call of '$1'"; exit 1; }
    echo "refusals: $1: $within"
    all=$((all + within))
}

begun=$SECONDS
all=0
names=$("$tests" --list | sed -n '/^refused::/s/: test$//p')
[ -n "$names" ] || { echo "refusals: $tests lists no test"; exit 1; }
for name in $names; do
    refuse "$name"
done
echo "refusals: $all refused allocations, in $((SECONDS - begun)) seconds"
