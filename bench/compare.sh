#!/usr/bin/env bash
# The words of a command are kept in one string, and split on purpose.
# shellcheck disable=SC2059,SC2086,SC2206
# Runs the product and the plain program of bench/plain over the same command lines, scripts, dumps and runs, and compares
# bytes, exit statuses and faults. It stops at the first difference and keeps that case in a folder that it names.
#
# Scripts are drawn by the plain program. Each is run for its screens, and once more for every part of its book: the report,
# the journal, the delivery result log, the check and the nine tables. What the scripts met is counted in the plain
# program's parts, and twenty scripts or more that did not meet all of it fail.
#
# SCRIPTS (200) and DUMPS (100) are how many are drawn, LINES (150) how long a script is, SEED (1) what they are drawn
# from, KEEP where a difference is kept. BUILT names a crates/ folder where the product is built already. SECONDS_EACH (60)
# is what one call may take. CHECKS=all leaves the lines `check` also in scripts at more than 1,000 customers. TOTALS=yes
# adds a script of 666,669 orders, which alone meets refusal 15: it takes a minute or two, and 3 GB of memory.
set -eu -o pipefail
. "$(dirname "$0")/plain/built.sh"
scripts=${SCRIPTS:-200}
dumps=${DUMPS:-100}
lines=${LINES:-150}
seed=${SEED:-1}
limit=${SECONDS_EACH:-60}
cases=0
tables='WAREHOUSE DISTRICT CUSTOMER HISTORY ORDER ORDER-LINE NEW-ORDER ITEM STOCK'
every_part=
for part in screens report journal results check $tables; do every_part+=" --show $part"; done

# Keeps the case that was compared last.
differ() {
    local kept=${KEEP:-$(mktemp -d "${TMPDIR:-/tmp}/difference.XXXXXX")}
    mkdir -p "$kept"
    cp "$input" "$kept/stdin" 2> "$work/none" || true
    cp "$work"/product.* "$work"/plain.* "$kept/"
    echo "tpcc $words" > "$kept/words"
    echo "$1 differ after $cases cases: tpcc $words; kept in $kept"
    exit 1
}

# Runs one program by its name: its output, faults and status in files of that name. `sink` may take the output instead.
run_one() {
    local name=$1 status=0
    shift
    : > "$work/$name.out"
    timeout "$limit" "${!name}" "$@" < "$input" > "${sink:-$work/$name.out}" 2> "$work/$name.err" || status=$?
    echo "$status" > "$work/$name.status"
}

# Compares both programs on these words and this input.
both() {
    words="$*"
    cases=$((cases + 1))
    run_one product "$@"
    run_one plain "$@"
    cmp -s "$work/product.status" "$work/plain.status" || differ statuses
    cmp -s "$work/product.err" "$work/plain.err" || differ faults
    cmp -s "$work/product.out" "$work/plain.out" || differ outputs
}

compare_words() {
    local line
    input=/dev/null
    while read -r line; do
        both $line
    done < "$top/bench/plain/words.txt"
    both
    both script --seed ''
    both dump ''
}

# The screens of the script that is the input, and every part of its book; the words are more options.
both_of_script() {
    both script "$@"
    both script "$@" $every_part
    note
}

# Adds what the script that ran last met, by the parts that the plain program shows.
note() {
    awk '
        /^== / { part = $2 }
        part == "screens" && /^refused / { print "refusal", $2 }
        part == "screens" && /^C_DATA=/ { print "a payer of bad credit" }
        part == "screens" && / Item number is not valid$/ { print "a rolled back order" }
        part == "journal" && $1 == "payment" && $2 != $4 { print "a payer of another warehouse" }
        part == "results" && /^delivered / { print "a whole ticket" }
        part == "ORDER" && /,0$/ { print "a line from another warehouse" }
    ' "$work/plain.out" | sort -u >> "$work/met"
}

# What scripts meet, each with the number of scripts that met it. No script meets the refusals 10, 11, 13, 14 and 16, and
# one of 666,667 orders refusal 15.
tell_met() {
    local what count missing=
    for what in 'refusal '{1,2,3,4,5,6,7,8,9,12} ${TOTALS:+'refusal 15'} 'a payer of bad credit' 'a payer of another warehouse' \
        'a rolled back order' 'a line from another warehouse' 'a whole ticket'; do
        count=$(grep -c -x "$what" "$work/met" || true)
        echo "scripts with $what: $count"
        [ "$count" -gt 0 ] || missing="$missing, $what"
    done
    [ -z "$missing" ] || [ "$scripts" -lt 20 ] || { echo "met in no script: ${missing#, }"; exit 1; }
}

# A script by printf's rules.
fixed() {
    input="$work/script"
    printf "$@" > "$input"
    both_of_script
}

repeated() {
    awk -v line="$1" -v count="$2" 'BEGIN { while (count-- > 0) print line }'
}

compare_fixed_scripts() {
    for input in "$top"/examples/*.txt; do
        both_of_script
        both_of_script --seeded --seed 5 --moment 4102444799 --warehouses 2
    done
    fixed ''
    fixed '\n'
    fixed 'check'
    fixed 'check\nx'
    fixed 'check\n\n'
    fixed "%4096s" x
    fixed "%4097s" x
    fixed "%4096s\n" x
    fixed "%4097s\n" x
    fixed "%4096s\ncheck" "$(head -c 4096 < /dev/zero | tr '\0' x)"
    fixed "check\n%70000s" x
    # More tickets than there is room for, and some of their runs.
    input="$work/script"
    { repeated 'delivery 1 3 60' 1001; repeated 'deliver 120' 45; echo results; echo 'delivery 1 1 1'; echo check; } > "$input"
    both_of_script
    # The greatest number of lines, and one byte more.
    repeated results 1000000 > "$input"
    both script
    echo >> "$input"
    both script
}

# A folder can't be read, and a full disk takes nothing.
compare_failing_files() {
    local sink
    input=/
    both script
    for sink in /dev/full /dev/null; do
        for input in "$top"/examples/*.txt; do
            both script
        done
        both dump STOCK
        both dump WAREHOUSE
        both run --cards 0
    done
}

# The scale and the opening of the k-th case, as words.
options_of() {
    local k=$1 of=("${@:2}")
    local scale=(${of[$((k % ${#of[@]}))]})
    options=(--warehouses "${scale[0]}" --customers "${scale[1]}" --items "${scale[2]}")
    case $((k / ${#of[@]} % 4)) in
        0) ;;
        1) options+=(--seeded) ;;
        2) options+=(--seeded --seed "$((seed + k))" --moment "$((k * 3999971 % 4102444800))") ;;
        3) options+=(--seeded --seed 18446744073709551615 --moment 4102444799) ;;
    esac
}

compare_scripts() {
    local k kinds=(valid mixed hostile tour)
    input="$work/script"
    for ((k = 0; k < scripts; k++)); do
        options_of "$k" '1 10 100' '2 10 100' '3 20 137' '1 40 200' '1 1100 100'
        "$plain" generate --kind "${kinds[$((k % 4))]}" --lines "$lines" "${options[@]:0:6}" \
            --seed "$((seed * 100003 + k))" > "$input"
        [ "${options[3]}" -le 1000 ] || [ "${CHECKS:-}" = all ] || LC_ALL=C sed -i '/^check$/d' "$input"
        both_of_script "${options[@]}"
    done
}

# S_YTD of one item at its limit of 99,999,999: each order takes 150 of it.
compare_totals() {
    input="$work/script"
    {
        repeated "new-order 1 1 1 0$(repeated ' 1:1:10' 15 | tr -d '\n')" 666666
        echo 'new-order 1 1 1 0 1:1:10 1:1:10 1:1:10 1:1:10 1:1:10'
        echo 'new-order 1 1 1 0 1:1:10 1:1:10 1:1:10 1:1:10 1:1:9'
        repeated "new-order 1 1 1 0$(repeated ' 1:1:10' 15 | tr -d '\n')" 3
    } > "$input"
    both script --show report --show check --show STOCK
    # a gigabyte of screens, of which the last ones are compared
    "$product" script < "$input" | tail -n 30 > "$work/product.out"
    "$plain" script < "$input" | tail -n 30 > "$work/plain.out"
    cmp -s "$work/product.out" "$work/plain.out" || differ outputs
    ! grep -q '^refused 15 Total StockYtd$' "$work/plain.out" || echo 'refusal 15' >> "$work/met"
}

compare_dumps() {
    local k of=($tables)
    input=/dev/null
    for ((k = 0; k < dumps; k++)); do
        options_of "$k" '1 10 100' '2 20 150' '1 1200 100' '3 30 1000' '100 10 100'
        both dump "${of[$((k % 9))]}" "${options[@]}"
    done
}

# What the terminals draw: as lines of a script, and by what runs of threads pay.
compare_terminals() {
    local k
    for k in 1 2 7; do
        options_of "$k" '1 10 100' '4 30 1000' '2 1200 100'
        input="$work/script"
        "$plain" requests --terminal "$k" --cards 150 "${options[@]}" > "$input"
        both_of_script "${options[@]}"
        input=/dev/null
        both run --cards 0 "${options[@]}" $every_part
        words="run --terminals $k --cards 50 ${options[*]}"
        cases=$((cases + 1))
        run_one product $words
        run_one plain $words
        # How often the delivery runner asks is left to the threads, so the entries may differ.
        sed -i /^entries/d "$work/product.out" "$work/plain.out"
        cmp -s "$work/product.status" "$work/plain.status" || differ statuses
        cmp -s "$work/product.out" "$work/plain.out" || differ outputs
    done
}

# How many entries the serial programs make, where the product's is built.
compare_serial() {
    local serial="$BUILT/tpcc_bench/out/tpcc_bench" terminals
    local scale=(--seeded --warehouses 4 --customers 300 --items 10000)
    [ -x "$serial" ] || return 0
    input=/dev/null
    for terminals in 1 5 41; do
        words="serial ${scale[*]} --terminals $terminals --cards 10"
        cases=$((cases + 1))
        "$serial" "$terminals" 10 | tail -n 1 > "$work/product.out"
        "$plain" $words | head -n 1 > "$work/plain.out"
        cmp -s "$work/product.out" "$work/plain.out" || differ outputs
    done
}

compare_words
compare_fixed_scripts
compare_failing_files
compare_terminals
compare_serial
compare_dumps
compare_scripts
[ -z "${TOTALS:-}" ] || compare_totals
tell_met
echo "no difference in $cases cases, of them $scripts drawn scripts and $dumps dumps, in $SECONDS seconds"
