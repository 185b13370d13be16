# shellcheck shell=bash
# Words are split on purpose, and run.sh sets what is not set here.
# shellcheck disable=SC2016,SC2086,SC2154
# Allocations and threads that are refused, one in turn, read by run.sh. What may come of a refused allocation is worked out from runs in which
# nothing fails: the right output; want of memory behind the screens of some first lines; or one request refused for want of memory and the
# other lines served as if it were not there.

# What the last run came to, in one word.
outcome() {
    cat status stderr stdout | cksum | tr ' ' -
}

# Adds an outcome that is allowed: a status, a line on standard error, and a file with the output.
allow() {
    echo "$1" > status
    if [ -z "$2" ]; then : > stderr; else echo "$2" > stderr; fi
    cp "$3" stdout
    allowed[$(outcome)]=1
}

# The outcomes that are allowed of a script with no fault whose allocations are refused.
allow_script() {
    local lines k before words=$2
    allowed=()
    lines=$(wc -l < "$1")
    : > first_part
    allow 4 'fault 2 NoMemory' first_part
    for ((k = 0; k <= lines; k++)); do
        head -n "$k" "$1" | timeout "$seconds" "$tpcc" $words > screens.$k 2> /dev/null
        allow 4 'fault 7 NoMemory' screens.$k
    done
    timeout "$seconds" "$tpcc" $words < "$1" > screens
    allow 0 '' screens
    for ((k = 1; k <= lines; k++)); do
        case "$(sed -n "${k}p" "$1")" in check | results) continue ;; esac
        sed "${k}d" "$1" | timeout "$seconds" "$tpcc" $words > others
        before=$(stat -c %s screens.$((k - 1)))
        { cat screens.$((k - 1)); echo 'refused 16 NoMemory'; tail -c +$((before + 1)) others; } > refused
        allow 0 '' refused
    done
}

declare -A allowed
refused_in_all=0

# The number of allocations that these words make on no input.
allocations() {
    : > stdin
    failing 'count 0' $1
    cat hit
}

# A case under which nothing was refused shows nothing.
was_refused() {
    [ "$2" -gt 0 ] || differs "$1: nothing was refused" status
}

# Every so-manieth allocation of a script refused in turn, from one on.
refuse_script() {
    local name=$1 words=$2 from=$3 step=$4 call
    left_out "refused memory: $name" && return
    allow_script "$top/$name.txt" "$words"
    cp "$top/$name.txt" stdin
    for ((call = from; ; call += step)); do
        failing "alloc $call" $words
        [ -s hit ] || break
        if [ -z "${allowed[$(outcome)]:-}" ]; then
            cp screens stdout.wanted
            cat stderr
            differs "refused memory: $name, allocation $call" stdout
        fi
        refused_in_all=$((refused_in_all + 1))
    done
    was_refused "refused memory: $name" $((call - from))
    run=$((run + 1))
}

# Of the opening a part; of what comes behind it all, or each third. STEP is the step for all of it.
behind=$(($(allocations script) + 1))
refuse_script examples/first_payment script 1 "${STEP:-97}"
refuse_script examples/first_payment script "$behind" 1
refuse_script examples/tour script "$behind" 1
for name in new_order payment order_status delivery stock_level refusals; do
    refuse_script "examples/$name" script "$behind" "${STEP:-3}"
done
refuse_script examples/two_warehouses 'script --warehouses 2' $(($(allocations 'script --warehouses 2') + 1)) "${STEP:-3}"

# A dump whose allocations, or each so-manieth one, are refused in turn: all of it, or want of memory and a first part.
refuse_dump() {
    left_out "refused memory: $1" && return
    local call
    : > stdin
    timeout "$seconds" "$tpcc" $1 > whole
    for ((call = 1; ; call += ${2:-${STEP:-97}})); do
        failing "alloc $call" $1
        [ -s hit ] || break
        : > stderr.wanted
        cp whole stdout.wanted
        if [ "$(cat status)" != 0 ]; then
            echo 'fault 2 NoMemory' > stderr.wanted
            head -c "$(stat -c %s stdout)" whole > stdout.wanted
        fi
        compare "refused memory: $1, allocation $call" "$(wanted_status)"
        run=$((run - 1))
        refused_in_all=$((refused_in_all + 1))
    done
    was_refused "refused memory: $1" $((call - 1))
    run=$((run + 1))
}

for table in WAREHOUSE DISTRICT CUSTOMER HISTORY ORDER ORDER-LINE NEW-ORDER ITEM STOCK; do refuse_dump "dump $table"; done
refuse_dump 'dump ITEM --seeded'
refuse_dump 'requests --cards 24' 1

# A run whose allocations, or each so-manieth one, are refused in turn: a report of equal amounts, or want of memory and nothing.
refuse_run() {
    left_out "alloc refused: $1" && return
    local call
    : > stdin
    for ((call = 1; ; call += $2)); do
        failing "alloc $call" $1
        [ -s hit ] || break
        wants_report 'fault 3 NoMemory' 'fault 2 NoMemory'
        compare "alloc refused: $1, call $call" "$(wanted_status)"
        run=$((run - 1))
        refused_in_all=$((refused_in_all + 1))
    done
    was_refused "alloc refused: $1" $((call - 1))
    run=$((run + 1))
}

refuse_run 'run --terminals 2 --servers 2 --cards 3' "${STEP:-41}"

# What a run comes to that was refused a thread: it ends, and for want of memory alone, whatever else is missing then.
lacks_thread() {
    : > stdout.wanted
    echo 'fault 3 NoMemory' > stderr.wanted
    compare "$1" 4
}

# Each thread of a run refused in turn.
refuse_threads() {
    left_out "thread refused: $1" && return
    local call
    : > stdin
    for ((call = 1; ; call++)); do
        failing "thread $call" $1
        [ -s hit ] || break
        lacks_thread "thread refused: $1, call $call"
        run=$((run - 1))
        refused_in_all=$((refused_in_all + 1))
    done
    [ "$call" -gt "$2" ] || differs "thread refused: $1: only $((call - 1)) threads" status
    run=$((run + 1))
}

# Three terminals, the delivery runner, and the servers.
refuse_threads 'run --terminals 3 --servers 3 --cards 1' 7
refuse_threads 'run --terminals 3 --direct --cards 1' 4
refuse_threads 'run --terminals 3 --servers 2 --cards 1 --show journal --show check' 6

# The first so many threads of a run refused, which are its servers'. Where none of them can be made nobody waits for an answer.
refuse_first() {
    left_out "$1 threads refused: $2" && return
    local all
    : > stdin
    failing "first-threads $1" $2
    all=$(wc -c < hit)
    [ "$all" -eq "$1" ] || differs "$1 threads refused: $2: $all were" status
    lacks_thread "$1 threads refused: $2"
    refused_in_all=$((refused_in_all + all))
}

# Every thread of a run refused.
refuse_every() {
    left_out "every thread refused: $1" && return
    : > stdin
    failing 'first-threads 1000' $1
    [ -s hit ] || differs "every thread refused: $1: none was" status
    lacks_thread "every thread refused: $1"
    refused_in_all=$((refused_in_all + $(wc -c < hit)))
}

refuse_first 1 'run --terminals 2 --servers 1 --cards 3'
refuse_first 3 'run --terminals 2 --servers 3 --cards 3'
refuse_first 3 'run --terminals 2 --servers 3 --retire 1 --cards 3'
# One server is left.
refuse_first 1 'run --terminals 2 --servers 2 --cards 4'
refuse_first 2 'run --terminals 2 --servers 3 --cards 4'
for words in '--servers 1' '--servers 3' --direct; do refuse_every "run --terminals 2 $words --cards 3"; done

# Such a run writes nothing, so a full disk is not what it ends with.
by 'a thread refused and a full disk' 'timeout "$seconds" env FAILING="first-threads 1" LD_PRELOAD="$scratch/failing.so" "$tpcc" run --cards 1 \
    < /dev/null > /dev/full 2> stderr 9> hit; echo $? > status' 4 'fault 3 NoMemory' ''
