# shellcheck shell=bash
# Words are split on purpose, and run.sh sets what is not set here.
# shellcheck disable=SC2016,SC2086,SC2154
# Reads and writes that fail, or move one byte alone, read by run.sh.

# ---- standard input that fails

# A script with such a call, or what other words ask: its status, its line on standard error and its output.
badly() {
    left_out "$1" && return
    told "$3" > stdin
    told "$6" > stdout.wanted
    [ -z "$5" ] && : > stderr.wanted || echo "$5" > stderr.wanted
    failing "$2" ${7:-script}
    [ -s hit ] || differs "$1: the call was not reached" status
    compare "$1" "$4"
}

badly 'the first read fails'              'read 1'              "$first"            3 'fault 5 Read' ''
badly 'the read behind a line fails'      'read 2'              "$first"            3 'fault 5 Read' "$screen"
badly 'the read behind a cut line fails'  'read 2'              'check\nresult'     3 'fault 5 Read' 'consistent\n'
badly 'a line byte by byte'               'short-read 1'        "$first"            0 ''             "$screen"
badly 'interrupted 1,000 times'           'interrupt-read 1000' "$first"            0 ''             "$screen"
badly 'interrupted 1,001 times'           'interrupt-read 1001' "$first"            3 'fault 5 Read' ''

# ---- standard output that fails

badly 'the first byte of a write alone'   'short-write 1'       "$first"            0 ''             "$screen"
badly 'a write interrupted 1,000 times'   'interrupt-write 1000' "$first"           0 ''             "$screen"
badly 'a write interrupted 1,001 times'   'interrupt-write 1001' "$first"           3 'fault 6 Write' ''
badly 'a dump that is interrupted'        'interrupt-write 1'   ''                  0 ''             '@timeout "$seconds" "$tpcc" dump STOCK' 'dump STOCK'

# Each read that fails, one in turn; and each read and each write that moves one byte alone. A failed read leaves a first part of the right
# output, which ends with a whole line; the others leave all of it.
calls_in_all=0
in_turn() {
    left_out "in turn: $2" && return
    local kind call size before=$calls_in_all
    told "$1" > stdin
    timeout "$seconds" "$tpcc" $2 < stdin > whole 2> whole.fault
    echo $? > whole.status
    for kind in read short-read short-write; do
        for ((call = 1; ; call++)); do
            failing "$kind $call" $2
            [ -s hit ] || break
            cp whole stdout.wanted
            cp whole.fault stderr.wanted
            if [ $kind = read ]; then
                size=$(stat -c %s stdout)
                head -c "$size" whole > stdout.wanted
                [ "$size" -eq 0 ] || [ -z "$(tail -c 1 stdout)" ] || differs "in turn: $2, $kind $call" stdout
                echo 'fault 5 Read' > stderr.wanted
                compare "in turn: $2, $kind $call" 3
            else
                compare "in turn: $2, $kind $call" "$(cat whole.status)"
            fi
            run=$((run - 1))
            calls_in_all=$((calls_in_all + 1))
        done
    done
    [ "$calls_in_all" -gt "$before" ] || differs "in turn: $2: no call was reached" status
    run=$((run + 1))
}

for name in new_order payment order_status delivery stock_level refusals tour bad_line; do in_turn "@cat '$top/examples/$name.txt'" "script"; done
in_turn "@cat '$top/examples/two_warehouses.txt'" 'script --warehouses 2'
in_turn '@times 1500 "payment 1 1 1 1 1 1.00 0\n"' script
for table in WAREHOUSE DISTRICT CUSTOMER HISTORY ORDER ORDER-LINE NEW-ORDER ITEM STOCK; do in_turn '' "dump $table"; done
in_turn '' 'run --terminals 2 --servers 2 --cards 0'

# Output goes out in blocks: what these words write takes fewer calls than this.
in_blocks() {
    left_out "in blocks: $1" && return
    told "$3" > stdin
    timeout "$seconds" "$tpcc" $2 < stdin > stdout.wanted 2> stderr.wanted
    failing 'count-writes 0' $2
    [ "$(cat hit)" -lt "$4" ] || { echo "$(cat hit) writes, not fewer than $4"; differs "in blocks: $1" 'its writes'; }
    compare "in blocks: $1" 0
}

# Some 650,000 bytes of screens, with a flush before each of five reads; and texts of some 40,000 to 300,000 bytes.
in_blocks '1,500 payments'             script                    '@times 1500 "payment 1 1 1 1 1 1.00 0\n"' 100
in_blocks 'the journal of a script'    'script --show journal'   '@times 1500 "payment 1 1 1 1 1 1.00 0\n"' 20
in_blocks 'the requests of 1,500 cards' 'requests --cards 1500'  '' 20
in_blocks 'a dump of 5,000 items'      'dump ITEM --items 5000'  '' 20

# Standard output that takes each number of bytes, fewer than all, and then fails; or each seventh, and then takes nothing.
bytes_in_all=0
cut_off() {
    left_out "cut off: $1" && return
    local call bytes size
    told "$3" > stdin
    timeout "$seconds" "$tpcc" $1 < stdin > whole
    size=$(stat -c %s whole)
    [ "$size" -gt 0 ] || differs "cut off: $1: nothing was written" stdout
    for call in full nothing; do
        for ((bytes = 0; bytes < size; bytes += $([ $call = full ] && echo 1 || echo 7))); do
            failing "$call $bytes" $1
            echo "$2" > stderr.wanted
            head -c "$bytes" whole > stdout.wanted
            compare "cut off: $1, $call $bytes" 3
            run=$((run - 1))
            bytes_in_all=$((bytes_in_all + 1))
        done
    done
    run=$((run + 1))
}

cut_off script 'fault 6 Write' "$first$first"
cut_off 'dump WAREHOUSE' 'fault 1 Write' ''
cut_off 'run --terminals 1 --cards 0' 'fault 4 Write' ''
