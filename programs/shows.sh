# shellcheck shell=bash
# Words are split on purpose, and run.sh sets what is not set here.
# shellcheck disable=SC2016,SC2086,SC2094,SC2154
# What is shown of scripts and of runs, read by run.sh after cases.sh. `it` and `by` are those of run.sh, `part` and
# `report_of_journal` those of cases.sh.

tables='WAREHOUSE DISTRICT CUSTOMER HISTORY ORDER ORDER-LINE NEW-ORDER ITEM STOCK'
every_part=
for part in screens report journal results check $tables; do every_part+=" --show $part"; done

# ---- a run's journal, given to a script of the same opening, shows the same of every part

# The report tells the entries of the journal and its payments, as what was paid and as the rise.
adds_up() {
    part report > stdout
    report_of_journal < journal > stdout.wanted
    compare "$1: its report" 0
}

same_parts() {
    left_out "$1" && return
    timeout "$seconds" "$tpcc" run $2 $3 $every_part > shown 2> stderr
    echo $? > status
    : > stderr.wanted
    cp shown stdout
    cp shown stdout.wanted
    compare "$1: how it ends" 0
    part journal > journal
    [ -s journal ] || differs "$1" journal
    adds_up "$1"
    cp shown stdout.wanted
    timeout "$seconds" "$tpcc" script $2 $every_part < journal > stdout 2> stderr
    echo $? > status
    compare "$1" 0
}

for seed in 1 7 42; do
    same_parts "every part again, seed $seed, 1 terminal"  "--seeded --seed $seed" '--terminals 1 --servers 1 --cards 60'
    same_parts "every part again, seed $seed, 4 terminals" "--seeded --seed $seed" '--terminals 4 --servers 2 --cards 40'
    same_parts "every part again, seed $seed, 9 terminals" "--seeded --seed $seed --warehouses 2" '--terminals 9 --servers 4 --cards 30'
    for terminals in 1 4 9; do
        same_parts "every part again, seed $seed, $terminals direct" "--seeded --seed $seed --warehouses 2" "--direct --terminals $terminals --cards 30"
    done
done
same_parts 'every part of a plain opening again' '--customers 20 --items 150' '--terminals 3 --servers 3 --retire 2 --cards 25'

# ---- the tables that a script leaves: their SHA-256, from a second program in another language that was written from
# docs/formats.md and docs/model.md

after_tour() {
    by "$1 after the tour" "\"$tpcc\" script --show $1 < '$top/examples/tour.txt' 2> stderr | sha256sum | cut -d' ' -f1 > stdout; echo \${PIPESTATUS[0]} > status" \
        0 '' "$2\\n"
}

after_tour WAREHOUSE e30013b1dcf8980f6ac5ce3b6190160f5a06951432c2bf81e290e0e4c4970927
after_tour DISTRICT 747f8afa34215b1adef3d6e90e7d1deebc30112abb956210839517e11e45faee
after_tour CUSTOMER 2abc6aeb11d19448fe6b0a56dfe633b129e0736d66b7714d96c7c7cf3a36af6b
after_tour HISTORY de071c59ee4cb46e938987432ea870240ea92780a9fad6f0f792264074826db8
after_tour ORDER 0dbf1d4ce7082b7b9101777b460f8626b5eb508f24c0d5930d0a8bb1249cd709
after_tour ORDER-LINE 2c290b51f6bd7e5d40cf319c52f8424b6d031928e2544634272864bd5ba5b1ce
after_tour NEW-ORDER e0a5b25620685613e8ed5746758a54ebe453bc92d9813046d5c6b433bf7101e8
after_tour ITEM 6e0ea839f76581502d611d4b879c1a7b6e4e22d6a388b0c1c466995398eb2c5b
after_tour STOCK b5e1316f234240a567bef5f49e71b7db13d5411eb0f852e2d18f51afb63446e4

# The tour's third payment is refused, and its last two lines are no requests.
it 'the journal of the tour' 'script --show journal' "@cat '$top/examples/tour.txt'" 0 '' \
    "@sed -e '/5000.01/d' -e '/^results/d' -e '/^check/d' '$top/examples/tour.txt'"
it 'the report of the tour'  'script --show report' "@cat '$top/examples/tour.txt'" 0 '' 'entries 17\npaid 2.00\nrise 2.00\n'
it 'the screens of the tour' 'script --show screens' "@cat '$top/examples/tour.txt'" 0 '' =examples/tour
it 'screens among parts'     'script --show check --show screens' "@cat '$top/examples/tour.txt'" 0 '' \
    "@printf '== check\nconsistent\n== screens\n'; cat '$top/examples/tour.stdout'"

# ---- how such a script may end: the parts are those of the lines before the fault

faulty="${first}payment 9 1 1 1 1 0.99 0\ncheck\n"
of_faulty='@printf "== journal\npayment 1 1 1 1 1 1.00 0\n== report\nentries 1\npaid 1.00\nrise 1.00\n== check\nconsistent\n"'
three='--show journal --show report --show check'
it 'parts before a bad line'      "script $three" "${faulty}x\n$first"                      2 'fault 1 Bad 4' "$of_faulty"
it 'parts before a cut line'      "script $three" "${faulty}check"                          2 'fault 2 Cut 4' "$of_faulty"
it 'parts before a long line'     "script $three" "@printf '$faulty'; times 4097 x; echo"   2 'fault 3 LongLine 4' "$of_faulty"
it 'parts after 1,000,000 lines'  'script --show report' "@printf '$first'; times 1000000 'results\n'" 2 'fault 4 TooManyLines' \
    'entries 1\npaid 1.00\nrise 1.00\n'
it 'screens before a bad line'    'script --show screens --show journal' 'check\nx\ncheck\n' 2 'fault 1 Bad 2' \
    '@printf "== screens\nconsistent\n== journal\n"'
it 'parts of no script'           'script --show report --show results' ''                  0 '' \
    '@printf "== report\nentries 0\npaid 0.00\nrise 0.00\n== results\n"'
it '16 parts of a script'         "script$(times 16 ' --show check')" ''                    0 '' "@times 16 '== check\nconsistent\n'"
by 'parts before a failed read'   '"$tpcc" script --show check < / > stdout 2> stderr; echo $? > status' 3 'fault 5 Read' 'consistent\n'
by 'a script'\''s parts to a full disk' 'printf "$first" | "$tpcc" script --show journal > /dev/full 2> stderr; echo ${PIPESTATUS[1]} > status' \
    3 'fault 6 Write' ''
for words in 'script --show' 'script --show rows' 'script --show item' 'script --show Journal' "script$(times 17 ' --show check')"; do
    it "words: $words" "$words" '' 1 'fault 1 Arguments' ''
done
