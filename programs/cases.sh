# shellcheck shell=bash
# Words are split on purpose, and run.sh sets what is not set here.
# shellcheck disable=SC2016,SC2059,SC2086,SC2094,SC2154
# The table of cases, read by run.sh. `it` has a name, the program's words, the input, the exit status, the line on
# standard error and the output. An empty column is nothing; after @ stands a command, after = a script's stored screens.

address=MAINSTREET,SIDESTREET,CITYCENTRE,AB,000111111

# The screens of so many payments of 5,000.00 by customer 1.
payments() {
    awk -v count="$1" -v address=$address 'BEGIN { for (i = 1; i <= count; i++) {
        printf "payment W_ID=1 D_ID=1 C_W_ID=1 C_D_ID=1 C_ID=1 H_AMOUNT=5000.00 H_DATE=1970-01-01T00:00:00\n"
        printf "warehouse %s\ndistrict %s\n", address, address
        printf "customer FIRST9998 OE BARBARBAR %s C_PHONE=0000000000000001 C_SINCE=1970-01-01T00:00:00", address
        printf " C_CREDIT=GC C_CREDIT_LIM=50000.00 C_DISCOUNT=0.0100 C_BALANCE=-%d.00\n", 10 + 5000 * i } }'
}

# ---- bad scripts: each line is a script of its own on a fresh book

it 'no script at all'            script ''                                      0 ''              ''
it 'no line feed'                script 'payment 1 1 1 1 1 1.00 0'              2 'fault 2 Cut 1' ''
it 'a cut second line'           script 'check\nx'                              2 'fault 2 Cut 2' 'consistent\n'
it 'an empty second line'        script 'check\n\ncheck\n'                     2 'fault 1 Bad 2' 'consistent\n'
it 'a space behind a second'     script 'check\ncheck \n'                      2 'fault 1 Bad 2' 'consistent\n'
it 'a bad third line'            script 'check\nresults\nx\ncheck\n'            2 'fault 1 Bad 3' 'consistent\n'
it 'an empty line'               script '\n'                                    2 'fault 1 Bad 1' ''
it 'a ninth word'                script 'payment 1 1 1 1 1 1.00 0 0\n'          2 'fault 1 Bad 1' ''
it 'a word too few'              script 'payment 1 1 1 1 1 1.00\n'              2 'fault 1 Bad 1' ''
it 'two spaces'                  script 'payment  1 1 1 1 1 1.00 0\n'           2 'fault 1 Bad 1' ''
it 'a space at the end'          script 'payment 1 1 1 1 1 1.00 0 \n'           2 'fault 1 Bad 1' ''
it 'a space at the head'         script ' check\n'                              2 'fault 1 Bad 1' ''
it 'a carriage return'           script 'payment 1 1 1 1 1 1.00 0\r\n'          2 'fault 1 Bad 1' ''
it 'a tab for a space'           script 'deliver\t0\n'                          2 'fault 1 Bad 1' ''
it 'a byte of zero'              script 'check\000\n'                           2 'fault 1 Bad 1' ''
it 'a byte that is not ASCII'    script 'check\303\n'                           2 'fault 1 Bad 1' ''
it 'capital letters'             script 'CHECK\n'                               2 'fault 1 Bad 1' ''
it 'a needless zero'             script 'payment 1 1 1 1 01 1.00 0\n'           2 'fault 1 Bad 1' ''
it 'a sign'                      script 'deliver +1\n'                          2 'fault 1 Bad 1' ''
it 'a name in small letters'     script 'payment 1 1 1 1 bar 1.00 0\n'          2 'fault 1 Bad 1' ''
it 'a name of 17 letters'        script 'payment 1 1 1 1 ABCDEFGHIJKLMNOPQ 1.00 0\n' 2 'fault 1 Bad 1' ''
it 'a name of 16 letters'        script 'payment 1 1 1 1 ABCDEFGHIJKLMNOP 1.00 0\n'  0 '' 'refused 3 NoCustomer\n'
it 'a name and a digit'          script 'status 1 1 BAR1\n'                     2 'fault 1 Bad 1' ''
it 'an order by last name'       script 'new-order 1 1 BARBARBAR 0 1:1:1\n'     2 'fault 1 Bad 1' ''
it 'a line of two parts'         script 'new-order 1 1 1 0 1:1\n'               2 'fault 1 Bad 1' ''
it 'a line of four parts'        script 'new-order 1 1 1 0 1:1:1:1\n'           2 'fault 1 Bad 1' ''
it 'a line with a needless zero' script 'new-order 1 1 1 0 1:01:1\n'            2 'fault 1 Bad 1' ''
it 'no lines'                    script 'new-order 1 1 1 0\n'                   0 '' 'refused 4 LineCount\n'
it 'an amount of one decimal'    script 'payment 1 1 1 1 1 1.0 0\n'             2 'fault 1 Bad 1' ''
it 'an amount of three decimals' script 'payment 1 1 1 1 1 1.000 0\n'           2 'fault 1 Bad 1' ''
it 'an amount with no units'     script 'payment 1 1 1 1 1 .50 0\n'             2 'fault 1 Bad 1' ''
it 'an amount with a needless 0' script 'payment 1 1 1 1 1 01.00 0\n'           2 'fault 1 Bad 1' ''
it 'an amount below zero'        script 'payment 1 1 1 1 1 -1.00 0\n'           2 'fault 1 Bad 1' ''
it 'an amount past the largest'  script 'payment 1 1 1 1 1 10000000000.00 0\n'  2 'fault 1 Bad 1' ''
it 'the largest amount'          script 'payment 1 1 1 1 1 9999999999.99 0\n'   0 '' 'refused 7 Amount\n'
it 'the smallest amount'         script 'payment 1 1 1 1 1 0.00 0\n'            0 '' 'refused 7 Amount\n'
it 'a number past 32 bits'       script 'stock 1 1 4294967296\n'                2 'fault 1 Bad 1' ''
it 'the largest number'          script 'stock 1 1 4294967295\n'                0 '' 'refused 9 Threshold\n'
it 'a moment of 2100'            script 'deliver 4102444800\n'                  2 'fault 1 Bad 1' ''
it 'the last second of 2099'     script 'deliver 4102444799\n'                  0 '' 'no delivery queued\n'
it 'the first refusal is told'   script 'payment 9 1 1 1 1 0.99 0\n'            0 '' 'refused 1 NoWarehouse\n'
it 'customer 0'                  script 'status 1 1 0\n'                        0 '' 'refused 3 NoCustomer\n'
it 'both warehouses come first'  script 'payment 1 11 9 1 1 1.00 0\n'           0 '' 'refused 1 NoWarehouse\n'
it 'a district before an amount' script 'payment 1 11 1 1 1 0.99 0\n'           0 '' 'refused 2 NoDistrict\n'
it 'lines before a roll-back'    script 'new-order 1 1 1 0 101:1:1\n'           0 '' 'refused 4 LineCount\n'
it 'a supply before a roll-back' script 'new-order 1 1 1 0 1:1:1 2:1:1 3:1:1 4:2:1 101:1:1\n' 0 '' 'refused 6 NoSupply\n'
it 'two words of a check'        script 'check 1\n'                             2 'fault 1 Bad 1' ''
for line in ' ' Check 'check ' 'check results' 'results 1' 'payment 1  1 1 1 1 1.00 0' ' payment 1 1 1 1 1 1.00 0' \
    'payment 1 1 1 1 BAR1 1.00 0' 'status 1 1' deliver 'delivery 1 3' 'new-order 1 1 1' 'new-order 1 1 BARBARBAR 0' \
    'new-order 1 1 1 0 1:1:1 ' 'new-order 1 1 1 0 1::1'; do
    it "a bad line: '$line'" script "$line\n" 2 'fault 1 Bad 1' ''
done
it 'nothing that was delivered'  script 'results\n'                             0 '' ''

# ---- long lines and long scripts

it '4,096 bytes'                 script '@times 4096 x; echo'                   2 'fault 1 Bad 1' ''
it '4,097 bytes'                 script '@times 4097 x; echo'                   2 'fault 3 LongLine 1' ''
it '4,096 bytes, cut'            script '@times 4096 x'                         2 'fault 2 Cut 1' ''
it '4,097 bytes, cut'            script '@times 4097 x'                         2 'fault 3 LongLine 1' ''
it 'an order of 4,096 bytes'     script '@printf "new-order 1 1 1 0 99:1:1"; times 677 " 1:1:1"; printf " 99999:1:1\n"' 0 '' 'refused 4 LineCount\n'
it 'an order of 4,097 bytes'     script '@printf "new-order 1 1 1 0 99:1:1"; times 677 " 1:1:1"; printf " 999999:1:1\n"' 2 'fault 3 LongLine 1' ''
it 'a long second line'          script '@echo check; times 4097 x'             2 'fault 3 LongLine 2' 'consistent\n'
it '1,000,000 lines'             script '@times 1000000 "results\n"'            0 '' ''
it '1,000,000 lines and a byte'  script '@times 1000000 "results\n"; printf x'  2 'fault 4 TooManyLines' ''
it '1,000,001 lines'             script '@times 1000001 "results\n"'            2 'fault 4 TooManyLines' ''
it '1,001 tickets'               script '@times 1001 "delivery 1 1 0\n"'        0 '' '@times 1000 "delivery W_ID=1 O_CARRIER_ID=1 Delivery has been queued\n"; echo refused 12 QueueFull'
it '1,000 payments'              script '@times 1000 "payment 1 1 1 1 1 5000.00 0\n"; echo check' 0 '' '@payments 1000; echo consistent'

# ---- words of the command line

for words in '' serve help --help --version 'script --help' 'run --version' 'script extra' dump 'dump FOO' 'dump warehouse' 'dump ORDERS' \
    'dump FOO --warehouses 0' 'dump ORDER_LINE' 'dump WAREHOUSE ITEM' 'script --cards 1' 'dump ITEM --terminals 1' 'script --speed 1' \
    'run --terminals 0' 'run --terminals 1000' 'run --servers 0' 'run --servers 17' 'run --cards 100001' 'run --retire 100001' \
    'run --direct --servers 1' 'run --retire 0 --direct' 'run --direct --direct' 'run --direct 1' 'script --direct' \
    'run --terminals x' 'run --terminals 0 --warehouses 0' 'script --moment 4102444800' 'script --seed -1' \
    'script --seed 18446744073709551616' 'script --items -1' 'script --items 4294967296' 'script --items' \
    'script --items 100 --items 200' 'script --seeded 1' 'script --seeded --seeded' 'run --show' 'run --show rows' 'run --show item' \
    'run --show Journal' 'script --show receipts' 'script --show journal --show receipts' 'dump receipts' 'dump ITEM --show journal' "run $(times 17 ' --show check')" \
    'requests --terminal 0' 'requests --terminal 1001' 'requests --cards 100001' 'requests 1' 'requests --terminals 1' 'requests --show journal'; do
    it "words: $words" "$words" '' 1 'fault 1 Arguments' ''
done
for words in 'script --warehouses +1' 'script --customers 010' 'script --items 000100' 'script --items=-0' 'dump ITEM --seed +1' 'script --seed 00' \
    'script --moment 060' 'run --moment +0' 'run --terminals +2' 'run --servers 01' 'run --cards 00' 'run --retire +0' 'requests --terminal 01' 'requests --cards +23'; do
    it "no script's number: $words" "$words" '' 1 'fault 1 Arguments' ''
done
it "a script's zeros"            'script --seed 0 --moment 0'                'results\n' 0 '' ''
by 'a table and a space'         '"$tpcc" dump "ITEM " > stdout 2> stderr; echo $? > status'           1 'fault 1 Arguments' ''
for number in 0 101 4294967295; do it "$number warehouses" "script --warehouses $number" '' 1 'fault 1 Warehouses' ''; done
for number in 0 5 15 3010 4294967295; do it "$number customers" "script --customers $number" '' 1 'fault 2 Customers' ''; done
for number in 0 99 100001 4294967295; do it "$number items" "script --items $number" '' 1 'fault 3 Items' ''; done
for words in '--terminals 999' '--terminals 999 --direct' '--servers 16' '--cards 100000' '--retire 100000' '--moment 4102444799'; do
    it "the limit is taken: $words" "run $words --warehouses 0" '' 1 'fault 1 Warehouses' ''
done
it 'the first fault of a scale'  'run --warehouses 0 --customers 0 --items 0' '' 1 'fault 1 Warehouses' ''
it 'the second before the third' 'dump ITEM --customers 0 --items 0' '' 1 'fault 2 Customers' ''
it 'the most warehouses'         'script --warehouses 100'                   'results\n' 0 '' ''
it 'the largest district'        'script --customers 3000 --items 100000'    ''        0 '' ''
it 'a seed past 32 bits'         'script --seeded --seed 18446744073709551615 --moment 4102444799' 'check\n' 0 '' 'consistent\n'

# ---- what the options of the opening mean: each has a value of its own, and none a default

it 'the plain warehouse' 'dump WAREHOUSE' '' 0 '' \
    'W_ID,W_NAME,W_STREET_1,W_STREET_2,W_CITY,W_STATE,W_ZIP,W_TAX,W_YTD\n1,WARE001,MAINSTREET,SIDESTREET,CITYCENTRE,AB,000111111,0.1000,1000.00\n'
it 'three seeded warehouses' 'dump WAREHOUSE --warehouses 3 --customers 20 --items 110 --seeded --seed 7 --moment 86400' '' 0 '' \
    'W_ID,W_NAME,W_STREET_1,W_STREET_2,W_CITY,W_STATE,W_ZIP,W_TAX,W_YTD\n1,psvrGPkH,I3gR7697Ajm,z8m3tQiGnQDnTkWjv,Sxc3FsZzgR4L,PH,149711111,0.0159,2000.00\n2,TqVfBu4Rr,Kr82M6OgFJ4g9w,QuJzFlcuK3eO7jp,yO3TUdYWwZeSpg,B4,735211111,0.1609,2000.00\n3,UIb8ZtwFbS,8eKWOwijwh3qj3dC8,VjejxKh9QzaJjm,O3s4Frb26lGYqtjwTmPn,Wu,781711111,0.1251,2000.00\n'

# The SHA-256 of each table, from a second program in another language that was written from docs/formats.md and docs/model.md.
dumped() {
    by "dump $1" "\"$tpcc\" dump $1 2> stderr | sha256sum | cut -d' ' -f1 > stdout; echo \${PIPESTATUS[0]} > status" 0 '' "$2\\n"
}

plain='--warehouses 2 --customers 20 --items 110 --seed 7 --moment 86400'
dumped "WAREHOUSE $plain" 816493e0a0fdf760a73e01e5c894b980d7d39b968eca5ff14af22189d045cb7a
dumped "DISTRICT $plain" d813bd4c5e0aca4f606b41327317ddc49aa53a04c789380688e7526b44a7302b
dumped "CUSTOMER $plain" 317ef3102ebbedbf09ae400c5a2ceb30288158052a229e1d305038bfb7469337
dumped "HISTORY $plain" 8591d5cb19d9b0fb75cfc8831786af3e2c1f9ac5978eeb98a9ffbc29aab5e55e
dumped "ORDER $plain" 9b1854b8fb425fc8de365307831595cb11fbf13a773d86b59a5d6819dcefb69a
dumped "ORDER-LINE $plain" 5afce0f6a272d62d9730b245b9b04139b561f44b3786fa911a1eb5d59e4619dd
dumped "NEW-ORDER $plain" 1a76282d64fc4d90b28c2273d0391a00aac7a089bc5fb13f40dadebab9e7cb4b
dumped "ITEM $plain" 2eaf3f7bae23440d530f8ff12548e297269c99c6a502b4db3712eb8a46ca970f
dumped "STOCK $plain" ebd71e1cd4a4d39d897c99adba10b9c2e4c9648e231b0c05c00c924cd7c54a4b
dumped "WAREHOUSE $plain --seeded" aa766ef0e866d4c3cac6bf920430c8f651bda44df713d7e5186720fa959a8400
dumped "DISTRICT $plain --seeded" 83d2b2b04c7b73d69ac72f602216ac9744d55af2983822c6acbae626241d0e47
dumped "CUSTOMER $plain --seeded" 02185f8877a9d3e86b487f1f5b2bbc95f0c2670dc8b22edcef48ee55af1878a1
dumped "HISTORY $plain --seeded" fb86b314b36b2b7dbcdaa70f4afacd3deeec3fc201ad9a84108dfa05bcfedbf7
dumped "ORDER $plain --seeded" 150ad3f57ea2d34fc8c7abba82061e8518b6d3377eec1a7259adc62afabe8ecf
dumped "ORDER-LINE $plain --seeded" 5a0c084be4ce08a9ffdb79da72a7d93fc93d4bd650786e0093f62e16875a9c06
dumped "NEW-ORDER $plain --seeded" 1a76282d64fc4d90b28c2273d0391a00aac7a089bc5fb13f40dadebab9e7cb4b
dumped "ITEM $plain --seeded" 0d0f54bb277ee1938aebbc5822dd8a1434018b910b3c9f987a08d8ef05eea371
dumped "STOCK $plain --seeded" 5df7ddf62556c8ca991570140d22478ab609acde1595e94bcff90605355d3e37
dumped "CUSTOMER --customers 1200 --items 300 --seeded --seed 18446744073709551615 --moment 4102444799" 72eec8ed9ae87d912865b747d2604b518c8ebe44591a948d43186dfbf0884c8c

# Each S_DIST_xx of the plain opening is 22 times the letter d, then the district's two digits.
by 'the plain S_DIST_xx' "\"$tpcc\" dump STOCK --warehouses 2 2> stderr | awk -F, '
    NR > 1 { for (d = 1; d <= 10; d++) if (\$(d + 3) != sprintf(\"dddddddddddddddddddddd%02d\", d)) wrong++ }
    END { print NR - 1, wrong + 0 }' > stdout; echo \${PIPESTATUS[0]} > status" 0 '' '200 0\n'

# ---- what a transaction leaves for the next, worked out by hand from the plain opening

# What one word of the screens of that kind shows, behind each line of the script.
seen() {
    by "$1" "printf '$2' | \"$tpcc\" script 2> stderr | sed -n 's/$3/\\1/p' > stdout; echo \${PIPESTATUS[1]} > status" 0 '' "$4"
}

order='new-order 1 1 1 0 20:1:10 26:1:8 12:1:10 21:1:5 11:1:10\n'
seen 'the balance after a payment' "status 1 1 1\n${first}status 1 1 1\n" '^order-status.* \(C_BALANCE=.*\)' 'C_BALANCE=-10.00\nC_BALANCE=-11.00\n'
seen 'the last order after an order' "status 1 1 1\n${order}status 1 1 1\n" '^order O_ID=\([0-9]*\) .*' '1\n11\n'
seen 'low stock after an order' "stock 1 1 20\n${order}stock 1 1 20\n" '^stock-level.* low_stock=\(.*\)' '9\n11\n'
seen 'the number of the next order' "$order$order" '^new-order.* O_ID=\([0-9]*\) .*' '11\n12\n'
by 'a check after each of ten runs' "{ echo delivery 1 3 60; for _ in 1 2 3 4 5 6 7 8 9 10; do echo deliver 120; echo check; done; } \
    | \"$tpcc\" script 2> stderr | grep -v '^district' | sed 's/^\(deliver[a-z]*\) .*/\1/' | sort | uniq -c | sed 's/^ *//' > stdout; echo \${PIPESTATUS[1]} > status" 0 '' \
    '10 consistent\n10 delivered\n1 delivery\n'

# ---- runs

# A run, its least and most entries, and what its terminals pay, by the second program. How many entries say that no
# delivery is queued depends on the threads.
reported() {
    left_out "$1" && return
    timeout "$seconds" "$tpcc" run $2 > stdout 2> stderr
    echo $? > status
    : > stderr.wanted
    local entries
    entries=$(sed -n '1s/^entries \([0-9]*\)$/\1/p' stdout)
    [ -n "$entries" ] && [ "$entries" -ge "$3" ] && [ "$entries" -le "$4" ] || entries="$3 to $4"
    printf 'entries %s\npaid %s\nrise %s\n' "$entries" "$5" "$5" > stdout.wanted
    compare "$1" 0
}

reported 'no card' '--terminals 2 --servers 2 --cards 0' \
    1 1 0.00
reported 'two terminals' '--seeded --terminals 2 --servers 1 --cards 23' \
    70 90 50664.66
reported 'two terminals on two servers' '--seeded --terminals 2 --servers 2 --cards 23' \
    70 90 50664.66
reported 'three servers that retire' '--seeded --terminals 2 --servers 3 --retire 1 --cards 23' \
    70 90 50664.66
reported 'sixteen servers' '--seeded --servers 16' \
    70 90 50664.66
reported '999 terminals' '--seeded --terminals 999 --cards 1' \
    1420 1421 1072077.00
reported '999 terminals, four servers' '--seeded --terminals 999 --servers 4 --cards 20' \
    28711 28731 21883632.65
reported '999 terminals, by no server' '--seeded --terminals 999 --direct --cards 20' \
    28711 28731 21883632.65
reported 'an own value for each option' '--seeded --warehouses 2 --customers 30 --items 120 --seed 5 --moment 60 --terminals 3 --servers 6 --cards 7 --retire 4' \
    29 29 27824.28
reported 'the seed of a plain opening' '--seed 7' \
    60 80 34264.37
reported 'five terminals of a plain opening' '--seed 9 --customers 20 --moment 30 --terminals 5 --cards 40 --servers 4 --retire 3' \
    237 277 96057.42
reported 'no card, by no server' '--direct --cards 0' \
    1 1 0.00
reported 'an own value for each option, by no server' '--direct --seeded --warehouses 2 --customers 30 --items 120 --seed 5 --moment 60 --terminals 3 --cards 7' \
    29 29 27824.28
reported '2,000 cards, by no server' '--direct --seeded --warehouses 4 --customers 60 --items 200 --seed 3 --terminals 4 --cards 500' \
    2871 3371 2214693.70
reported '2,000 cards' '--seeded --warehouses 4 --customers 60 --items 200 --seed 3 --terminals 4 --servers 2 --cards 500' \
    2871 3371 2214693.70

# ---- the threads of a run, counted while it runs: the program's own, one of each terminal, that of the delivery runner and
# those of the servers. The number has to come within two seconds, and to stay. With 40 terminals that have 100,000 cards each a run
# takes far longer, so what is counted is not its end; and no server has had 100,000 jobs by then.

tasks() {
    find "/proc/$1/task" -mindepth 1 -maxdepth 1 2> told | wc -l
}

threads() {
    left_out "$1" && return
    "$tpcc" run $2 --cards 100000 > stdout 2> stderr &
    local pid=$! count=0 end=$((${EPOCHREALTIME/[.,]/} + 2000000))
    while [ "${EPOCHREALTIME/[.,]/}" -lt "$end" ]; do
        count=$(tasks "$pid")
        [ "$count" -eq "$3" ] && sleep 0.3 && count=$(tasks "$pid") && [ "$count" -eq "$3" ] && break
        sleep 0.05
    done
    kill "$pid"
    wait "$pid" 2> told
    echo "$count" > stdout
    echo "$3" > stdout.wanted
    : > stderr
    : > stderr.wanted
    echo 0 > status
    compare "$1" 0
}

threads 'a server for 40 terminals'              '--terminals 40 --servers 1' 43
threads 'five servers for 40 terminals'          '--terminals 40 --servers 5' 47
threads 'four of five servers retire'            '--terminals 40 --servers 5 --retire 2' 43
threads '40 terminals that ask no server'        '--terminals 40 --direct' 42

# ---- what a terminal asks, by the second program

# The cards of a terminal that stand in these lines.
cards() {
    by "$1" "\"$tpcc\" requests $2 --moment 60 --cards 24 2> stderr | sed -n '$3' > stdout; echo \${PIPESTATUS[0]} > status" 0 '' "$4"
}

cards 'first cards of terminal 1' '' 1,5p \
    'payment 1 6 1 6 BARBARATION 4876.91 60\npayment 1 9 1 9 BARBARANTI 1475.87 60\n'\
'new-order 1 2 3 60 35:1:10 6:1:5 62:1:3 95:1:4 7:1:6 55:1:4 31:1:6 39:1:5 75:1:6 81:1:9 3:1:7 27:1:4 62:1:7 47:1:5 30:1:1\n'\
'delivery 1 7 60\npayment 1 8 1 8 3 2721.72 60\n'
# The last one is the first card of the second deck.
cards 'later cards of terminal 1' '' '11p;14p;24p' 'status 1 1 BARBARBAR\nstock 1 1 10\npayment 1 7 1 7 BARBARABLE 4589.04 60\n'
cards 'lines from other warehouses' '--terminal 8 --warehouses 3 --seed 164' 1p \
    'new-order 2 6 9 60 19:1:3 39:2:8 2:2:6 69:3:9 45:2:8 81:2:5 31:2:4 39:2:8 38:2:8 3:2:2\n'
cards 'an unused item is asked for' '--terminal 8 --warehouses 3 --seed 86' 2p 'new-order 2 9 2 60 21:2:8 98:2:3 49:2:9 74:2:3 27:2:8 101:2:4\n'
cards 'payers of other warehouses' '--terminal 8 --warehouses 3 --seed 194' '3p;4p' \
    'payment 2 1 1 1 BARBARABLE 1363.86 60\npayment 2 1 3 6 5 3143.71 60\n'
by 'a deck'                      '"$tpcc" requests --terminal 5 --warehouses 3 --seed 7 2> stderr | cut -d " " -f 1,2 | sort | uniq -c | tr -s " " > stdout
    echo ${PIPESTATUS[0]} > status' 0 '' ' 1 delivery 2\n 10 new-order 2\n 10 payment 2\n 1 status 2\n 1 stock 2\n'

# ---- a value of its own for each option of a run, none of them a default: what its terminals ask, by bench/plain, and the
# runner's questions, at that moment too. Such a run has 29 entries whatever its threads do.

own='--seeded --warehouses 2 --customers 30 --items 120 --seed 5 --moment 61 --terminals 3 --cards 7'
own_report='entries 29\npaid 27824.28\nrise 27824.28'

own_journal() {
    left_out "$1" && return
    timeout "$seconds" "$tpcc" run $own --servers 6 --retire 4 --show journal > shown 2> stderr
    echo $? > status
    { grep -v '^deliver ' shown | sort; grep '^deliver ' shown | sort -u; } > stdout
    cat > stdout.wanted << 'END'
new-order 1 1 23 61 110:1:1 107:1:7 97:1:10 103:1:9 86:1:3 5:1:7 71:1:3 69:1:3
new-order 1 10 15 61 29:1:1 18:1:2 44:1:7 119:1:8 14:1:10 43:1:4
new-order 1 3 18 61 111:1:10 54:1:4 7:1:5 5:1:7 27:1:1 87:1:3 5:1:10 95:1:2
new-order 1 7 22 61 115:1:8 14:1:8 117:1:1 78:1:1 120:1:7 86:1:2 55:1:10 76:1:6 47:1:7 79:1:7 39:1:8 89:1:8 21:1:7 48:1:10
new-order 2 7 5 61 39:2:8 85:2:8 79:2:9 107:2:2 87:2:10 101:2:5 38:2:10 55:2:6 97:2:7 111:2:6
new-order 2 9 29 61 87:2:6 11:2:3 101:2:5 30:2:7 103:2:5 14:2:7 39:2:2 36:2:4 102:2:10 39:2:6 95:2:8 29:2:6 6:2:4
payment 1 3 1 3 BARBARBAR 4745.46 61
payment 1 3 1 3 BARBAREING 3868.41 61
payment 1 4 1 4 BARABLEESE 3724.21 61
payment 1 4 1 4 BAROUGHTABLE 3552.45 61
payment 1 5 1 5 BARABLEBAR 1129.62 61
payment 1 5 1 5 BAROUGHTABLE 1198.44 61
payment 1 7 1 7 BAROUGHTOUGHT 1278.74 61
payment 2 1 2 1 BARBARATION 782.15 61
payment 2 2 2 2 17 301.47 61
payment 2 4 2 4 9 1974.13 61
payment 2 6 1 6 BAROUGHTABLE 3549.56 61
payment 2 8 2 8 16 1719.64 61
status 1 4 BARABLEABLE
stock 1 1 14
stock 1 2 13
deliver 61
END
    printf "$own_report\n" > stderr.wanted
    compare "$1" 0
}

own_journal 'a journal of own values'
it 'the report of own values'            "run $own --servers 6 --retire 4"              '' 0 '' "$own_report\n"
it 'a report beside a check'             "run $own --servers 6 --retire 4 --show check" '' 0 "$(printf "$own_report")" 'consistent\n'
it 'a report beside a check, by no server' "run $own --direct --show check"             '' 0 "$(printf "$own_report")" 'consistent\n'

# ---- what a run shows

# The part of the file shown that stands under a heading.
part() {
    awk -v heading="== $1" '/^== / { on = ($0 == heading); next } on' shown
}

# The report that goes with the journal on standard input: its lines, and the payments among them twice, as what was paid and as the rise.
report_of_journal() {
    awk '$1 == "payment" { sub(/\./, "", $7); cents += $7 }
        END { printf "entries %d\n", NR; for (i = 1; i <= 2; i++) printf "%s %d.%02d\n", i == 1 ? "paid" : "rise", int(cents / 100), cents % 100 }'
}

# All tickets that were queued are delivered in full at the end: the delivery runner asks until none is left.
drained() {
    left_out "$1" && return
    timeout "$seconds" "$tpcc" run $2 --show journal --show results > shown 2> stderr
    echo $? > status
    part journal | grep -c '^delivery ' > stdout.wanted
    [ "$(cat stdout.wanted)" -gt "$3" ] || echo "more than $3" > stdout.wanted
    part results | grep -c '^delivered ' > stdout
    part journal | report_of_journal > stderr.wanted
    compare "$1" 0
}

# A run shows parts of its book, and its journal given to a script of the same opening shows the same screens. The report is
# on standard error, and is that of the journal.
again() {
    left_out "$1" && return
    timeout "$seconds" "$tpcc" run $2 $3 --show journal --show screens --show check > shown 2> stderr
    echo $? > status
    part journal > journal
    part screens | tee stdout > stdout.wanted
    report_of_journal < journal > stderr.wanted
    compare "$1: how it ends" 0
    [ "$(part check)" = consistent ] || differs "$1" check
    timeout "$seconds" "$tpcc" script $2 < journal > stdout 2> stderr
    echo $? > status
    : > stderr.wanted
    compare "$1" 0
}

# What the terminals of a run ask, each as often as `requests` says it, is what its journal has beside the runner's lines. None of these is refused.
asked() {
    left_out "$1" && return
    timeout "$seconds" "$tpcc" run $2 --terminals "$3" --cards "$4" --show journal > shown 2> stderr
    echo $? > status
    grep -v '^deliver ' shown | sort > stdout
    for terminal in $(seq "$3"); do
        timeout "$seconds" "$tpcc" requests $2 --terminal "$terminal" --cards "$4" || echo "status $?"
    done | sort > stdout.wanted
    { report_of_journal < shown; echo $(($3 * $4)) requests; } > stderr.wanted
    echo "$(wc -l < stdout) requests" >> stderr
    compare "$1" 0
}

# The same of a lone terminal, in its order.
in_order() {
    left_out "$1" && return
    timeout "$seconds" "$tpcc" run $2 --terminals 1 --cards "$3" --show journal > shown 2> stderr
    echo $? > status
    grep -v '^deliver ' shown > stdout
    timeout "$seconds" "$tpcc" requests $2 --terminal 1 --cards "$3" > stdout.wanted
    { report_of_journal < shown; echo "$3 requests"; } > stderr.wanted
    echo "$(wc -l < stdout) requests" >> stderr
    compare "$1" 0
}

# The same of each of several terminals: its lines stand in the journal one behind the other, with others between them.
among_others() {
    left_out "$1" && return
    timeout "$seconds" "$tpcc" run $2 --terminals "$3" --servers "$4" --cards "$5" --show journal > shown 2> stderr
    echo $? > status
    for terminal in $(seq "$3"); do
        timeout "$seconds" "$tpcc" requests $2 --terminal "$terminal" --cards "$5" > lines || echo "status $?"
        awk 'NR == FNR { line[++count] = $0; next } count > found && $0 == line[found + 1] { found++ } END { print found + 0, count }' lines shown
    done > stdout
    for terminal in $(seq "$3"); do echo "$5 $5"; done > stdout.wanted
    report_of_journal < shown > stderr.wanted
    compare "$1" 0
}

# The receipts of a run, by their places, are its journal line for line. Each terminal's stand in a row and are counted from 0 on in the
# journal's order, with the requests that it asks, none of which is refused; behind the terminals' stand the delivery runner's.
receipted() {
    left_out "$1" && return
    timeout "$seconds" "$tpcc" run $2 --terminals "$3" --cards "$4" $5 --show receipts --show journal > shown 2> stderr
    echo $? > status
    part receipts > receipts
    part journal > journal
    {
        head -n 1 receipts
        tail -n +2 receipts | sort -t , -k 3,3n | cut -d , -f 3-
        tail -n +2 receipts | awk -F , '{ if ($1 != terminal) { order = order " " $1; number = 0; place = -1 }
            if ($2 != number++ || $3 <= place) wrong++; terminal = $1; place = $3 } END { print "terminals" order ", wrong " wrong + 0 }'
        for terminal in $(seq "$3"); do awk -F , -v terminal="$terminal" '$1 == terminal { print $4 }' receipts; done
    } > stdout
    {
        echo terminal,number,place,request
        awk '{ print NR - 1 "," $0 }' journal
        echo "terminals $(seq -s ' ' $(($3 + 1))), wrong 0"
        for terminal in $(seq "$3"); do timeout "$seconds" "$tpcc" requests $2 --terminal "$terminal" --cards "$4" || echo "status $?"; done
    } > stdout.wanted
    report_of_journal < journal > stderr.wanted
    compare "$1" 0
}

drained 'all tickets are delivered' '--seeded --seed 7 --terminals 3 --cards 46' 5
for seed in 1 7 42; do
    again "a journal again, seed $seed, 1 terminal"   "--seeded --seed $seed" '--terminals 1 --servers 1 --cards 60'
    again "a journal again, seed $seed, 4 terminals"  "--seeded --seed $seed" '--terminals 4 --servers 2 --cards 40'
    again "a journal again, seed $seed, 9 terminals"  "--seeded --seed $seed --warehouses 2" '--terminals 9 --servers 4 --cards 30'
    asked "requests of 5 terminals, seed $seed"       "--seeded --seed $seed --warehouses 2" 5 20
    in_order "requests in order, seed $seed"          "--seeded --seed $seed" 50
    among_others "requests in order among others, seed $seed" "--seeded --seed $seed --warehouses 2" 6 3 40
done
receipted 'receipts of two servers'      '--seeded --seed 7 --warehouses 2' 4 30 '--servers 2'
receipted 'receipts of servers that retire' '--seeded --seed 42 --warehouses 2' 6 20 '--servers 3 --retire 2'
receipted 'receipts of 12 terminals, by no server' '--seeded --seed 1 --warehouses 2' 12 10 --direct
again 'a journal of a plain opening again' '--customers 20 --items 150' '--terminals 3 --servers 3 --retire 2 --cards 25'
by 'no request'                  '"$tpcc" requests --cards 0 > stdout 2> stderr; echo $? > status'     0 '' ''
by 'as many requests as cards'   '"$tpcc" requests --seeded --cards 100 2> stderr | wc -l > stdout; echo $? > status' 0 '' '100\n'
for table in WAREHOUSE DISTRICT CUSTOMER HISTORY ORDER ORDER-LINE NEW-ORDER ITEM STOCK; do
    by "$table of a run of no card"  '"$tpcc" run --seeded --cards 0 --show '"$table"' > stdout 2> told; echo $? > status; : > stderr' \
        0 '' '@timeout "$seconds" "$tpcc" dump '"$table"' --seeded'
done
by 'no delivery result'          '"$tpcc" run --cards 0 --show results > stdout 2> told; echo $? > status; : > stderr' 0 '' ''
by 'a report that is asked for'  '"$tpcc" run --cards 0 --show report > stdout 2> stderr; echo $? > status' 0 '' 'entries 1\npaid 0.00\nrise 0.00\n'
by 'two parts'                   '"$tpcc" run --cards 0 --show check --show report > stdout 2> stderr; echo $? > status' \
    0 '' '@printf "== check\nconsistent\n== report\nentries 1\npaid 0.00\nrise 0.00\n"'
it 'receipts of a run of no card' 'run --cards 0 --show receipts' '' 0 "$(printf 'entries 1\npaid 0.00\nrise 0.00')" \
    'terminal,number,place,request\n3,0,0,deliver 0\n'
by 'parts to a full disk'        '"$tpcc" run --show journal > /dev/full 2> stderr; echo $? > status' 3 'fault 4 Write' ''
by 'requests to a full disk'     '"$tpcc" requests > /dev/full 2> stderr; echo $? > status'           3 'fault 1 Write' ''

# ---- how long it took

# --time tells two lines on standard error, and leaves standard output as it is. Figures are N here.
timed() {
    left_out "$1" && return
    told "$3" > stdin
    timeout "$seconds" "$tpcc" $2 < stdin > stdout.wanted 2> /dev/null
    timeout "$seconds" "$tpcc" $2 --time < stdin > stdout 2> told
    echo $? > status
    sed -E 's/^opening [0-9]+\.[0-9]{3} s$/opening N s/; s/^(requests [0-9]+) in [0-9]+\.[0-9]{3} s, [0-9]+ a second$/\1 in N s, N a second/' told > stderr
    printf "$4opening N s\nrequests $5 in N s, N a second\n" > stderr.wanted
    compare "$1" 0
}

timed 'the time of no script'         script '' '' 0
timed 'the time of a tour'            script "@cat '$top/examples/tour.txt'" '' 17
timed 'the time of a refused request' script "${first}payment 9 1 1 1 1 1.00 0\n" '' 1
timed 'the time of parts'             'script --show journal --show check' "@cat '$top/examples/tour.txt'" '' 17
timed 'the time of a run'             'run --cards 0' '' '' 1
timed 'the time of parts of a run'    'run --cards 0 --show check' '' 'entries 1\npaid 0.00\nrise 0.00\n' 1
timed 'the time of parts of own values' "run $own --servers 6 --retire 4 --show check" '' "$own_report\\n" 29
it 'no time after a fault'            'script --time' 'check\nx\n' 2 'fault 1 Bad 2' 'consistent\n'
for words in 'dump ITEM --time' 'requests --time' 'script --time 1' 'run --time --time'; do it "words: $words" "$words" '' 1 'fault 1 Arguments' ''; done

# The requests of a run are the entries of its report.
entries_timed() {
    left_out "$1" && return
    timeout "$seconds" "$tpcc" run $2 --time > shown 2> stderr
    echo $? > status
    sed -n 's/^entries //p' shown > stdout.wanted
    sed -n 's/^requests \([0-9]*\) in .*/\1/p' stderr > stdout
    cp stderr stderr.wanted
    compare "$1" 0
}

entries_timed 'the requests of a timed run' '--seeded --terminals 3 --servers 2 --cards 40'

# ---- screens are out before more is read

# A reader that is given lines, waits for their screens, and only then the next: first whole lines, then 8,192 bytes, as many as are
# read ahead, that end within a line.
conversation() {
    coproc served { exec timeout "$seconds" "$tpcc" script 2> stderr; }
    local pid=$served_PID line
    for part in 'check\ncheck\n' "$(times 1365 'check\n'; printf ch)" 'eck\n'; do
        printf "$part" >&"${served[1]}"
        for line in $(seq "$(printf "$part" | wc -l)"); do
            read -r -t 20 line <&"${served[0]}" || break 2
            echo "$line"
        done
    done > stdout
    eval "exec ${served[1]}>&-"
    wait "$pid"
    echo $? > status
}

by 'screens before the next read' conversation 0 '' '@times 1368 "consistent\n"'

# ---- what a person sees, where standard error is a terminal

# Runs the program with standard error at a terminal, and standard output there too with a second word; what the terminal
# showed is left in the file seen.
at_terminal() {
    local words="timeout --foreground $seconds '$tpcc' $1 ${2:-> stdout} < stdin"
    : > stdout
    if script -qec true /dev/null < /dev/null > /dev/null 2>&1; then
        script -qec "$words; echo \$? > status" /dev/null < /dev/null | tr -d '\r' > seen
    else
        python3 -c 'import pty, sys; pty.spawn(["sh", "-c", sys.argv[1]])' "$words; echo \$? > status" < /dev/null | tr -d '\r' > seen
    fi
}

# The lines that a terminal shows are just these.
seen_at_terminal() {
    left_out "$1" && return
    told "$3" > stdin
    : > stdout.wanted
    printf "$5" > stderr.wanted
    at_terminal "$2"
    cp seen stderr
    compare "$1" "$4"
}

# The first line that a terminal shows, and lines that are among those behind it, each given whole or up to spaces.
told_at_terminal() {
    left_out "$1" && return
    : > stdin
    : > stdout.wanted
    at_terminal "$2"
    printf "$3\n" > stderr.wanted
    printf "$4" >> stderr.wanted
    {
        head -n 1 seen
        printf "$4" | while read -r line; do tail -n +2 seen | tr -s ' ' | grep -m 1 -o -F -e "$line"; done
    } > stderr
    compare "$1" 1
}

# What a terminal that has standard error and output shows at the end, where a line above may be cleared and written again:
# the report alone, whose numbers depend on the threads.
left_at_terminal() {
    left_out "$1" && return
    : > stdin
    printf 'entries N\npaid N\nrise N\n' > stdout.wanted
    at_terminal "$2" '> /dev/stdout'
    : > stderr.wanted
    awk '{ while (sub(/^\033\[1A\033\[2K/, "")) count--; if ($0 != "") line[++count] = $0 }
        END { for (i = 1; i <= count; i++) print line[i] }' seen | sed 's/ [0-9.]*$/ N/' > stdout
    : > stderr
    grep -q ' of 600000 requests$' seen || echo 'no progress was told' > stderr
    compare "$1" 0
}

if script -qec true /dev/null < /dev/null > /dev/null 2>&1 || python3 -c 'import pty' 2> /dev/null; then
    usage='Usage: tpcc script [OPTIONS]\nUsage: tpcc dump [OPTIONS]\nUsage: tpcc requests [OPTIONS]\nUsage: tpcc run [OPTIONS]\n'
    usage+='--warehouses <N>\nWarehouses: 1 to 100, else 1\n--customers <N>\n10 to 3000 by tens, else 10\n--items <N>\n100 to 100000, else 100\n'
    usage+='--seed <N>\n0 to 18446744073709551615, else 1\n--moment <N>\n0 to 4102444799, else 0\n--seeded\n--show <PART>\n--time\n'
    usage+='--terminals <N>\n1 to 999, else 2\n--servers <N>\n1 to 16, else 1\n--cards <N>\n0 to 100000, else 23\n--retire <N>\n0 to 100000, else 0\n--direct\nmake its own turns\n'
    usage+='--terminal <N>\n1 to 1000, else 1\n'
    told_at_terminal 'a number out of its range at a terminal' 'run --terminals 0' 'fault 1 Arguments' "error:\n--terminals\n1..=999\n$usage"
    told_at_terminal 'no command at a terminal'      ''               'fault 1 Arguments' "$usage"
    told_at_terminal 'an unknown word at a terminal' 'script --speed' 'fault 1 Arguments' "error:\n--speed\n$usage"
    told_at_terminal 'a wrong table at a terminal'   'dump FOO'       'fault 1 Arguments' "error:\nFOO\n$usage"
    told_at_terminal 'help at a terminal'            --help           'fault 1 Arguments' "$usage"
    told_at_terminal 'help of a run at a terminal'   'run --help'     'fault 1 Arguments' "$usage"
    seen_at_terminal 'the version at a terminal'     --version '' 1 'fault 1 Arguments\ntpcc 0.1.0\n'
    seen_at_terminal 'warehouses at a terminal'      'script --warehouses 0' '' 1 'fault 1 Warehouses\nwarehouses are 1 to 100\n'
    seen_at_terminal 'customers at a terminal'       'run --customers 15' '' 1 'fault 2 Customers\ncustomers of a district are 10 to 3000, a multiple of 10\n'
    seen_at_terminal 'items at a terminal'           'dump ITEM --items 99' '' 1 'fault 3 Items\nitems are 100 to 100000\n'
    seen_at_terminal 'a bad line at a terminal'      script 'x\n' 2 'fault 1 Bad 1\n'
    left_at_terminal 'progress at a terminal'        'run --seeded --terminals 5 --cards 100000 --servers 2'
else
    echo 'programs: skipped: what a person sees at a terminal, since there is no script of util-linux and no python3'
fi

# ---- readers and writers that fail

by 'a word that is not UTF-8'    '"$tpcc" script "$(printf "\377")" < /dev/null > stdout 2> stderr; echo $? > status' 1 'fault 1 Arguments' ''
by 'a reader that fails'         '"$tpcc" script < / 2> stderr; echo $? > status'                     3 'fault 5 Read' ''
by 'an endless reader'           'tr "\0" x < /dev/zero | "$tpcc" script 2> stderr; echo ${PIPESTATUS[1]} > status' 2 'fault 3 LongLine 1' ''
by 'a script to a full disk'     'printf "$first" | "$tpcc" script > /dev/full 2> stderr; echo ${PIPESTATUS[1]} > status' 3 'fault 6 Write' ''
by 'a dump to a full disk'       '"$tpcc" dump ITEM > /dev/full 2> stderr; echo $? > status'          3 'fault 1 Write' ''
by 'a report to a full disk'     '"$tpcc" run --cards 1 > /dev/full 2> stderr; echo $? > status'      3 'fault 4 Write' ''

# A file that may have so many blocks of 1,024 bytes and no more.
filled() {
    (trap '' XFSZ; ulimit -f "$1"; "$tpcc" $2 < stdin > stdout 2> stderr; echo $? > status)
}

for blocks in 1 2 7; do
    payments 40 | head -c $((blocks * 1024)) > first_part
    times 40 'payment 1 1 1 1 1 5000.00 0\n' > stdin
    by "$blocks blocks of screens" "filled $blocks script" 3 'fault 6 Write' '@cat first_part'
    timeout "$seconds" "$tpcc" dump STOCK 2> /dev/null | head -c $((blocks * 1024)) > first_part
    by "$blocks blocks of a dump"  "filled $blocks 'dump STOCK'" 3 'fault 1 Write' '@cat first_part'
done

# ---- little memory: an address space of so many KiB. A run ends with its report or for want of memory, a dump and a
# script too, and none by a signal; what a script wrote before is a first part of its screens.

# The program in an address space of so many KiB.
within() {
    local size=$1
    shift
    timeout "$seconds" bash -c 'ulimit -v "$1"; shift; exec "$@"' - "$size" "$tpcc" "$@" < stdin > stdout 2> stderr
    echo $? > status
}

for size in 4000 12000 40000 80000 100000 120000 150000 200000 300000 400000 600000 1200000; do
    left_out "a run in $size KiB" && continue
    : > stdin
    within "$size" run --seeded --terminals 8 --servers 3 --cards 20
    wants_report 'fault 3 NoMemory' 'fault 2 NoMemory'
    compare "a run in $size KiB" "$(wanted_status)"
done

# More entries than few, in an address space where one vector of the journal could take what the others need.
for size in 20000 40000 60000; do
    times 2500 'payment 1 1 1 1 1 5000.00 0\n' > stdin
    by "2,500 payments in $size KiB" "within $size script" 0 '' '@payments 2500'
done

# All that is printed in ample memory, or want of memory and nothing.
for size in 4000 20000 60000 140000 400000; do
    for words in 'dump STOCK --items 100000' 'script --customers 3000 --items 100000'; do
        left_out "$words in $size KiB" && continue
        printf "$first" > stdin
        timeout "$seconds" "$tpcc" $words < stdin > whole
        within "$size" $words
        cp whole stdout.wanted
        : > stderr.wanted
        if is_refused 'fault 2 NoMemory' 'fault 7 NoMemory'; then
            cp stderr stderr.wanted
            : > stdout.wanted
        fi
        compare "$words in $size KiB" "$(wanted_status)"
    done
done
