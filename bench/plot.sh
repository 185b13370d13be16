#!/usr/bin/env bash
# Draws the table of bench/run.sh, from standard input, as an SVG picture on standard output: for each column of ratios a
# line over the terminals, whose numbers double from mark to mark.
#
#   bench/run.sh | tee table.md | bench/plot.sh > docs/runs.svg
set -eu -o pipefail
exec awk -F '|' '
function trimmed(text) { gsub(/^ +| +$/, "", text); return text }
function across(terminals) { return 60 + 90 * log(terminals) / log(2) }
function down(ratio) { return 340 - 300 * ratio / most }
/^\|[ -]*Terminals/ { for (k = 4; k < NF; k++) name[k] = trimmed($k); columns = NF; next }
/^\| *[0-9]/ {
    rows++
    terminals[rows] = trimmed($2)
    for (k = 4; k < columns; k++) {
        ratio[rows, k] = trimmed($k)
        if (ratio[rows, k] + 0 > most) most = ratio[rows, k] + 0
    }
}
END {
    split("#1b6ca8 #c0392b #d68910 #1e8449 #6c3483 #566573", colour, " ")
    most = (most > 1.2) ? most : 1.2
    print "<svg xmlns=\"http://www.w3.org/2000/svg\" width=\"820\" height=\"390\" font-family=\"sans-serif\" font-size=\"12\">"
    print "<rect width=\"820\" height=\"390\" fill=\"white\"/>"
    print "<text x=\"60\" y=\"24\">Requests a second, as a ratio to the serial program</text>"
    for (mark = 0; mark <= most; mark += 0.2) {
        printf "<line x1=\"60\" x2=\"%.0f\" y1=\"%.1f\" y2=\"%.1f\" stroke=\"%s\"/>", across(64), down(mark), down(mark), (mark == 1) ? "#888" : "#ddd"
        printf "<text x=\"30\" y=\"%.1f\">%.1f</text>\n", down(mark) + 4, mark
    }
    for (row = 1; row <= rows; row++)
        printf "<text x=\"%.1f\" y=\"360\" text-anchor=\"middle\">%s</text>\n", across(terminals[row]), terminals[row]
    print "<text x=\"330\" y=\"380\" text-anchor=\"middle\">terminals</text>"
    for (k = 4; k < columns; k++) {
        printf "<polyline fill=\"none\" stroke-width=\"2\" stroke=\"%s\" points=\"", colour[k - 3]
        for (row = 1; row <= rows; row++) printf "%.1f,%.1f ", across(terminals[row]), down(ratio[row, k])
        print "\"/>"
        printf "<line x1=\"640\" x2=\"660\" y1=\"%d\" y2=\"%d\" stroke-width=\"2\" stroke=\"%s\"/>", 40 + 20 * (k - 3), 40 + 20 * (k - 3), colour[k - 3]
        printf "<text x=\"668\" y=\"%d\">%s</text>\n", 44 + 20 * (k - 3), name[k]
    }
    print "</svg>"
}'
