#!/usr/bin/env bash
# Words and formats of cases are split and printed on purpose, and the tables of cases call functions by name.
# shellcheck disable=SC2059,SC2086,SC2317
# Tests of the built program, three parts side by side: the scripts of examples/ and programs/scripts/ with their stored screens, the table of cases.sh
# and shows.sh; refused.sh; failures.sh. Each case compares standard output and standard error byte for byte, and the exit status. A part stops at the
# first case that differs, and says where its files are; else the last line counts the cases.
#
# TPCC is the program (crates/tpcc/out/tpcc). Words after the command's name pick the cases whose names have one of them; a word that is in no name
# fails. A case ends, and differs, where its program takes longer than SECONDS_OF_A_CASE (100).
set -u -o pipefail
top=$(cd "$(dirname "$0")/.." && pwd)
tpcc=$(realpath "${TPCC:-$top/crates/tpcc/out/tpcc}")
seconds=${SECONDS_OF_A_CASE:-100}
picked=("$@")
[ -x "$tpcc" ] || { echo "programs: there is no program at $tpcc; (cd crates/tpcc && rt run) builds it"; exit 1; }
scratch=$(mktemp -d)
trap 'rm -rf "$scratch"' EXIT
trap 'exit 1' INT TERM
run=0
# a file for each word that was in the name of a case
matched=$scratch/matched
mkdir "$matched"

# ---- what cases are written with

# A text so many times; \n in it is a line feed.
times() {
    awk -v count="$1" -v text="$2" 'BEGIN { for (i = 0; i < count; i++) printf "%s", text }'
}

# Whether the words on the command line leave this case out.
left_out() {
    [ ${#picked[@]} -eq 0 ] && return 1
    local place left=0
    for place in "${!picked[@]}"; do
        case "$1" in *"${picked[$place]}"*) : > "$matched/$place"; left=1 ;; esac
    done
    return $left
}

# Writes what a column says: a text as printf reads it; after @ the output of a command; after = the stored screens of a script.
told() {
    case "$1" in
        @*) eval "${1#@}" ;;
        =*) cat "$top/${1#=}.stdout" ;;
        *) printf "$1" ;;
    esac
}

differs() {
    echo "programs: '$1' differs in $2; what was wanted and what came lies in $scratch"
    for part in stdout stderr; do
        [ "$part" = "$2" ] && diff <(head -c 4000 "$scratch/$part.wanted") <(head -c 4000 "$scratch/$part") | head -n 20
    done
    exit 1
}

# Compares the files of the case that was run.
compare() {
    [ "$(cat status)" = "$2" ] || { cat stderr; echo "status $(cat status), not $2"; differs "$1" "its status"; }
    cmp -s stderr.wanted stderr || differs "$1" stderr
    cmp -s stdout.wanted stdout || differs "$1" stdout
    run=$((run + 1))
}

# One case: its name, the program's words, its input, its status, its line on standard error and its output.
it() {
    left_out "$1" && return
    told "$3" > stdin
    told "$6" > stdout.wanted
    [ -z "$5" ] && : > stderr.wanted || echo "$5" > stderr.wanted
    timeout "$seconds" "$tpcc" $2 < stdin > stdout 2> stderr
    echo $? > status
    compare "$1" "$4"
}

# One case whose program is called by a command line of the shell, as where its input or output fails. Its standard
# output is what the command leaves in the file stdout. The command is run by a shell of its own, which ends in time with all
# that it began; it has these functions, and the variables that are exported.
by() {
    left_out "$1" && return
    told "$5" > stdout.wanted
    [ -z "$4" ] && : > stderr.wanted || echo "$4" > stderr.wanted
    : > stdout
    : > stderr
    echo "none within $seconds seconds" > status
    timeout "$seconds" bash -u -o pipefail -c "$(declare -f); $2"
    compare "$1" "$3"
}

# A script of one line, with its screen.
first='payment 1 1 1 1 1 1.00 0\n'
screen='=examples/first_payment'
export tpcc top seconds scratch first

# One of these faults, with status 4.
is_refused() {
    local fault
    for fault in "$@"; do
        [ "$(cat status)" = 4 ] && [ "$(cat stderr)" = "$fault" ] && return 0
    done
    return 1
}

# What the last run wrote to standard output is a report of equal amounts, and to standard error nothing; or nothing and one of
# these faults. A request that was refused memory in its turn is not in the journal, so the amounts may be lower than in ample memory.
wants_report() {
    local amount
    : > stderr.wanted
    : > stdout.wanted
    if is_refused "$@"; then
        cp stderr stderr.wanted
        return
    fi
    amount=$(sed -n 's/^paid \([0-9]*\.[0-9][0-9]\)$/\1/p' stdout)
    printf '%s\npaid %s\nrise %s\n' "$(grep -m 1 -x 'entries [0-9]*' stdout)" "$amount" "$amount" > stdout.wanted
}

# The status that goes with what is wanted on standard error.
wanted_status() {
    if [ -s stderr.wanted ]; then echo 4; else echo 0; fi
}

# ---- the parts, side by side

# The scripts and the cases.
part_cases() {
    local script name words status fault
    for script in "$top"/examples/*.txt "$top"/programs/scripts/*.txt; do
        name=${script%.txt}
        words=script
        status=0
        fault=
        [ -f "$name.args" ] && words="script $(tr '\n' ' ' < "$name.args")"
        [ -f "$name.status" ] && status=$(cat "$name.status")
        [ -f "$name.stderr" ] && fault=$(cat "$name.stderr")
        it "${name#"$top/"}" "$words" "@cat $script" "$status" "$fault" "=${name#"$top/"}"
    done
    . "$top/programs/cases.sh"
    . "$top/programs/shows.sh"
}

part_refused() {
    . "$top/programs/failing.sh"
    . "$top/programs/refused.sh"
    echo "programs: $refused_in_all refused allocations and threads"
}

part_failures() {
    . "$top/programs/failing.sh"
    . "$top/programs/failures.sh"
    echo "programs: $calls_in_all reads and writes that fail or move one byte, $bytes_in_all outputs cut off"
}

# One part in a folder of its own, where it leaves how many cases passed.
in_own_folder() {
    scratch=$scratch/$1
    mkdir "$scratch"
    cd "$scratch" || exit 1
    "part_$1"
    echo "$run" > passed
}

begun=$SECONDS
parts='cases refused failures'
for part in $parts; do (in_own_folder $part) > "$scratch/$part.said" 2>&1 & done
wait
failed=0
for part in $parts; do
    cat "$scratch/$part.said"
    if [ -f "$scratch/$part/passed" ]; then run=$((run + $(cat "$scratch/$part/passed"))); else failed=$((failed + 1)); fi
done
for place in "${!picked[@]}"; do
    [ $failed -gt 0 ] || [ -e "$matched/$place" ] || { echo "programs: no case has '${picked[$place]}' in its name"; exit 1; }
done
[ $failed -eq 0 ] || trap - EXIT
echo "programs: $run passed, $failed failed, in $((SECONDS - begun)) seconds"
exit $((failed > 0))
