# shellcheck shell=bash
# run.sh sets what is not set here.
# shellcheck disable=SC2154
# Calls of the C library that fail under the program, one in turn, read by run.sh. failing.c makes them fail.

compiler=
for word in cc clang /opt/rattle/toolchain/bin/clang; do
    [ -z "$compiler" ] && command -v "$word" > /dev/null && compiler=$word
done
"${compiler:-cc}" -O1 -shared -fPIC -o failing.so "$top/programs/failing.c" || { echo "programs: failing.c needs a C compiler"; exit 1; }

# The program with a call that fails; hit is empty where the call was not reached.
failing() {
    local call=$1
    shift
    timeout "$seconds" env FAILING="$call" LD_PRELOAD="$scratch/failing.so" "$tpcc" "$@" < stdin > stdout 2> stderr 9> hit
    echo $? > status
}
