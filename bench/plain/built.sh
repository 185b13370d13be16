# shellcheck shell=bash
# To be sourced by scripts beside this folder: sets `plain` and `product` to the two programs.
#
# The plain program is built by rustc; where there is none, this says so and ends with status 2. The product is taken
# from the crates/ folder that BUILT names, and otherwise built in a scratch copy, which leaves the repository as it is;
# with `serial_too`, its serial program as well. `work` is a folder that goes away at the end.

top=$(cd "$(dirname "${BASH_SOURCE[0]}")/../.." && pwd)
export PATH="/opt/rattle/bin:$PATH"

if ! command -v rustc > /dev/null; then
    echo "no rustc on the PATH: the plain program can't be built" >&2
    exit 2
fi
work=$(mktemp -d)
trap 'rm -rf "$work"' EXIT

plain="$work/plain"
rustc --edition 2021 -O -o "$plain" "$top/bench/plain/main.rs"

# Builds a program by running it with these words.
build() {
    (cd "$1" && shift && rt run -- "$@") > "$work/log" 2>&1 || { cat "$work/log"; exit 1; }
}

# Copies the crates, without what was built of them.
copy_product() {
    local crate
    mkdir -p "$BUILT"
    cp "$top/crates.txt" "$top/HANDLES" "$work/product/"
    for crate in "$top"/crates/*; do
        mkdir "$BUILT/$(basename "$crate")"
        find "$crate" -mindepth 1 -maxdepth 1 ! -name out -exec cp -r {} "$BUILT/$(basename "$crate")/" \;
    done
    git -C "$work/product" init -q
}

# The gate reads each .rt and .antt file of the repository as part of a crate, so these have other endings there. No crate of the
# repository may have this one's name.
build_serial() {
    echo "tpcc_bench: tpcc_terminal tpcc_book tpcc_population tpcc_rows tpcc_money" >> "$work/product/crates.txt"
    mkdir -p "$BUILT/tpcc_bench/src" "$BUILT/tpcc_bench/proofs/main"
    cp "$top/bench/serial/main.rt.in" "$BUILT/tpcc_bench/src/main.rt"
    cp "$top/bench/serial/Invariants.antt.in" "$BUILT/tpcc_bench/proofs/main/Invariants.antt"
    build "$BUILT/tpcc_bench" 1 0
}

if [ -z "${BUILT:-}" ]; then
    BUILT="$work/product/crates"
    copy_product
    build "$BUILT/tpcc" run --cards 0
    [ -z "${serial_too:-}" ] || build_serial
fi
product="$BUILT/tpcc/out/tpcc"
if [ ! -x "$product" ]; then
    echo "no program $product" >&2
    exit 2
fi
