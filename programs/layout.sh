#!/usr/bin/env bash
# Tests that each file of the crates has the layout of `rt fmt`. Names those that have another, and prints last a count.
set -u -o pipefail
cd "$(dirname "$0")/../crates" || exit 1
export PATH="/opt/rattle/bin:$PATH"
mapfile -t files < <(find . -name out -prune -o \( -name '*.rt' -o -name '*.antt' \) -print | sort)
rattle fmt --check "${files[@]}" || { echo "layout: not that of rt fmt"; exit 1; }
echo "layout: ${#files[@]} files passed"
