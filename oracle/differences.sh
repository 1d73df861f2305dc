#!/usr/bin/env bash
# Runs the inputs of differences.txt, which docs/DIFFERENCES.md lists, through the original in both builds and through the proved
# library, and compares with what is recorded there. With the word `record` it prints the file anew.
set -euo pipefail
. "$(dirname "$0")/common.sh"
build differences release checked
if [ "${1:-}" = record ]; then
    run release differences differences.txt record >"$out/half.txt"
    run checked differences "$out/half.txt" record
    exit
fi
rows() { grep -o "^$1 D[0-9]*" "$2" | grep -o 'D.*' | sort; }
diff <(rows '|' ../docs/DIFFERENCES.md) <(rows '#' differences.txt) || {
    echo "differences: not every row has its input, or not every input its row"
    exit 1
}
run release differences differences.txt
run checked differences differences.txt
