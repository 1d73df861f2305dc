#!/usr/bin/env bash
# compare.sh [COUNT] [SEED]: COUNT random jobs of the shared domain through the Rust original and through the proved library, in a
# build that wraps and in one that checks overflow. The last line has the counts; status 0 only where nothing differs.
# FIVE=1: COUNT jobs of the shared domain made into five-level ones, whose answer follows from the Rust's to the four-level job.
# OUTSIDE=1: COUNT random jobs outside the shared domain instead, sorted by how the two differ, each class with its count, the rows
# of differences.txt that explain it and its smallest job; status 0 only where each class has a row. JOB=NUMBER shows that job.
set -euo pipefail
count=${1:-100000}
seed=${2:-1}
. "$(dirname "$0")/common.sh"
both compare "$seed" "$count" "$seed" ${FIVE:+five} ${OUTSIDE:+differences.txt} ${OUTSIDE:+${JOB:-}}
