#!/usr/bin/env bash
# entries.sh [COUNT] [SEED]: COUNT random calls of entry operations, indices, mapped sizes, tables and masks in the shared domain,
# through the Rust original and through the proved library, in a build that wraps and in one that checks overflow. The last line
# has the counts; status 0 only where nothing differs.
set -euo pipefail
count=${1:-1000000}
seed=${2:-1}
. "$(dirname "$0")/common.sh"
both entries "$seed" "$count" "$seed"
