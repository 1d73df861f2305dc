#!/usr/bin/env bash
# vectors.sh [SEED]: prints the Rust's answers that crates/vectors/data/vectors records.
set -euo pipefail
. "$(dirname "$0")/common.sh"
build vectors release
run release vectors "${1:-1}"
