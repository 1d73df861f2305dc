#!/usr/bin/env bash
# Tests of the loader's crate, of the C header and, where the original is there, of both against it. Ends with 'N passed, M failed'.
# The first run installs what is missing. JOBS, CALLS: how many jobs, and calls of entry operations, are compared.
set -uo pipefail
cd "$(dirname "$0")/.."
. tests/host.sh
passed=0 failed=0
step() {
    local name=$1
    shift
    if "$@" >target/run-rust.log 2>&1; then
        passed=$((passed + 1))
        echo "ok: $name: $(tail -n1 target/run-rust.log)"
    else
        failed=$((failed + 1))
        cat target/run-rust.log
        echo "FAILED: $name"
    fi
}
loader() { (cd loader && "$CARGO" test --offline $X86 --target-dir ../target/loader "$@" && echo "cargo test passed"); }
# Doc tests of another target: an option that older cargos have behind a flag, and skip silently without it.
examples() {
    if [ -z "${RUN_X86:-}" ]; then loader --doc; else RUSTC_BOOTSTRAP=1 loader --doc -Z doctest-xcompile; fi
}
c_program() {
    $CC_X86 -std=c99 -Wall -Wextra -Werror -pedantic -I include loader/tests/base.c -L "$ARCHWEND_LIB_DIR" -larchwend -o target/base && $RUN_X86 target/base
}
mkdir -p target
host_tools || exit 1
library || exit 1
step "loader" loader --tests
step "loader's examples" examples
step "C program" c_program
if [ -e "${ARCHWEND_SHARED:-../shared}/docs/src/src/page_table.rs" ]; then
    step "differences" oracle/differences.sh
    step "comparison" oracle/compare.sh "${JOBS:-1000}" "${SEED:-1}"
    FIVE=1 step "five levels" oracle/compare.sh "${JOBS:-1000}" "${SEED:-1}"
    OUTSIDE=1 step "jobs outside the shared domain" oracle/compare.sh "${JOBS:-1000}" "${SEED:-1}"
    step "entries' comparison" oracle/entries.sh "${CALLS:-20000}" "${SEED:-1}"
else
    echo "LEFT OUT: the runs against the Rust original, which is not here (../shared/docs/src/src/page_table.rs)"
fi
echo "$passed passed, $failed failed"
[ $failed = 0 ]
