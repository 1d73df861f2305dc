# To be sourced by the scripts of this folder: the tools, the proved library, `build BIN PROFILE..`, `run PROFILE BIN WORD..` and
# `both BIN SEED WORD..`, which builds and runs a comparison in both builds and ends with the line that they share.
cd "$(dirname "${BASH_SOURCE[0]}")"
. ../tests/host.sh
host_tools
library
out=$PWD/../target/oracle
build() {
    local profile
    for profile in "${@:2}"; do
        "$CARGO" build --quiet --offline --profile "$profile" $X86 --target-dir "$out" -p compare --bin "$1"
    done
}
run() { ${RUN_X86:-} "$out/$X86_TARGET/$1/$2" "${@:3}"; }
both() {
    local name=$1 seed=$2 failed=0 first said same
    build "$name" release checked
    said=$(mktemp -d)
    trap 'rm -rf "'"$said"'"' EXIT
    run release "$name" "${@:3}" >"$said/release" &
    first=$!
    run checked "$name" "${@:3}" >"$said/checked" || failed=1
    wait $first || failed=1
    cat "$said/release" "$said/checked"
    if [ $failed != 0 ]; then
        echo "$name: FAILED (seed $seed)"
        exit 1
    fi
    # Outside the shared domain the two builds may answer differently.
    [ -z "${OUTSIDE:-}" ] || return 0
    same=$(tail -qn1 "$said/release" "$said/checked" | sed 's/^[a-z ]*: //' | sort -u)
    if [ "$(echo "$same" | wc -l)" != 1 ]; then
        echo "$name: FAILED: the two builds counted differently (seed $seed)"
        exit 1
    fi
    echo "$name: seed $seed, both builds: $same"
}
