# To be sourced: finds, or installs from Debian's packages, a cargo that builds for x86-64 and what runs such programs here.
# `host_tools` sets CARGO, X86 (cargo's words for the target), CC_X86 and RUN_X86; `library` proves and writes the
# static library as the crates now are, unless ARCHWEND_LIB_DIR names a folder that has it, and sets that.

X86_TARGET=x86_64-unknown-linux-gnu

# Installs packages, saying nothing unless it fails.
need() {
    local log
    if [ "$(id -u)" != 0 ]; then
        echo "missing, and only root can install them: $*" >&2
        return 1
    fi
    log=$(mktemp)
    { [ -n "${UPDATED:-}" ] || apt-get update; } >"$log" 2>&1 &&
        DEBIAN_FRONTEND=noninteractive apt-get install -y --no-install-recommends "$@" >>"$log" 2>&1 || {
        cat "$log" >&2
        echo "could not install: $*" >&2
        rm -f "$log"
        return 1
    }
    UPDATED=1
    rm -f "$log"
}

# Whether the rustc has the standard library of the target.
has_std() { ls "$("$1" --print sysroot 2>/dev/null)/lib/rustlib/$X86_TARGET/lib/"libstd-*.rlib >/dev/null 2>&1; }

host_tools() {
    export CARGO_NET_OFFLINE=true
    # The build scripts run elsewhere.
    [ -z "${ARCHWEND_SHARED:-}" ] || export ARCHWEND_SHARED=$(realpath "$ARCHWEND_SHARED")
    [ -z "${ARCHWEND_LIB_DIR:-}" ] || export ARCHWEND_LIB_DIR=$(realpath "$ARCHWEND_LIB_DIR")
    X86="--target $X86_TARGET"
    if [ "$(uname -m)" = x86_64 ]; then
        command -v cc >/dev/null || need gcc libc6-dev || return 1
        { command -v cargo && command -v rustc; } >/dev/null || need cargo rustc || return 1
        CARGO=$(command -v cargo) CC_X86=cc RUN_X86=
        return
    fi
    # The std of another target comes as a package of that architecture.
    if ! { has_std rustc && command -v cargo >/dev/null; } && ! { has_std /usr/bin/rustc && [ -x /usr/bin/cargo ]; }; then
        dpkg --print-foreign-architectures | grep -qx amd64 || dpkg --add-architecture amd64 || return 1
        need cargo rustc libstd-rust-dev libstd-rust-dev:amd64 libc6-dev:amd64 || return 1
    fi
    command -v x86_64-linux-gnu-gcc >/dev/null || need gcc-x86-64-linux-gnu || return 1
    command -v qemu-x86_64 >/dev/null || need qemu-user || return 1
    [ -e /lib64/ld-linux-x86-64.so.2 ] || {
        dpkg --print-foreign-architectures | grep -qx amd64 || dpkg --add-architecture amd64 || return 1
        need libc6-dev:amd64 || return 1
    }
    if has_std rustc; then CARGO=cargo; else
        CARGO=/usr/bin/cargo
        export RUSTC=/usr/bin/rustc RUSTDOC=/usr/bin/rustdoc
    fi
    CC_X86=x86_64-linux-gnu-gcc RUN_X86=qemu-x86_64
    export CARGO_TARGET_X86_64_UNKNOWN_LINUX_GNU_LINKER=x86_64-linux-gnu-gcc
    export CARGO_TARGET_X86_64_UNKNOWN_LINUX_GNU_RUNNER=qemu-x86_64
}

library() {
    local root log
    [ -z "${ARCHWEND_LIB_DIR:-}" ] || return 0
    root=$(cd "$(dirname "${BASH_SOURCE[0]}")/.." && pwd)
    log=$(mktemp)
    "$root/archwend" library >"$log" 2>&1 || {
        cat "$log" >&2
        rm -f "$log"
        return 1
    }
    rm -f "$log"
    export ARCHWEND_LIB_DIR=$root/target/staticlib
}
