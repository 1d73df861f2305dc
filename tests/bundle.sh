#!/usr/bin/env bash
# ./archwend dist: the same bytes from another folder, and applications in Rust and C made from the bundle alone, with rt hidden.
# Ends with 'N passed, M failed'.
set -euo pipefail
root=$(cd "$(dirname "$0")/.." && pwd -P)
. "$root/tests/host.sh"
. "$root/tests/verdict.sh"
host_tools
unset ARCHWEND_LIB_DIR
room=$(mktemp -d)
trap 'rm -rf "$room"' EXIT
cd "$room"

run dist one
verdict "a bundle" [ $status = 0 ]
bundle=$(cat out)
# elsewhere the library is linked anew; rt takes what it proved of the same text from where it was proved
mkdir copy
tar -C "$root" -c --no-wildcards-match-slash --exclude='crates/*/out' archwend crates crates.txt docs include loader NOTICE tests | tar -x -C copy
touch copy/loader/src/*
copy/archwend dist two >out 2>err
verdict "the same bytes from another folder" cmp "$bundle" "$(cat out)"
rm -rf copy

tar -xzf "$bundle"
cd archwend-*
verdict "the sums" sha256sum --quiet -c SHA256SUMS
verdict "every file has its sum" diff <(find . -type f ! -name SHA256SUMS | LC_ALL=C sort) <(sed 's/^[^ ]*  //' SHA256SUMS)
verdict "the kit's version" [ "$(cat KIT)" = "$(rt version)" ]
verdict "no path of this machine" bash -c '! grep -rqF -e "$1" -e "$2" .' - "$root" "$HOME/"
cd ..
mv archwend-* archwend

# whoever asks for rt leaves a mark
mkdir hidden
printf '#!/bin/sh\ntouch "%s/asked"\nexit 1\n' "$room" >hidden/rt
chmod +x hidden/rt
PATH=$room/hidden:$PATH

# what the applications print: the job that is accepted, and what each says of the one that is refused
cat >accepted <<'END'
used 0x3000, moved 1, merged 0, reached 3
table 2 entry 1: 0x2000e3, now 0x0
table 2 entry 2: 0x0, now 0x4000e3
END
same() { # LINE
    diff <(cat accepted && echo "$1") out
}
mkdir -p application/src
cp archwend/loader/examples/move.rs application/src/main.rs
cat >application/Cargo.toml <<'END'
[package]
name = "application"
version = "0.0.0"
edition = "2021"

[dependencies]
archwend = { path = "../archwend/loader" }
END
rust() { (cd application && "$CARGO" run --quiet --offline $X86) >out 2>err && same "an offset is not a multiple of the size that the entry maps \
(refusal 12 at old address 0x200000, level 1, which maps 0x200000, offset 0x201000)"; }
verdict "an application in Rust" rust
c() {
    $CC_X86 -std=c99 -Wall -Wextra -Werror archwend/loader/examples/move.c -o move \
        $(PKG_CONFIG_PATH=archwend/lib/pkgconfig pkg-config --cflags --libs archwend) 2>err && $RUN_X86 ./move >out && same "refusal 12 at 0x200000, level 1"
}
if command -v pkg-config >/dev/null; then verdict "an application in C" c; else echo "LEFT OUT: pkg-config is not here"; fi
verdict "rt was not asked for" [ ! -e asked ]
counted
