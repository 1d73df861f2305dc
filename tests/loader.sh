#!/usr/bin/env bash
# The loader's crate as its users meet it: where its build script looks for the library and what it says where there is none, its
# features, documentation without the library, a bare program, the examples, and its README followed word by word in an empty
# folder. The kit is stood in for by a script that notes where it was run. Exit status 0: all as expected.
set -euo pipefail
root=$(cd "$(dirname "$0")/.." && pwd -P)
. "$root/tests/host.sh"
. "$root/tests/verdict.sh"
host_tools
library
room=$(mktemp -d)
trap 'rm -rf "$room"' EXIT
cd "$room"
archive=$ARCHWEND_LIB_DIR/libarchwend.a
rustc=${RUSTC:-rustc}
unset ARCHWEND_LIB_DIR DOCS_RS CARGO_TARGET_DIR

# try COMMAND..: leaves its exit status in status, and what it writes in out and err
try() {
    status=0
    "$@" >out 2>err || status=$?
}

ended() { [ "$status" = "$1" ]; }
failed_saying() { [ "$status" != 0 ] && grep -qF -- "$1" err; }

# ---- stand-ins

# A kit that writes the archive that ARCHIVE names, and notes where it was run.
mkdir kit empty lib
cat >kit/rt <<'RT'
#!/usr/bin/env bash
echo "$PWD $*" >>"$MARKS"
[ -z "${RT_FAILS:-}" ] || { echo "a proof is missing"; exit 1; }
mkdir -p out && cp "$ARCHIVE" out/libarchwend_c.a
RT
chmod +x kit/rt
echo "a kit" >KIT-ID
export MARKS=$room/marks ARCHIVE=$archive
marks() { if [ -e "$MARKS" ]; then wc -l <"$MARKS"; else echo 0; fi; }
not_run() { [ ! -e "$MARKS" ]; }

crate_at() { # FOLDER: the crate, as it is packaged
    mkdir -p "$1"
    (cd "$root/loader" && cp -r Cargo.toml build.rs src examples README.md LICENSE "$1")
}

repository_at() { # FOLDER: what of the repository a build looks at
    mkdir -p "$1"/crates/archwend/{src,specs} "$1/crates/archwend_c/src" "$1/include"
    cp "$root/include/archwend.h" "$1/include"
    cp "$root/archwend" "$1"
    printf 'archwend:\narchwend_c staticlib: archwend\n' >"$1/crates.txt"
    echo "one" | tee "$1"/crates/{archwend/src,archwend/specs,archwend_c/src}/part >"$1/crates/archwend/stdout"
    crate_at "$1/loader"
}

bundle_at() { # FOLDER
    mkdir -p "$1/lib" "$1/include"
    cp "$archive" "$1/lib"
    cp "$root/include/archwend.h" "$1/include"
    crate_at "$1/loader"
}

crate_at "$room/vendored"
repository_at "$room/repository"
bundle_at "$room/bundle"

# ---- the build script alone

"$rustc" --edition 2021 "$root/loader/build.rs" -o script

# script TARGET CRATE [NAME=VALUE..]: with the words that cargo would give it for the target; what it writes is in o
script() {
    local target=$1 crate=$2 words
    shift 2
    words=$("$rustc" --print cfg --target "$target" |
        sed -n 's/^target_\(arch\|os\|pointer_width\)="\(.*\)"$/CARGO_CFG_TARGET_\U\1\E=\2/p')
    mkdir -p o
    rm -f o/linked.rs o/libarchwend.a "$MARKS"
    # shellcheck disable=SC2086
    (cd "$crate" && env PATH="$room/kit:$PATH" CARGO_MANIFEST_DIR="$crate" OUT_DIR="$room/o" TARGET="$target" $words "$@" "$room/script") \
        >out 2>err
}

# what the build script said, in place of linking
said() { grep -qF -- "$1" o/linked.rs && ! grep -q rustc-link out; }
linked() { # ARCHIVE: a copy of it is linked
    cmp -s "$1" o/libarchwend.a && [ ! -s o/linked.rs ] && grep -qx "cargo:rustc-link-search=native=$room/o" out &&
        grep -qx "cargo:rustc-link-lib=static=archwend" out
}
watched() { # PATH..: these, and no other but the script itself
    [ "$(sed -n 's/^cargo:rerun-if-changed=//p' out | grep -vx build.rs)" = "$(printf '%s\n' "$@")" ]
}

for target in x86_64-pc-windows-gnu x86_64-apple-darwin x86_64-unknown-uefi x86_64-unknown-linux-gnux32 x86_64-linux-android \
    aarch64-unknown-linux-gnu i686-unknown-linux-gnu; do
    script $target "$room/repository/loader"
    verdict "$target" said "the proved library is x86-64 ELF code for Linux and for bare machines, and the target is $target:"
    verdict "$target, rt" not_run
done
cp "$archive" lib
for target in x86_64-unknown-linux-gnu x86_64-unknown-linux-musl x86_64-unknown-none; do
    script $target "$room/vendored" ARCHWEND_LIB_DIR="$room/lib"
    verdict "$target" linked "$archive"
done
verdict "the named archive is watched" watched "$room/lib/libarchwend.a"
for name in ARCHWEND_LIB_DIR DOCS_RS; do verdict "$name is watched" grep -qx "cargo:rerun-if-env-changed=$name" out; done
script $X86_TARGET "$room/repository/loader" ARCHWEND_LIB_DIR="$room/empty"
verdict "no archive in the named folder" said "ARCHWEND_LIB_DIR is $room/empty, and there is no libarchwend.a in it"
verdict "no archive in the named folder, watched" watched "$room/empty/libarchwend.a" "$room/o/not linked"
verdict "no archive in the named folder, rt" not_run

nowhere="is neither in Archwend's repository nor in a bundle of it, so the proved library is not at hand: set ARCHWEND_LIB_DIR"
# in another repository of crates; beside its crates; and in a repository of Archwend that is not its own
mkdir -p other/vendor other/crates/others
echo "others:" >other/crates.txt
repository_at "$room/fork"
for place in other/vendor/archwend other/archwend other/loader fork/copy fork/vendor/loader; do
    crate_at "$room/$place"
    script $X86_TARGET "$room/$place"
    verdict "$place" said "$room/$place $nowhere"
    verdict "$place, rt" not_run
done
script $X86_TARGET "$room/bundle/loader"
verdict "a bundle" linked "$archive"
verdict "a bundle, watched" watched "$room/bundle/lib/libarchwend.a"
verdict "a bundle, rt" not_run
script $X86_TARGET "$room/repository/loader" DOCS_RS=1
verdict "documentation" [ ! -s o/linked.rs ]
verdict "documentation, no link" [ -z "$(grep rustc-link out)" ]
verdict "documentation, rt" not_run

script $X86_TARGET "$room/repository/loader"
verdict "the repository" linked "$archive"
verdict "the repository, rt" [ "$(cat "$MARKS")" = "$room/repository/crates/archwend_c lib --cpu x86-64" ]
verdict "the repository, watched" watched "$room"/repository/crates/{archwend/specs,archwend/src,archwend_c/src} \
    "$room/repository/crates.txt" "$room/repository/include/archwend.h"
echo "another" >another
script $X86_TARGET "$room/repository/loader" ARCHIVE="$room/another"
verdict "no archive of before" linked another
script $X86_TARGET "$room/repository/loader" RT_FAILS=1
verdict "rt fails" said "\`rt lib --cpu x86-64\` in $room/repository/crates/archwend_c ended with exit status: 1:\\na proof is missing"
script $X86_TARGET "$room/repository/loader" PATH="$room/empty"
verdict "no rt" said "the proof kit, which writes libarchwend.a, can't be run (rt: No such file or directory"
# an out/ that can't be a folder stands for a repository that can't be written
rm -r repository/crates/archwend_c/out
echo "a file" >repository/crates/archwend_c/out
script $X86_TARGET "$room/repository/loader"
verdict "nothing can be written" linked "$archive"
verdict "nothing can be written, rt" [ "$(cat "$MARKS")" = "$room/o/repository/crates/archwend_c lib --cpu x86-64" ]
same_parts() { diff <(parts repository) <(parts o/repository); }
parts() { (cd "$1" && find crates -path '*/src/*' -o -path '*/specs/*' | sort | xargs sha256sum); }
verdict "nothing can be written, the crates" same_parts
verdict "nothing can be written, crates.txt" cmp -s repository/crates.txt o/repository/crates.txt
mv repository/crates/archwend/src/part repository/crates/archwend/src/renamed
rm -r repository/crates/archwend/specs
script $X86_TARGET "$room/repository/loader"
verdict "nothing can be written, again" same_parts
rm repository/crates/archwend_c/out

# ---- with cargo

# Copies of the crate are one and the same to cargo in one target folder, so each folder has its own.
cargo_in() { # FOLDER WORDS..
    local folder=$1
    shift
    (cd "$folder" && CARGO_TARGET_DIR=$room/target/${folder//\//-} "$CARGO" "$@")
}

try cargo_in vendored check --offline $X86
verdict "a vendored copy" failed_saying "archwend: $room/vendored $nowhere"
try cargo_in vendored doc --offline --no-deps
verdict "documentation without the library" ended 0
verdict "documentation without the library, made" [ -s target/vendored/doc/archwend/fn.build_in.html ]

# A crate that uses it: documentation, and an archive of another interface.
mkdir -p user/src
cat >user/Cargo.toml <<'TOML'
[package]
name = "user"
version = "0.0.0"
edition = "2021"
[dependencies]
archwend = { path = "../vendored", default-features = false }
TOML
echo 'fn main() { println!("{:?}", archwend::mapping_size(1)); }' >user/src/main.rs
DOCS_RS=1 try cargo_in user doc --offline --no-deps
verdict "documentation of a user" ended 0
ARCHWEND_LIB_DIR=$room/lib try cargo_in user run --offline $X86
verdict "a user" [ "$(cat out)" = "Ok(2097152)" ]
mkdir other-interface
objcopy=$(command -v x86_64-linux-gnu-objcopy || command -v objcopy)
"$objcopy" --redefine-sym archwend_interface_2=archwend_interface_3 "$archive" other-interface/libarchwend.a
ARCHWEND_LIB_DIR=$room/other-interface try cargo_in user build --offline $X86
verdict "an archive of another interface" failed_saying archwend_interface_2

# Nothing is run again where nothing changed, and rt where a crate did.
build() { PATH=$room/kit:$PATH try cargo_in repository/loader build --offline $X86; }
rm -f "$MARKS"
build
verdict "a build in the repository" ended 0
verdict "a build in the repository, rt" [ "$(marks)" = 1 ]
build
verdict "an unchanged build" [ "$(marks)" = 1 ]
verdict "an unchanged build compiles nothing" [ -z "$(grep Compiling err)" ]
echo "two" >repository/crates/archwend/src/part
build
verdict "a changed crate" [ "$(marks)" = 2 ]

export ARCHWEND_LIB_DIR=$room/lib
for features in "" alloc std; do
    RUSTFLAGS="-D warnings" try cargo_in "$root/loader" build --offline $X86 --no-default-features --features "$features"
    verdict "features: ${features:-none}" ended 0
done
if ls "$("$rustc" --print sysroot)/lib/rustlib/x86_64-unknown-none/lib/"libcore-*.rlib >/dev/null 2>&1; then
    try cargo_in "$root/loader" build --offline --target x86_64-unknown-none --no-default-features
    verdict "x86_64-unknown-none" ended 0
else
    echo "LEFT OUT: a build for x86_64-unknown-none, whose core is not here"
fi

# What both examples print of the job that is accepted: by the specification's example 12.2.
cat >accepted <<'TEXT'
used 0x3000, moved 1, merged 0, reached 3
table 2 entry 1: 0x2000e3, now 0x0
table 2 entry 2: 0x0, now 0x4000e3
TEXT
refused="an offset is not a multiple of the size that the entry maps (refusal 12 at old address 0x200000, level 1, which maps 0x200000, offset 0x201000)"
try cargo_in "$root/loader" run --offline $X86 --example move
verdict "move.rs" gave 0 "$(cat accepted; echo "$refused")" "$(cat err)"
verdict "move.c compiles" $CC_X86 -std=c99 -Wall -Wextra -Werror -pedantic -I "$root/include" "$root/loader/examples/move.c" \
    -L lib -larchwend -o move
try $RUN_X86 ./move
verdict "move.c" gave 0 "$(cat accepted; echo "refusal 12 at 0x200000, level 1")" ""
static="-C target-feature=+crt-static -C relocation-model=static -C link-arg=-nostdlib"
RUSTFLAGS=$static try cargo_in "$root/loader/tests/bare" run --offline $X86
verdict "a bare program" gave 0 "$(tail -n +2 accepted; echo "$refused")" "$(cat err)"

# A workspace around it has to leave it out.
mkdir workspace
bundle_at "$room/workspace/archwend"
cp -r user workspace/mover
sed -i 's|\.\./vendored|../archwend/loader|' workspace/mover/Cargo.toml
sed -n '/^\[workspace\]$/,/^```/p' "$root/loader/README.md" | grep -v '^```' >workspace/Cargo.toml
try cargo_in workspace metadata --offline --format-version 1
verdict "in a workspace" ended 0
sed -i /exclude/d workspace/Cargo.toml
try cargo_in workspace metadata --offline --format-version 1
verdict "in a workspace that does not leave it out" failed_saying "multiple workspace roots found"

(cd "$root/loader" && "$CARGO" package --list --offline --allow-dirty) >out 2>err
for name in README.md LICENSE build.rs src/lib.rs src/refusals.rs examples/move.rs examples/move.c; do
    verdict "packaged: $name" grep -qx "$name" out
done
verdict "packaged: no tests" [ -z "$(grep tests/ out)" ]
verdict "the licence" cmp -s "$root/NOTICE" "$root/loader/LICENSE"

# ---- the README

# The blocks, each in a file of its number, with the words of its fence in NUMBER.is.
mkdir blocks bin
awk '/^```/ { if (inside) { inside = 0; next }
              inside = 1; name = sprintf("blocks/%02d", ++count)
              print substr($0, 4) >(name ".is"); printf "" >name; next }
     inside { print >name }' "$root/loader/README.md"
# A reader's cargo and cc; on another processor a C program is compiled for x86-64 and emulated, and cc links build scripts too.
printf '#!/usr/bin/env bash\nexec %q "$@"\n' "$CARGO" >bin/cargo
cat >bin/cc <<CC
#!/usr/bin/env bash
set -e
if [ -z "$RUN_X86" ] || [[ "\$*" != *.c\ * ]]; then exec $(command -v cc) "\$@"; fi
$CC_X86 "\$@"
mv "\${!#}" "\${!#}.x86"
printf '#!/bin/sh\nexec $RUN_X86 "%s"\n' "\$PWD/\${!#}.x86" >"\${!#}"
chmod +x "\${!#}"
CC
chmod +x bin/cargo bin/cc
unset ARCHWEND_LIB_DIR
export CARGO_BUILD_TARGET=$X86_TARGET

# follow WAY PATH: every block but those for the other way
follow() {
    local way=$1 path=$2 block is
    for block in "$room"/blocks/??; do
        is=$(cat "$block.is")
        case $is in
        *file=*)
            mkdir -p "$(dirname "${is#*file=}")"
            cp "$block" "${is#*file=}"
            ;;
        sh | "sh $way")
            PATH=$path try bash -e "$block"
            cp out said
            verdict "README, $way: $(tail -n1 "$block")" ended 0
            ;;
        text) verdict "README, $way: what is printed" diff said "$block" ;;
        esac
    done
}

for way in bundle repository; do
    mkdir "reader-$way"
    cd "reader-$way"
    rm -f "$MARKS"
    "${way}_at" "$PWD/archwend"
    if [ $way = bundle ]; then follow bundle "$room/bin:$PATH"; else follow repository "$room/bin:$room/kit:$PATH"; fi
    cd ..
done
verdict "README, repository: rt, by cargo and by hand" [ "$(marks)" = 2 ]

counted
