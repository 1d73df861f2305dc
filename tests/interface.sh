#!/usr/bin/env bash
# What include/archwend.h says of the archive, measured, and the header itself: which functions there are, what firmware has to
# know, the version's name, and where it is refused. Ends with 'N passed, M failed'.
set -euo pipefail
root=$(cd "$(dirname "$0")/.." && pwd -P)
. "$root/tests/host.sh"
. "$root/tests/verdict.sh"
host_tools
library
room=$(mktemp -d)
trap 'rm -rf "$room"' EXIT
cd "$room"
: >out
: >err
header=$root/include/archwend.h
archive=$ARCHWEND_LIB_DIR/libarchwend.a
disassembler=objdump
case $CC_X86 in *-gcc) disassembler=${CC_X86%gcc}objdump ;; esac

# ---- the functions
grep -oE '\barchwend_[a-z0-9_]+\(' "$header" | tr -d '(' | sort -u >declared
nm -g --defined-only "$archive" 2>err | awk 'NF == 3 { print $3 }' | sort >exported
verdict "what is declared is what the archive exports" diff declared exported

# ---- for firmware
nm -u "$archive" 2>err | awk '$1 == "U" { print $2 }' | sort -u >undefined
verdict "memset alone is undefined" diff <(echo memset) undefined
readelf -rW "$archive" | awk '$3 ~ /^R_/ { print $3 }' | sort -u >relocations
verdict "relocations are relative" diff <(printf 'R_X86_64_PC32\nR_X86_64_PLT32\n') relocations
readelf -SW "$archive" | sed 's/^ *\[ *[0-9]*\] *//' | awk '$7 ~ /W/ && $5 != "000000"' >writable
verdict "no data that is written" [ ! -s writable ]
"$disassembler" -d "$archive" >code
verdict "SSE registers are used, and no wider ones" grep -q '%xmm' code
verdict "no register wider than SSE's" bash -c '! grep -qE "%[yz]mm|%st" code'
awk '/>:$/ { name = $2 } /-0x[0-9a-f]+\(%rsp/ { print substr(name, 2, length(name) - 3) }' code | sort -u >red
verdict "one uses the red zone" diff <(echo archwend_extract_individual_masks) red
"$CC_X86" -std=gnu99 -Wall -Wextra -Werror -I "$root/include" "$root/tests/stack.c" "$archive" -o stack
$RUN_X86 ./stack >depth
verdict "a call takes less than 8 KiB of stack ($(cat depth) bytes)" [ "$(cat depth)" -gt 512 -a "$(cat depth)" -lt 8192 ]

# ---- the header
printf '#include "archwend.h"\nint main(void) { return ARCHWEND_OK; }\n' >use.c
accepts() { $CC_X86 -Wall -Wextra -Werror -pedantic -ffreestanding -fsyntax-only -I "$root/include" "$@" 2>err; }
for language in c99 c11 c17; do verdict "the header in $language" accepts -std=$language use.c; done
plus=
for compiler in "$CC_X86" "clang --target=$X86_TARGET"; do
    if $compiler -x c++ -fsyntax-only /dev/null 2>err; then plus=$compiler; fi
done
if [ -n "$plus" ]; then
    for language in c++11 c++17; do CC_X86=$plus verdict "the header in $language" accepts -x c++ -std=$language use.c; done
else
    echo "LEFT OUT: the header in C++, for which there is no compiler"
fi
refuses() { ! accepts "$@" use.c && grep -q '#error "libarchwend.a is ELF code' err; }
for words in -m32 -mx32 -D_WIN32 -D__CYGWIN__ -D__APPLE__ -U__x86_64__; do verdict "refused with $words" refuses $words; done

# ---- the version
version=$(sed -n 's/^#define ARCHWEND_VERSION \([0-9]*\)$/\1/p' "$header")
verdict "the header's version" [ -n "$version" ]
verdict "the version in the header's name" grep -qx "uint64_t archwend_interface_$version(void);" "$header"
verdict "the version in the code" grep -qx "const INTERFACE: u64 = $version;" "$root/crates/archwend/src/lib.rt"
verdict "the version in the definition" grep -qx "interface = $version" "$root/crates/archwend/specs/Exports.antt"
verdict "the version in the loader" grep -qrx "pub const INTERFACE: u64 = $version;" "$root/loader/src"
verdict "the version in the loader's name" grep -qrE "\barchwend_interface_$version\b" "$root/loader/src"
verdict "the version in the crate's" grep -qE "^version = \"0\.$version\.[0-9]+\"$" "$root/loader/Cargo.toml"
printf '#include "archwend.h"\nint main(void) { return (int)archwend_is_present(0); }\n' >use.c
links() { "$CC_X86" "$@" use.c "$archive" -o use 2>err; }
for words in "" -flto "-fdata-sections -Wl,--gc-sections"; do
    verdict "links with its own header, ${words:-plainly}" links $words -I "$root/include"
done
mkdir next
sed "s/archwend_interface_$version\b/archwend_interface_$((version + 1))/" "$header" >next/archwend.h
unlinked() { ! links "$@" -I next && grep -q "undefined reference to .archwend_interface_$((version + 1))'" err; }
for words in "" -flto "-fdata-sections -Wl,--gc-sections"; do
    verdict "does not link with the next version's, ${words:-plainly}" unlinked $words
done
counted
