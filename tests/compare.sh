#!/usr/bin/env bash
# Runs ./archwend compare on images that differ and that do not, on files that can't be compared or read, with --pad, and on files
# that change between the two readings: exit status, every byte of standard output, and the line on standard error. What is to
# be printed is written out here, or made by od and awk. Exit status 0: all as expected.
set -euo pipefail
root=$(cd "$(dirname "$0")/.." && pwd -P)
. "$root/tests/words.sh"
. "$root/tests/verdict.sh"
room=$(mktemp -d)
trap 'rm -rf "$room"' EXIT
cd "$room"
built compare

# what the last run printed is `wanted`, with that exit status, and it said nothing
printed() { # STATUS
    [ "$status" = "$1" ] && cmp -s wanted out && [ ! -s err ]
}

# shows NAME LINES ARGUMENTS..: the lines, and the status that they have
shows() {
    local name=$1 lines=$2
    shift 2
    printf '%s\n' "$lines" >wanted
    run compare "$@"
    case $lines in 'differences 0') verdict "$name" printed 0 ;; *) verdict "$name" printed 1 ;; esac
}

# wrong NAME LINE ARGUMENTS..: status 2, that line, and nothing printed
wrong() {
    local name=$1 line=$2
    shift 2
    run compare "$@"
    verdict "$name" gave 2 '' "$line"
    verdict "$name, nothing printed" [ ! -s out ]
}

# lines OLDER NEWER: what is to be printed of two files of the same length
lines() {
    paste -d' ' <(od -An -v -t x8 -w8 "$1" | tr -d ' ') <(od -An -v -t x8 -w8 "$2" | tr -d ' ') |
        awk '
            function short(x) { sub(/^0+/, "", x); return x == "" ? "0" : x }
            $1 != $2 { line[++n] = int((NR - 1) / 512) " " (NR - 1) % 512 " " short($1) " " short($2) }
            END { print "differences " n + 0; for (i = 1; i <= n; i++) print line[i] }'
}

# changing NAME LINE A B C D: the first reading finds A and B, the second C and D. NEWER is a pipe at first, which the program opens
# after OLDER; both are other files before anything comes through it, and the first reading ends only when it is closed.
changing() {
    local name=$1 line=$2
    shift 2
    ln -sfn "$1" older
    ln -sfn pipe newer
    rm -f pipe
    mkfifo pipe
    {
        exec 3>pipe
        ln -sfn "$3" older
        ln -sfn "$4" newer
        cat "$2" >&3
    } &
    status=0
    timeout 60 "$root/archwend" compare older newer >out 2>err || status=$?
    wait
    verdict "$name" gave 2 '' "$line"
    verdict "$name, nothing printed" [ ! -s out ]
}

usage='usage: compare OLDER NEWER'
not_comparable='compare: 34 two images differ in length, are not whole pages, or are longer than 2097152 bytes'
missing='No such file or directory'
changed='compare: a file changed while it was read'
limit=2097152

# ---- the document's example: the base image against what relocate makes of it
head -c $((0x3000)) /dev/zero >image
put image 0 0 0x101023
put image 1 0 0x102023
put image 2 1 0x2000E3
words 0x200000 0x3FFFFF 0x200000 >ranges
words 0x200000 0x3FFFFF 0x40000000 >far
run relocate image ranges output 0x100000 0x8000 0x100000 0x0 0x0
verdict "the output is made" [ "$status" = 0 ]
shows "the document's example" $'differences 2\n2 1 2000e3 0\n2 2 0 4000e3' image output
shows "the document's example, turned round" $'differences 2\n2 1 0 2000e3\n2 2 4000e3 0' output image
shows "an image against itself" 'differences 0' image image

# ---- places and values
: >none
shows "two empty files" 'differences 0' none none
head -c 8192 /dev/zero >zeros
cp zeros ends
put ends 0 0 1
put ends 0 511 $((1 << 63))
put ends 1 0 -1
put ends 1 511 0x0123456789abcdef
shows "first and last entries of pages" \
    $'differences 4\n0 0 0 1\n0 511 0 8000000000000000\n1 0 0 ffffffffffffffff\n1 511 0 123456789abcdef' zeros ends
shows "values of the older file" \
    $'differences 4\n0 0 1 0\n0 511 8000000000000000 0\n1 0 ffffffffffffffff 0\n1 511 123456789abcdef 0' ends zeros
cp ends halves
put halves 0 511 $(((1 << 63) + (1 << 32)))
put halves 1 0 $((0x7fffffffffffffff))
shows "a difference in one bit" \
    $'differences 2\n0 511 8000000000000000 8000000100000000\n1 0 ffffffffffffffff 7fffffffffffffff' ends halves
head -c $((64 * 4096)) /dev/urandom >random
cp random other
for place in 0 1 9 10 99 100 511; do
    put other 0 "$place" $((RANDOM * RANDOM))
    put other 10 "$place" $((RANDOM << 48))
    put other 63 "$place" "$place"
done
shows "random files" "$(lines random other)" random other

# ---- the longest files
head -c $limit /dev/zero >long
tr '\0' '\377' <long >ones
awk 'BEGIN {
    print "differences 262144"
    for (t = 0; t < 512; t++) for (e = 0; e < 512; e++) print t " " e " 0 ffffffffffffffff"
}' >wanted
run compare long ones
verdict "2 MiB, every entry" printed 1
verdict "2 MiB, first line" [ "$(sed -n 2p out)" = '0 0 0 ffffffffffffffff' ]
verdict "2 MiB, last line" [ "$(tail -n 1 out)" = '511 511 0 ffffffffffffffff' ]
shows "2 MiB, no entry" 'differences 0' long long

# ---- files that can't be compared
head -c $((limit + 4096)) /dev/zero >longer
wrong "longer than 2 MiB" "$not_comparable" longer longer
wrong "one longer than 2 MiB" "$not_comparable" long longer
head -c $((limit + 1)) /dev/zero >odd
wrong "2 MiB and a byte" "$not_comparable" odd odd
head -c 4096 /dev/zero >page
wrong "the newer file longer" "$not_comparable" page zeros
wrong "the older file longer" "$not_comparable" zeros page
wrong "the older file empty" "$not_comparable" none page
wrong "the newer file empty" "$not_comparable" page none
head -c 4095 /dev/zero >short
wrong "a byte less than a page" "$not_comparable" short short
wrong "a page, and a byte less" "$not_comparable" page short
head -c 4104 /dev/zero >beyond
wrong "a page and a word" "$not_comparable" beyond beyond
cp beyond differing
put differing 0 3 7
wrong "a page and a word, differing" "$not_comparable" beyond differing

# ---- wrong use, and files that can't be read
wrong "no argument" "$usage"
wrong "one argument" "$usage" image
wrong "three arguments" "$usage" image output image
mkdir folder
wrong "a missing older file" "compare: OLDER: $missing" nowhere image
wrong "a missing newer file" "compare: NEWER: $missing" image nowhere
wrong "both missing" "compare: OLDER: $missing" nowhere nowhere
wrong "an empty name" "compare: OLDER: $missing" '' image
wrong "a long name" 'compare: NEWER: File name too long' image "$(printf 'x%.0s' {1..5000})"
wrong "a folder as older file" 'compare: OLDER: Is a directory' folder image
wrong "a folder as newer file" 'compare: NEWER: Is a directory' image folder
cp image $'im\xffage'
shows "a name that is not UTF-8" 'differences 0' $'im\xffage' image
wrong "no file of such a name" "compare: NEWER: $missing" image $'no\xff'
if [ "$(id -u)" != 0 ]; then
    cp image closed
    chmod 000 closed
    wrong "a closed file" 'compare: OLDER: Permission denied' closed image
    wrong "a closed file, padded" 'compare: OLDER: Permission denied' --pad closed image
fi

status=0
"$root/archwend" compare image output >/dev/full 2>err || status=$?
verdict "what is printed can't be written" [ "$status" = 3 ]
status=0
TMPDIR=$room/nowhere "$root/archwend" compare image output >out 2>err || status=$?
verdict "no folder to keep the output in" [ "$status" = 3 ]

# ---- with zeros after the shorter file
run relocate image far output 0x100000 0x8000 0x100000 0x0 0x0
verdict "the longer output is made" [ "$(stat -c %s output)" = $((0x4000)) ]
cp image image.kept
cp output output.kept
shows "the older file shorter" $'differences 3\n1 1 0 103023\n2 1 2000e3 0\n3 1 0 402000e3' --pad image output
shows "the newer file shorter" $'differences 3\n1 1 103023 0\n2 1 0 2000e3\n3 1 402000e3 0' --pad output image
verdict "the files are as they were" cmp -s image image.kept
verdict "the files are as they were, the longer one" cmp -s output output.kept
shows "equal lengths" 'differences 0' --pad image image
shows "empty against zeros" 'differences 0' --pad none zeros
shows "both empty, padded" 'differences 0' --pad none none
shows "to the limit" 'differences 0' --pad page long
shows "part of a page" $'differences 1\n0 3 7 0' --pad differing zeros
wrong "past the limit" "$not_comparable" --pad page longer
wrong "to a part of a page" "$not_comparable" --pad page beyond
cp image ./-pad
cp output ./--pad
cp image 'a b'
shows "names with dashes" $'differences 3\n1 1 0 103023\n2 1 2000e3 0\n3 1 0 402000e3' --pad -pad --pad
shows "names with dashes, not padded" 'differences 0' -pad image
shows "a name with a space" $'differences 3\n1 1 0 103023\n2 1 2000e3 0\n3 1 0 402000e3' --pad 'a b' output
wrong "--pad alone" "$usage" --pad
wrong "--pad and one file" "$usage" --pad image
wrong "--pad and three files" "$usage" --pad image output image
wrong "--pad after the files" "$usage" image output --pad
wrong "a missing older file, padded" "compare: OLDER: $missing" --pad nowhere image
wrong "a missing newer file, padded" "compare: NEWER: $missing" --pad image nowhere
wrong "a folder, padded" 'compare: OLDER: not a regular file' --pad folder image
mkfifo fifo
wrong "a pipe, padded" 'compare: NEWER: not a regular file' --pad image fifo

# ---- files that change between the two readings
cp zeros first
put first 0 0 1
put first 1 7 2
cp zeros second
put second 0 0 2
put second 1 7 1
cp first third
put third 1 8 3
changing "another value" "$changed" first zeros second zeros
changing "another value, newer file" "$changed" zeros first zeros second
changing "a difference more" "$changed" first zeros third zeros
changing "a difference less" "$changed" third zeros first zeros
changing "no difference any more" "$changed" first zeros zeros zeros
changing "the same change in both" "$changed" first zeros third ends
changing "a page less" "$changed" first zeros page page
changing "a page more" "$changed" page page zeros zeros
changing "the newer file a page less" "$changed" first zeros first page
changing "the older file cut" "$changed" first zeros beyond zeros
changing "the older file gone" "compare: OLDER: $missing" first zeros nowhere zeros
changing "the newer file gone" "compare: NEWER: $missing" first zeros first nowhere
changing "the newer file a folder" 'compare: NEWER: Is a directory' first zeros first folder

counted
