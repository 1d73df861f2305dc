#!/usr/bin/env bash
# Runs ./archwend relocate on wrong arguments, bad files, refused jobs and accepted ones: exit status, the report, the line on
# standard error, and that OUTPUT is whole or untouched. Exit status 0: all as expected.
set -euo pipefail
root=$(cd "$(dirname "$0")/.." && pwd -P)
. "$root/tests/words.sh"
. "$root/tests/verdict.sh"
room=$(mktemp -d)
trap 'rm -rf "$room"' EXIT
cd "$room"
built relocate

report() { # USED MOVED MERGED REACHED
    printf 'number 0 accepted\nused %s\nmoved %s\nmerged %s\nreached %s\n' "$@"
}

refusal() { # NUMBER-AND-SENTENCE [LINES OF THE PLACE]
    printf 'number %s\n' "$1"
    if [ $# -gt 1 ]; then
        shift
        printf '%s\n' "$@"
    fi
}

kept() { [ "$(cat output)" = untouched ]; }

# wrong NAME LINE ARGUMENTS..: status 2, that line, no report, and no output
wrong() {
    local name=$1 line=$2
    shift 2
    printf untouched >output
    run relocate "$@"
    verdict "$name" gave 2 '' "$line"
    verdict "$name, output" kept
}

# refused NAME REPORT ARGUMENTS..: status 1, that report, and no output
refused() {
    local name=$1 text=$2
    shift 2
    printf untouched >output
    run relocate "$@"
    verdict "$name" gave 1 "$text" ''
    verdict "$name, output" kept
}

# accepted NAME REPORT LENGTH ARGUMENTS..: status 0, that report, and an output of that many bytes
accepted() {
    local name=$1 text=$2 length=$3
    shift 3
    # longer than what is written, so that a part left over shows
    head -c 3000000 /dev/zero | tr '\0' x >output
    run relocate "$@"
    verdict "$name" gave 0 "$text" ''
    verdict "$name, output" [ "$(stat -c %s output)" = $((length)) ]
}

holds() { # NAME TABLE ENTRY VALUE
    verdict "$1" [ "$(entry output "$2" "$3")" = "$4" ]
}

head -c $((0x3000)) /dev/zero >image
put image 0 0 0x101023
put image 1 0 0x102023
put image 2 1 0x2000E3
words 0x200000 0x3FFFFF 0x200000 >ranges
words 0x200000 0x3FFFFF 0x201000 >uneven
words 0x200000 0x3FFFFF 0x40000000 >far
words 0x200000 0x3FFFFF $((-0x200000)) >down
words 0x200000 0x3FFFFF $((-0x400000)) >below
words 0x200000 0x3FFFFF $((-0x201000)) >uneven_down
words 0x200000 0x3FFFFF $((1 << 63)) >lowest
words 0x400000 0x3FFFFF 0 >backward
for ((i = 0; i < 1025; i++)); do words $((0x200000 + i)) $((0x200000 + i)) 0; done >ranges1025
head -c $((1024 * 24)) ranges1025 >ranges1024
head -c $((1024 * 24 + 1)) ranges1025 >odd1024
# the place of the moved leaf is taken, by its equal and by another
cp image there
put there 2 2 0x4000E3
cp image occupied
put occupied 2 2 0x4000E1
# the same tables below a root of five levels, and its range up by 2^48
head -c $((0x4000)) /dev/zero >deep
put deep 0 0 0x101023
put deep 1 0 0x102023
put deep 2 0 0x103023
put deep 3 1 0x2000E3
words 0x200000 0x3FFFFF 0x1000000000000 >across
words 0x200000 0x3FFFFF $((2 ** 52 - 0x200000)) >past
: >none
mkdir folder
region="0x100000 0x8000 0x100000 0x0 0x0"
five="0x100000 0x8000 0x100000 0x1000 0x0"
usage='usage: relocate IMAGE RANGES OUTPUT GPA SIZE CR3 CR4 OFFSET'
number='not a number in hexadecimal with 0x, of at most 64 bits'
bad_region='1 the region is not whole pages, is empty, has more than 512 tables, ends past the bound, or uses more than its size'
bad_ranges='8 the ranges are more than 1024, not words in threes or not ascending, or one is empty, past the bound or over the region'
in_tail='9 a table, or the page of a load, lies in the free tail of the region'
unaligned='12 an offset is not a multiple of the size that the entry maps'
out='13 a leaf would move out of 0 to the bound'
full='19 the region has no free table left'
signed="$number, or one after '-' of at most 2^63"

# shellcheck disable=SC2086
{
    wrong "no argument" "$usage"
    wrong "an argument too few" "$usage" image ranges output 0x100000 0x8000 0x100000 0x0
    wrong "an argument too many" "$usage" image ranges output $region 0x0
    wrong "bare digits, GPA" "relocate: GPA: $number" image ranges output 100000 0x8000 0x100000 0x0 0x0
    wrong "bare digits, SIZE" "relocate: SIZE: $number" image ranges output 0x100000 8000 0x100000 0x0 0x0
    wrong "bare digits, CR3" "relocate: CR3: $number" image ranges output 0x100000 0x8000 100000 0x0 0x0
    wrong "bare digits, CR4" "relocate: CR4: $number" image ranges output 0x100000 0x8000 0x100000 0 0x0
    wrong "bare digits, OFFSET" "relocate: OFFSET: $signed" image ranges output 0x100000 0x8000 0x100000 0x0 0
    wrong "bare digits after a sign" "relocate: OFFSET: $signed" image ranges output 0x100000 0x8000 0x100000 0x0 -1000
    wrong "0X" "relocate: GPA: $number" image ranges output 0X100000 0x8000 0x100000 0x0 0x0
    wrong "no digits" "relocate: GPA: $number" image ranges output 0x 0x8000 0x100000 0x0 0x0
    wrong "an empty number" "relocate: GPA: $number" image ranges output '' 0x8000 0x100000 0x0 0x0
    wrong "a letter" "relocate: SIZE: $number" image ranges output 0x100000 0x800g 0x100000 0x0 0x0
    wrong "65 bits" "relocate: CR3: $number" image ranges output 0x100000 0x8000 0x10000000000000000 0x0 0x0
    wrong "a sign" "relocate: CR4: $number" image ranges output 0x100000 0x8000 0x100000 -0x0 0x0
    wrong "a sign alone" "relocate: OFFSET: $signed" image ranges output 0x100000 0x8000 0x100000 0x0 -
    wrong "below -2^63" "relocate: OFFSET: $signed" image ranges output 0x100000 0x8000 0x100000 0x0 -0x8000000000000001
    wrong "a missing image" "relocate: IMAGE: No such file or directory" nowhere ranges output $region
    wrong "an empty name" "relocate: IMAGE: No such file or directory" '' ranges output $region
    wrong "a folder as image" "relocate: IMAGE: Is a directory" folder ranges output $region
    wrong "missing ranges" "relocate: RANGES: No such file or directory" image nowhere output $region
    wrong "a folder as ranges" "relocate: RANGES: Is a directory" image folder output $region
    wrong "a folder as output" "relocate: OUTPUT: Is a directory" image ranges folder $region
    wrong "a name that ends in a slash" "relocate: OUTPUT: Is a directory" image ranges nowhere/ $region
    wrong "no folder for the output" "relocate: OUTPUT: No such file or directory" image ranges nowhere/output $region
    wrong "an empty name for the output" "relocate: OUTPUT: No such file or directory" image ranges '' $region
    wrong "a file as folder" "relocate: OUTPUT: Not a directory" image ranges image/output $region
    wrong "a full device" "relocate: OUTPUT: No space left on device" image ranges /dev/full $region

    refused "number 1" "$(refusal "$bad_region")" \
        image ranges output 0x100000 0x8001 0x100000 0x0 0x0
    refused "number 1, four levels" "$(refusal "$bad_region")" \
        deep none output 0x1000000000000 0x8000 0x1000000000000 0xFFFFFFFFFFFFEFFF 0x0
    refused "number 6" "$(refusal '6 cr3 is not in the region')" \
        image ranges output 0x100000 0x8000 0x108000 0x0 0x0
    refused "number 7" "$(refusal '7 the table offset is not a multiple of 4096, or moves the region out of 0 to the bound')" \
        image ranges output 0x100000 0x8000 0x100000 0x0 -0x101000
    refused "number 8" "$(refusal "$bad_ranges")" \
        image backward output $region
    head -c 25 /dev/zero >odd
    refused "number 8, 25 bytes" "$(refusal "$bad_ranges")" image odd output $region
    head -c 23 /dev/zero >odd
    refused "number 8, 23 bytes" "$(refusal "$bad_ranges")" image odd output $region
    refused "number 8, 1,024 ranges and a byte" "$(refusal "$bad_ranges")" image odd1024 output $region
    refused "number 8, 1,025 ranges" "$(refusal "$bad_ranges")" image ranges1025 output $region
    head -c 1000000 /dev/zero >many
    refused "number 8, many" "$(refusal "$bad_ranges")" image many output $region
    head -c 2097153 /dev/zero >long
    refused "number 1, 2 MiB and a byte" "$(refusal "$bad_region")" long none output 0x1000000 0x200000 0x1000000 0x0 0x0
    head -c 2101248 /dev/zero >long
    refused "number 1, 513 tables" "$(refusal "$bad_region")" long none output 0x1000000 0x200000 0x1000000 0x0 0x0
    refused "number 9" "$(refusal "$in_tail" 'old address 0x0' 'level 4' 'size 0x1000000000000')" none ranges output $region
    refused "number 9, five levels" "$(refusal "$in_tail" 'old address 0x0' 'level 5')" none ranges output $five
    refused "number 12" "$(refusal "$unaligned" 'old address 0x200000' 'level 1' 'size 0x200000' 'offset 0x201000')" \
        image uneven output $region
    refused "number 12, downward" "$(refusal "$unaligned" 'old address 0x200000' 'level 1' 'size 0x200000' 'offset -0x201000')" \
        image uneven_down output $region
    refused "number 13" "$(refusal "$out" 'old address 0x200000' 'level 1' 'size 0x200000' 'offset 0xfffffffe00000')" \
        deep past output $five
    refused "number 13, downward" "$(refusal "$out" 'old address 0x200000' 'level 1' 'size 0x200000' 'offset -0x400000')" \
        image below output $region
    refused "number 13, the lowest offset" \
        "$(refusal "$out" 'old address 0x200000' 'level 1' 'size 0x200000' 'offset -0x8000000000000000')" \
        image lowest output $region
    refused "number 18" \
        "$(refusal '18 a different entry stands where a moved leaf goes' 'new address 0x400000' 'level 1' 'size 0x200000')" \
        occupied ranges output $region
    refused "number 19" "$(refusal "$full" 'new address 0x40200000' 'level 2' 'size 0x40000000')" \
        image far output 0x100000 0x3000 0x100000 0x0 0x0
    refused "number 19 at the root" "$(refusal "$full" 'new address 0x1000000200000' 'level 4' 'size 0x1000000000000')" \
        deep across output 0x100000 0x4000 0x100000 0x1000 0x0

    accepted "no ranges" "$(report 0x3000 0 0 3)" 0x3000 image none output $region
    verdict "no ranges, the same bytes" cmp -s image output
    accepted "by 0x200000" "$(report 0x3000 1 0 3)" 0x3000 image ranges output $region
    holds "the old entry" 2 1 0
    holds "the new entry" 2 2 4000e3
    accepted "digits of both cases" "$(report 0x3000 1 0 3)" 0x3000 \
        image ranges output 0x100000 0x8000 0x100aBc 0x000000000000000000000 0x0
    accepted "merged" "$(report 0x3000 1 1 3)" 0x3000 there ranges output $region
    accepted "1,024 ranges" "$(report 0x3000 0 0 3)" 0x3000 image ranges1024 output $region
    accepted "by 0x40000000" "$(report 0x4000 1 0 3)" 0x4000 image far output $region
    holds "the new table" 1 1 103023
    holds "the entry in it" 3 1 402000e3
    accepted "downward" "$(report 0x3000 1 0 3)" 0x3000 image down output $region
    holds "the entry at 0" 2 0 e3
    accepted "the tables themselves" "$(report 0x3000 1 0 3)" 0x3000 \
        image ranges output 0x100000 0x8000 0x100000 0x0 -0x100000
    holds "a pointer" 0 0 1023
    accepted "five levels, by 0x200000" "$(report 0x4000 1 0 4)" 0x4000 deep ranges output $five
    cp deep wanted
    put wanted 3 1 0
    put wanted 3 2 0x4000E3
    verdict "five levels, by 0x200000, the bytes" cmp -s wanted output
    accepted "five levels, by 2^48" "$(report 0x7000 1 0 4)" 0x7000 deep across output $five
    cp deep wanted
    truncate -s $((0x7000)) wanted
    put wanted 3 1 0
    put wanted 0 1 0x104023
    put wanted 4 0 0x105023
    put wanted 5 0 0x106023
    put wanted 6 1 0x10000002000E3
    verdict "five levels, by 2^48, the bytes" cmp -s wanted output
    accepted "five levels, a region at 2^48" "$(report 0x4000 0 0 1)" 0x4000 \
        deep none output 0x1000000000000 0x8000 0x1000000000000 0x1000 0x0
    verdict "five levels, a region at 2^48, the same bytes" cmp -s deep output
    cp image both
    accepted "from a copy" "$(report 0x3000 1 0 3)" 0x3000 both ranges output $region
    run relocate both ranges both $region
    verdict "output over the image" cmp -s both output
    head -c 2097152 /dev/zero >full
    put full 0 0 0x1001023
    put full 1 0 0x11FF023
    put full 511 1 0x2000E3
    accepted "2 MiB" "$(report 0x200000 1 0 3)" 0x200000 \
        full ranges output 0x1000000 0x200000 0x1000000 0x0 0x0
    holds "the entry of the last table" 511 2 4000e3
    # OUTPUT is replaced: its mode, a link to it, and what is beside it stay
    accepted "by 0x200000 again" "$(report 0x3000 1 0 3)" 0x3000 image ranges output $region
    cp output wanted
    mkdir beside
    printf untouched >beside/file
    chmod 640 beside/file
    ln -s beside/file link
    run relocate image ranges link $region
    verdict "through a link" gave 0 "$(report 0x3000 1 0 3)" ''
    verdict "through a link, the link" [ "$(readlink link)" = beside/file ]
    verdict "through a link, the bytes" cmp -s wanted beside/file
    verdict "through a link, the mode" [ "$(stat -c %a beside/file)" = 640 ]
    verdict "through a link, nothing beside" [ "$(ls -A beside)" = file ]
    (umask 027 && run relocate image ranges beside/fresh $region)
    verdict "a new file, the bytes" cmp -s wanted beside/fresh
    verdict "a new file, the mode" [ "$(stat -c %a beside/fresh)" = 640 ]
    ln -s beside/later dangling
    run relocate image ranges dangling $region
    verdict "through a link to nothing" cmp -s wanted beside/later
    mkfifo pipe
    cat pipe >through &
    run relocate image ranges pipe $region
    wait $!
    verdict "a pipe" gave 0 "$(report 0x3000 1 0 3)" ''
    verdict "a pipe, the bytes" cmp -s wanted through
    verdict "a pipe, still there" [ -p pipe ]
}

# on_disk NAME REASON [OPTION]: with the output on a disk of two pages, of which it takes one, remounted with the option
on_disk() {
    # shellcheck disable=SC2086
    unshare "$apart" bash -c '
        mount -t tmpfs -o size=8k none disk
        printf untouched >disk/output
        [ -z "$2" ] || mount -o "remount,$2" disk
        root=$1
        shift 2
        . "$root/tests/verdict.sh"
        run relocate image ranges disk/output "$@"
        ls -A disk >beside.disk
        cp disk/output output
        exit $status' - "$root" "${3:-}" $region || status=$?
    verdict "$1" gave 2 '' "relocate: OUTPUT: $2"
    verdict "$1, output" kept
    verdict "$1, nothing beside" [ "$(cat beside.disk)" = output ]
}

mkdir disk
if unshare -rm true 2>/dev/null; then apart=-rm; else apart=-m; fi
if unshare "$apart" mount -t tmpfs -o size=8k none disk 2>/dev/null; then
    on_disk "a full disk" "No space left on device"
    if [ "$(id -u)" = 0 ]; then on_disk "a disk that can't be written" "Read-only file system" ro; fi
else
    # no disk can be made: a limit on the length of files
    printf untouched >output
    # shellcheck disable=SC2086
    (trap '' XFSZ && ulimit -f 4 && run relocate image ranges output $region && exit "$status") || status=$?
    verdict "a limit" gave 2 '' "relocate: OUTPUT: File too large"
    verdict "a limit, output" kept
fi
if [ "$(id -u)" != 0 ]; then
    mkdir shut
    chmod 555 shut
    # shellcheck disable=SC2086
    wrong "a folder that can't be written" "relocate: OUTPUT: Permission denied" image ranges shut/output $region
    chmod 755 shut
fi
verdict "nothing left over" [ -z "$(find . -name '.archwend.*')" ]

counted
