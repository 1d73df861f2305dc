#!/usr/bin/env bash
# Runs ./archwend run on jobs: the checked examples, five levels, refused loads, texts that are no jobs, and the rows of
# oracle/differences.txt, whose `ours` line has what is to come. Exit status 0: all as expected.
set -euo pipefail
# a verdict at the end of a pipe counts
shopt -s lastpipe
root=$(cd "$(dirname "$0")/.." && pwd -P)
. "$root/tests/verdict.sh"
room=$(mktemp -d)
trap 'rm -rf "$room"' EXIT
cd "$room"
built run /dev/null

# what the last run printed, without the sentences, which tests/refusals.sh and tests/relocate.sh look at
told() { sed 's/^\(.*number [0-9]*\) .*/\1/' out; }

# as STATUS LINES: what the last run gave, with nothing on standard error
as() { [ "$status" = "$1" ] && [ "$(told)" = "$2" ] && [ ! -s err ]; }

# shows NAME STATUS LINE..: the job on standard input gives that status and those lines
shows() {
    local name=$1 want=$2
    shift 2
    cat >job
    run run job
    verdict "$name" as "$want" "$(printf '%s\n' "$@")"
}

# accepted NAME USED MOVED MERGED REACHED CHANGE..
accepted() {
    local name=$1
    local report=("number 0" "used $2" "moved $3" "merged $4" "reached $5")
    shift 5
    shows "$name" 0 "${report[@]}" "differences $#" "$@"
}

# refused NAME NUMBER [LINES OF THE PLACE]
refused() {
    local name=$1 number=$2
    shift 2
    shows "$name" 1 "number $number" "$@"
}

# wrong NAME LINE: the job on standard input gives status 2, that line, and nothing printed
wrong() {
    cat >job
    run run job
    verdict "$1" gave 2 '' "run: JOB: $2"
    verdict "$1, nothing printed" [ ! -s out ]
}

# ---- the checked examples

# base OFFSET [SIZE [ENTRY OF TABLE 0 [ENTRY OF TABLE 2]]]
base() {
    echo "region 0x100000 ${2:-0x8000} 0x3000"
    echo "load 0x100000 0x1000 0:0x101023 ${3:-}"
    echo "load 0x101000 0x1000 0:0x102023"
    echo "load 0x102000 0x1000 1:0x2000E3 ${4:-}"
    echo "range 0x200000 0x3FFFFF $1"
    echo "build 0x100000 0x0 0x0"
}
leaf=('old address 0x200000' 'level 1' 'size 0x200000')
up=('2 1 2000e3 0' '2 2 0 4000e3')

base 0x1FF000 | accepted "0x1FF000" 0x3000 0 0 3
base 0x200000 | accepted "0x200000" 0x3000 1 0 3 "${up[@]}"
base 0x201000 | refused "0x201000" 12 "${leaf[@]}" 'offset 0x201000'
base 0x40000000 | accepted "0x40000000" 0x4000 1 0 3 '1 1 0 103023' '2 1 2000e3 0' '3 1 0 402000e3'
base 0x40000000 0x3000 | refused "0x40000000 in 0x3000" 19 'new address 0x40200000' 'level 2' 'size 0x40000000'
base -0x200000 | accepted "-0x200000" 0x3000 1 0 3 '2 0 0 e3' '2 1 2000e3 0'
base -0x400000 | refused "-0x400000" 13 "${leaf[@]}" 'offset -0x400000'
base ffffffffffc00000 | refused "-0x400000 as a word" 13 "${leaf[@]}" 'offset -0x400000'
base 0x200000 0x8000 '' 2:0x4000E3 | accepted "its equal is there" 0x3000 1 1 3 '2 1 2000e3 0'
base 0x200000 0x8000 '' 2:0x4000E1 | refused "another is there" 18 'new address 0x400000' 'level 1' 'size 0x200000'
base 0x200000 0x8000 1FF:0x100023 | refused "a table twice" 10 'old address 0xff8000000000' 'level 3' 'size 0x8000000000'
base 0x200000 0x8000 '' 0:0x103023 | refused "into the free tail" 9 'old address 0x0' 'level 1' 'size 0x200000'
base 0x200000 0x8000 '' 0:0x108023 | accepted "a pointer outside" 0x3000 1 0 3 "${up[@]}"
base 0xFFFFFFC00000 | accepted "to 2^48 - 0x200000" 0x5000 1 0 3 \
    '0 511 0 103023' '2 1 2000e3 0' '3 511 0 104023' '4 511 0 ffffffe000e3'
base 0xFFFFFFE00000 | refused "to 2^48" 13 "${leaf[@]}" 'offset 0xffffffe00000'

# ---- five levels

# deep OFFSET: the base's tables under a root of five levels
deep() {
    echo "region 0x100000 0x8000 0x4000"
    echo "load 0x100000 0x1000 0:0x101023"
    echo "load 0x101000 0x1000 0:0x102023"
    echo "load 0x102000 0x1000 0:0x103023"
    echo "load 0x103000 0x1000 1:0x2000E3"
    echo "range 0x200000 0x3FFFFF $1"
    echo "build 0x100000 0x1000 0x0"
}
deep 0x1000000000000 | accepted "five levels, by 2^48" 0x7000 1 0 4 \
    '0 1 0 104023' '3 1 2000e3 0' '4 0 0 105023' '5 0 0 106023' '6 1 0 10000002000e3'
deep 0xfffffffe00000 | refused "five levels, to 2^52" 13 "${leaf[@]}" 'offset 0xfffffffe00000'
refused "five levels, an empty region" 9 'old address 0x0' 'level 5' <<'END'
region 0x100000 0x8000 0x0
build 0x100000 0x1000 0x0
END
# a region that only five levels allow takes a page where the build line asks for them, which comes after the load
accepted "a load with five levels" 0x1000 0 0 1 <<'END'
region 0x1000000000000 0x1000 0x1000
load 0x1000000000000 0x1000 0:0x5
build 0x1000000000000 0x1000 0x0
END
shows "a load with four" 1 "load 0x1000000000000 number 1" "number 1" <<'END'
region 0x1000000000000 0x1000 0x1000
load 0x1000000000000 0x1000 0:0x5
build 0x1000000000000 0x0 0x0
END

# ---- loads

shows "refused loads" 1 "load 0x101000 number 2" "load 0x101000 number 2" "load 0x101000 number 2" "load 0x104001 number 3" \
    "load 0x108000 number 3" "load 0x102000 number 9" \
    "number 0" "used 0x2000" "moved 0" "merged 0" "reached 2" "differences 0" <<'END'
region 0x100000 0x8000 0x2000
load 0x100000 0x1000 0:0x101023
load 0x101000 0xfff 0:0x1
load 0x101000 0x1001 200:0x1
load 0x101000 0xffffffffffffffff 1fffffffffffffff:0x1
load 0x104001 0x1000 0:0x1
load 0x108000 0x1000
load 0x102000 0x1000 0:0x1
load 0x999 0x0
build 0x100000 0x0 0x0
END
accepted "a page anew, and without a word" 0x1000 0 0 1 <<'END'
region 0x100000 0x1000 0x1000
load 0x100000 0x1000 0:0x108023 1ff:0x100023
load 0x100000 0x1000
build 0x100000 0x0 0x0
END

# ---- the text

accepted "blanks, tabs, comments, and what follows the build" 0x3000 1 0 3 "${up[@]}" < <(
    printf '  # \xff\n\n \t\nregion\t100000  8000\t3000 \r\nload 100000 1000 0:101023\n#load\nload 101000 1000 0:102023\n'
    printf ' load 102000 1000 1:2000e3\nrange 200000 3fffff 200000\nbuild 100fff 0 0\nneither this\n'
)
accepted "no newline at the end" 0x1000 0 0 1 < <(printf 'region 0 1000 1000\nbuild 0 0 0')
base 0x200000 >job
{
    head -c $((262144 - $(stat -c %s job))) /dev/zero | tr '\0' '\n'
    cat job
} >long
accepted "262,144 bytes" 0x3000 1 0 3 "${up[@]}" <long
refused "no scratch" 15 "${leaf[@]}" < <(base 0x200000 | sed '$i no scratch')
accepted "1,024 ranges" 0x1000 0 0 1 < <(printf 'region 0 1000 1000\nranges 400 1000\nbuild 0 0 0\n')
refused "1,025 ranges" 8 < <(printf 'region 0 1000 1000\nranges 3ff 1000\nranges 1 13ff\nrange 1400 1400 0\nbuild 0 0 0\n')
refused "more ranges than can be counted" 8 < <(printf 'region 0 1000 1000\nranges ffffffffffffffff 1000\nbuild 0 0 0\n')
refused "a short image" 4 < <(printf 'region 0 2000 2000\nimage 1000\nbuild 0 0 0\n')
refused "a long image" 4 < <(printf 'region 0 200000 200000\nimage ffffffffffffffff\nbuild 0 0 0\n')
refused "more used than there is" 1 < <(printf 'region 0 200000 ffffffffffffffff\nbuild 0 0 0\n')
accepted "2 MiB" 0x200000 0 0 1 < <(printf 'region 0 200000 200000\nbuild 0 0 0\n')

expected='region, image, load, range, ranges, no scratch or build expected'
number='a number in hexadecimal expected'
pair='index:word in hexadecimal expected'
many='too many words'

# wrong_line NAME COMPLAINT LINE: after a region, as line 3
wrong_line() { wrong "$1" "line 3: $2" < <(printf '# a comment\nregion 100000 2000 2000\n%s\nbuild 100000 0 0\n' "$3"); }

wrong_line "an unknown line" "$expected" 'move 1 2 3'
wrong_line "a word that begins as one" "$expected" 'loads 100000 1000'
wrong_line "no, and nothing" "$expected" 'no'
wrong_line "no, and something else" "$expected" 'no scratches'
wrong_line "no image length" "$number" image
wrong_line "no first address" "$number" 'range'
wrong_line "no last address" "$number" 'range 1000'
wrong_line "no offset" "an offset in hexadecimal expected" 'range 1000 1fff'
wrong_line "no offset for the tables" "an offset in hexadecimal expected" 'build 100000 0'
wrong_line "a bad offset" "an offset in hexadecimal expected" 'range 1000 1fff -8000000000000001'
wrong_line "no number" "$number" 'image 0x'
wrong_line "a letter" "$number" 'image 100g'
wrong_line "65 bits" "$number" 'image 10000000000000000'
wrong_line "a sign" "$number" 'image -1000'
wrong_line "no address of a page" "$number" 'load'
wrong_line "no length of a page" "$number" 'load 100000'
wrong_line "a bad length" "$number" 'load 100000 1000h 0:1'
wrong_line "no count" "$number" 'ranges'
wrong_line "no first of many" "$number" 'ranges 2'
wrong_line "a second region" "a second region" 'region 100000 2000 2000'
wrong_line "image, too many" "$many" 'image 2000 0'
wrong_line "range, too many" "$many" 'range 1000 1fff 0 0'
wrong_line "ranges, too many" "$many" 'ranges 1 1000 0'
wrong_line "no scratch, too many" "$many" 'no scratch at all'
wrong_line "build, too many" "$many" 'build 100000 0 0 0'
wrong_line "no colon" "$pair" 'load 100000 1000 0:1 5'
wrong_line "no index" "$pair" 'load 100000 1000 :5'
wrong_line "no word" "$pair" 'load 100000 1000 5:'
wrong_line "a bad word" "$pair" 'load 100000 1000 5:6:7'
wrong_line "a word past the load" "a word past the load" 'load 100000 1000 200:1'
wrong_line "a word past a long load" "a word past the load" 'load 100000 2008 401:1'
wrong_line "a word past an empty load" "a word past the load" 'load 100000 0 0:1'
wrong "no region, a load" "line 1: a region expected first" <<<'load 100000 1000'
wrong "no region, a build" "line 2: a region expected first" < <(printf '\nbuild 100000 0 0\n')
wrong "a region with a number too few" "line 1: $number" <<<'region 100000 2000'
wrong "a region with a number too many" "line 1: $many" <<<'region 100000 2000 2000 2000'
wrong "a wrong load after a refused one" "line 3: $pair" < <(
    printf 'region 100000 2000 2000\nload 1 1000 0:1\nload 100000 1000 1\nbuild 100000 0 0\n'
)
wrong "no build" "no build" <<<'region 100000 2000 2000'
wrong "nothing" "no build" </dev/null
echo >>long
wrong "262,145 bytes" "longer than 262144 bytes" <long

run run nowhere
verdict "a missing job" gave 2 '' "run: JOB: No such file or directory"
run run .
verdict "a folder as job" gave 2 '' "run: JOB: Is a directory"
run help
cp out help
verdict "help" [ "$status" = 0 ]
verdict "help says something" grep -q '^usage: ' help
for words in "run" "run job job" "demo twice" "" "unheard-of"; do
    # shellcheck disable=SC2086
    run $words
    verdict "wrong use: $words" gave 2 '' "$(cat help)"
done

# ---- the rows of oracle/differences.txt

declare -A older newer

# signed WORD: an offset in hexadecimal as the signed number that it is
signed() {
    local value=$((16#$1))
    # the lowest is its own negative, whose digits are right
    if ((value >= 0)); then printf '0x%x' "$value"; else printf -- '-0x%x' $((-value)); fi
}

# loaded: the words of the row's image into older
loaded() {
    local gpa= word rest pair
    older=()
    while read -r word rest; do
        # shellcheck disable=SC2086
        case $word in
        region) gpa=$((16#${rest%% *})) ;;
        load)
            set -- $rest
            if (((16#$1 - gpa) % 4096 == 0)); then
                for pair in "${@:3}"; do older[$(((16#$1 - gpa) / 8 + 16#${pair%:*}))]=${pair#*:}; done
            fi
            ;;
        esac
    done <job
}

# changed USED INDEX:WORD ..: the lines of what an accepted row changes in so many bytes
changed() {
    local k count=0 lines= used=$1 pair
    shift
    newer=()
    loaded
    for pair; do newer[$((16#${pair%:*}))]=${pair#*:}; done
    for k in $(printf '%s\n' "${!older[@]}" "${!newer[@]}" | sort -nu); do
        if ((k * 8 < 16#$used)) && [ "${older[$k]:-0}" != "${newer[$k]:-0}" ]; then
            count=$((count + 1))
            lines+=$'\n'"$((k / 512)) $((k % 512)) ${older[$k]:-0} ${newer[$k]:-0}"
        fi
    done
    echo "differences $count$lines"
}

# the lines of a refusal that the row has as NUMBER at ADDRESS level LEVEL offset OFFSET
place() {
    case $1 in 16 | 17 | 18 | 19) echo "new address 0x$3" ;; *) echo "old address 0x$3" ;; esac
    echo "level $5"
    if (($5 < 5)); then printf 'size 0x%x\n' $((1 << (12 + 9 * $5))); fi
    case $1 in 12 | 13) echo "offset $(signed "$7")" ;; esac
}

# recorded PART: what a run prints for a part of the `ours` line, but for counts that no row has
recorded() {
    # shellcheck disable=SC2086
    set -- $1
    case $1.$2 in
    load.*) echo "load $2" ;;
    build.0) printf 'number 0\nused 0x%s\nmerged %d\n' "$4" $((16#$6)) && changed "$4" "${@:7}" ;;
    *)
        echo "number $2"
        if [ $# -gt 2 ]; then shift && place "$@"; fi
        ;;
    esac
}

rows=0
: >job
while IFS= read -r line; do
    case $line in
    '# D'*)
        name=${line#\# }
        : >job
        ;;
    'ours '*)
        rows=$((rows + 1))
        tr ';' '\n' <<<"${line#ours }" | while IFS= read -r part; do recorded "$part"; done >wanted
        run run job
        told | sed -e 's/^load .* number /load /' -e '/^moved /d' -e '/^reached /d' >got
        verdict "$name" cmp -s wanted got
        case $line in 'ours build 0 '*) want=0 ;; *) want=1 ;; esac
        verdict "$name, status" [ "$status" = "$want" ]
        ;;
    'wraps '* | 'checks '* | '') ;;
    *) printf '%s\n' "$line" >>job ;;
    esac
done <"$root/oracle/differences.txt"
verdict "each row was run" [ "$rows" = "$(grep -c '^# D' "$root/oracle/differences.txt")" ]

counted
