#!/usr/bin/env bash
# Each refusal has one name, one number and one sentence in the definitions, the header and the loader. Exit status 0: all agree.
set -euo pipefail
cd "$(dirname "$0")/.."
room=$(mktemp -d)
trap 'rm -rf "$room"' EXIT

# Each list has lines NUMBER NAME: SENTENCE. A refusal in another form stays as it stands, and so differs from the other lists. In
# the header and in the definitions a sentence may stand on lines of its own; there the enum has the numbers, Display the sentences.
code=crates/definitions/src/refusals.rt
snake() { sed -E 's/([a-z0-9])([A-Z])/\1_\2/g' | tr '[:lower:]' '[:upper:]'; }
sed -n 's/^ *\([A-Z][A-Za-z0-9]*\) = \([0-9]*\),$/\2 \1/p' "$code" | snake >"$room/names_in_code"
tr -s '\n ' '  ' <"$code" | grep -o 'Error::[^ ]* => *"[^"]*"' | sed 's/^Error::\([^ ]*\) => *"\(.*\)"$/\1: \2/' |
    while IFS=: read -r name sentence; do
        sed -n "s/^\([0-9]* $(printf '%s' "$name" | snake)\)$/\1:/p" "$room/names_in_code" | tr -d '\n'
        printf '%s\n' "$sentence"
    done >"$room/definitions"
sed -n '/^enum archwend_number/,/^}/p' include/archwend.h |
    grep -v -e '^enum' -e '^ *ARCHWEND_OK = 0,$' -e '^ */\* 5 is out of use\. \*/$' -e '^}' |
    tr -s '\n ' '  ' | sed 's| \*/ *|\n|g' |
    sed 's|^ *ARCHWEND_\([A-Z0-9_]*\) = \([0-9]*\),\{0,1\} /\* \(.*\)$|\2 \1: \3|' >"$room/header"
sed -n '/^refusals! {/,/^}/s/^ \+//p' loader/src/refusals.rs |
    sed 's/^\([A-Z0-9_]*\) = \([0-9]*\), "\(.*\)";$/\2 \1: \3/' >"$room/loader"
failed=0
same() { # NAME FILE NAME FILE
    diff --label "$1" --label "$3" -u "$2" "$4" || failed=1
}
cut -d: -f1 "$room/header" >"$room/names"
same names "$room/names_in_code" header "$room/names"
same definitions "$room/definitions" header "$room/header"
same header "$room/header" loader "$room/loader"
# A number out of use stays so: whoever met a 5 knows what it was.
{ seq 20 | grep -vx 5 && echo 34; } >"$room/numbers"
cut -d' ' -f1 "$room/header" >"$room/given"
same numbers "$room/numbers" header "$room/given"
if [ $failed = 0 ]; then echo "refusals: $(wc -l <"$room/header"), the same in all three"; else echo "refusals: FAILED"; fi
exit $failed
