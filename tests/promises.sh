#!/usr/bin/env bash
# The specification, the comments that cite it and docs/PROMISES.md fit together and fit the code: see the six headings below.
# A line for each failure; exit status 0: none.
set -euo pipefail
cd "$(dirname "$0")/.."
export LC_ALL=C
spec=docs/SPECIFICATION.md
page=docs/PROMISES.md
room=$(mktemp -d)
trap 'rm -rf "$room"' EXIT
: >"$room/failures"
fail() { printf '%s\n' "$*" >>"$room/failures"; }

# The paragraphs of the specification, those of the examples' table too.
sed -n 's/^|\{0,1\} *\([0-9][0-9]*\.[0-9][0-9]*\)[. ].*/\1/p' "$spec" | sort -u >"$room/paragraphs"
paragraph() { grep -Fxq -- "$1" "$room/paragraphs"; }

# ---- 1. FILE:NAME of the pages is declared in that file. OWNER.NAME: in the record or data OWNER; OWNER::NAME: in its impl.
declared() { # FILE NAME
    case $1 in
    *.rt) awk -v name="${2##*::}" -v owner="$(case $2 in *::*) echo "${2%%::*}" ;; esac)" '
        { sub(/\/\/.*/, "") }
        /^impl/ { inside = $0; sub(/^impl(<[^>]*>)? /, "", inside); sub(/[^A-Za-z0-9_].*/, "", inside) }
        /^}/ { inside = "" }
        $0 ~ "(^| )(fn|struct|enum|const) " name "([^A-Za-z0-9_]|$)" && inside == owner { found = 1 }
        END { exit !found }' "$1" ;;
    *) awk -v name="${2#*.}" -v owner="$(case $2 in *.*) echo "${2%%.*}" ;; esac)" '
        { sub(/--.*/, "") }
        /^ *$/ { next }
        {
            match($0, /^ */); deep = RLENGTH
            if (deep <= at) inside = 0
            # what is declared stands before the first colon; before a parameter only in a record or data
            cut = match($0, /[:({=]/)
            sign = substr($0, cut, 1)
            count = split(cut ? substr($0, 1, cut - 1) : "", word, " ")
            opens = 0
            for (i = 1; i <= count; i++) if (word[i] == "record" || word[i] == "data") opens = 1
            if (sign != ":" && !(opens && sign != "=")) next
            if (word[1] == "let" || word[1] == "use" || word[1] == "module") next
            for (i = 1; i <= count; i++) {
                if (word[i] == name && (owner == "" || inside)) found = 1
                if (opens && word[i] == owner) { inside = 1; at = deep }
            }
        }
        END { exit !found }' "$1" ;;
    esac
}
{ grep -ohE '`[A-Za-z0-9_/-]+\.(antt|rt):[^` ]+`' "$page" docs/THEOREMS.md || true; } | tr -d '`' | sort -u >"$room/names"
while IFS=: read -r file name; do
    case $file in
    */*) path=crates/$file ;;
    *) path=crates/definitions/specs/$file ;;
    esac
    if [ ! -f "$path" ]; then
        fail "$file:$name: no such file"
    elif ! declared "$path" "$name"; then
        fail "$file:$name: not declared there"
    fi
done <"$room/names"

# ---- 2. Each paragraph that is cited is there.
{ grep -raonE '§[0-9]+(\.[0-9]+)?' --exclude-dir=target --exclude-dir=out README.md crates crates.txt docs include loader oracle tests || true; } |
    while IFS=: read -r file line cited; do
        paragraph "${cited#§}" || fail "$file:$line: $cited is no paragraph of $spec"
    done

# ---- 3. Each paragraph of sections 2 to 10 and 14 has a row, and each row names what it is about: a declaration, or a file.
sed -n 's/^| \([0-9][0-9]*\.[0-9][0-9]*\)[a-z]\{0,1\} |.*/\1/p' "$page" | sort -u >"$room/rows"
while read -r number; do
    paragraph "$number" || fail "$page: the row $number has no paragraph"
done <"$room/rows"
grep -E '^([2-9]|10|14)\.' "$room/paragraphs" >"$room/due"
while read -r number; do
    grep -Fxq "$number" "$room/rows" || fail "$page: no row for $number"
done <"$room/due"
awk '/^\| [0-9]+\.[0-9]+[a-z]? \|/ && !/`/ { print FILENAME ":" FNR ": the row names nothing" }' "$page" >>"$room/failures"
sed '/^## Wrong programs/,$d' "$page" | { grep -oE '`[a-z]+/[A-Za-z0-9_./-]+`' || true; } | tr -d '`' | sort -u |
    while read -r file; do
        [ -e "$file" ] || fail "$page: no file $file"
    done

# ---- 4. Each quote in a comment that cites paragraphs stands in one of these; .. is a gap.
awk -v spec="$spec" '
    function tidy(text) { gsub(/[ \t]+/, " ", text); return text }
    # whether the parts of the quote stand in the text, one after the other
    function stands(quote, text,    parts, n, i, where) {
        n = split(quote, parts, / *\.\. */)
        for (i = 1; i <= n; i++) {
            where = index(text, parts[i])
            if (!where) return 0
            text = substr(text, where + length(parts[i]))
        }
        return 1
    }
    function close_comment(    cited, n, rest, i, quote, found) {
        rest = comment
        while (match(rest, /§[0-9]+\.[0-9]+/)) {
            cited[++n] = substr(rest, RSTART + length("§"), RLENGTH - length("§"))
            rest = substr(rest, RSTART + RLENGTH)
        }
        rest = comment
        while (n && match(rest, /"[^"]*"/)) {
            quote = substr(rest, RSTART + 1, RLENGTH - 2)
            rest = substr(rest, RSTART + RLENGTH)
            quotes++
            found = 0
            for (i = 1; i <= n; i++) if (stands(quote, paragraph[cited[i]])) found = 1
            if (!found) print file ":" line ": not in the paragraph cited: \"" quote "\""
        }
        comment = ""
    }
    FILENAME == spec {
        if (match($0, /^[0-9]+\.[0-9]+\. /)) { now = substr($0, 1, RLENGTH - 2); $0 = substr($0, RLENGTH + 1) }
        if (match($0, /^#/)) now = ""
        if (now != "") paragraph[now] = tidy(paragraph[now] " " $0)
        next
    }
    FNR == 1 || !/^ *--/ { close_comment() }
    /^ *--/ { if (comment == "") { file = FILENAME; line = FNR } sub(/^ *-- */, ""); comment = tidy(comment " " $0) }
    END { close_comment(); print quotes + 0 }' "$spec" crates/definitions/specs/*.antt >"$room/quotes"
sed '$d' "$room/quotes" >>"$room/failures"

# ---- 5. Each must-fail edit that is named is there.
sed -n '/^## Wrong programs/,$p' "$page" | { grep -oE '`[a-z0-9_]+/[a-z0-9_]+`' || true; } | tr -d '`' | sort -u >"$room/edits"
while read -r edit; do
    [ -f "crates/${edit%/*}/must-fail/${edit#*/}.edit" ] || fail "$page: no edit $edit"
done <"$room/edits"

# ---- 6. What crates/archwend_c exports has the parameters and clauses of archwend's function of its name.
signatures() { # CRATE
    sed -n '/^pub .*fn archwend_/,/^{$/p' "crates/$1/src/lib.rt" "crates/$1/src/entries.rt" | tr -s ' \n' '  ' |
        sed -e 's/ extern "C"//g' -e 's/( /(/g' -e 's/, *)/)/g' -e 's/ { pub /\npub /g'
}
diff <(signatures archwend) <(signatures archwend_c) | sed -n 's/^[<>] /archwend and archwend_c differ: /p' >>"$room/failures" || :

if [ -s "$room/failures" ]; then
    cat "$room/failures"
    echo "promises: FAILED, $(wc -l <"$room/failures") not found"
    exit 1
fi
echo "promises: $(wc -l <"$room/names") names, $(wc -l <"$room/due") paragraphs, $(tail -n 1 "$room/quotes") quotes," \
    "$(wc -l <"$room/edits") edits, all found"
