#!/usr/bin/env python3
"""Brings the repository's own definitions and lemmas to the spelling of today's Rattle: words in snake case.

usage: python3 tools/spelling.py      once, at the top, after the kit's port.py and before any edit by hand

Names of src/, exported names, strings, inputs and outputs stay. A lemma that would fall together with what it is about gets `_lem`.
Must-fail edits and the pages get the new names too; what an edit still misses is said at the end.
"""

import collections
import os
import re

# What port.py named already: the edits and the pages have the old names of these.
PORTED = """add-at address-is address-spec address-word after-is and-both and-l and-r andThen answerOf as-before as-long at-address at-goes
at-leaf at-most at-ok atMost back-at baseOf bit-at bits-are by-count by-first by-lines byte-at byteCount byteOf bytes-pos bytesOf
clear-spec close-spec copy-spec count-ones count-spec counts-same digits-from distinct-append each-fits endAt endOf entry-at entry-done
entryAt fill-spec find-spec fine-before first-byte first-one fits-iff fits-mask found-as found-back found-front freshOf from-cons
front-length gap-back goes-at goes-in held-number in-leaf in-members in-order in-place in-table inSpan inTable indexOf is-known is-read
jobOf kindOf leaf-fields leave-spec leaves-none lies-at limit-is lineAt lineOf lines-more linkIn listed-in load-below load-past low-bits
low-first mark-spec mask-is merge-none met-of moved-at moved-before moved-by moves-not no-kind no-room no-sign no-words no-zero
none-before none-done none-in none-spec not-after not-earlier not-free not-taken number-is number-lt number-past number-same numberOf
of-part offset-word one-addr one-answer one-bit one-found one-index one-left one-less one-more one-none one-number one-place one-set
one-shl one-size one-split one-table orZero pages-split part-of part-step part-up partOf place-is place-of placeOf planOf pointer-read
put-in put-other put-same put-spec put-three puts-word rangeOf read-spec readingOf reads-first reads-in ready-with same-bit same-bits
same-length same-number same-ok same-place same-shape same-stop sameList sameWords says-past saysOf second-is seen-at seen-back
seen-first seen-read shift-in signedOf size-is slotOf sorted-back sorted-front span-pos start-of startOf stateOf store-split tableAt
tableOf taken-at taken-false taken-more taken-none taken-true taken-yes trailing-even trailing-odd turn-is turnOf upTo walk-at
walk-start went-down word-set wordAt wordOf words-append words-are wordsOf written-at zero-left""".split()
# Lemmas whose name would be that of a definition, by file.
LEMMAS = {
    "crates/definitions/proofs/Differing.antt": ["page-start", "page-length"],
    "crates/definitions/proofs/Entry.antt": ["table-unit", "leaf-unit"],
    "crates/definitions/proofs/Geometry.antt": ["indices-from", "part_of"],
    "crates/definitions/proofs/Checks.antt": ["list-ok", "each-ok"],
    "crates/demands/proofs/Bytes.antt": ["output-length", "reads_in"],
    "crates/demands/proofs/Both/FirstPlace.antt": ["in_leaf"],
    "crates/demands/proofs/Both/Refused.antt": ["in-span", "no_room"],
    "crates/demands/proofs/Both/Sound.antt": ["table-at"],
    "crates/archwend/proofs/Headlines.antt": ["report-read"],
    "crates/demands/proofs/Pass1/Sources.antt": ["entry_at"],
    "crates/reached/proofs/One.antt": ["same-words"],
    "crates/compare/proofs/Part.antt": ["first_byte", "byte-count"],
    "crates/compare_files/proofs/Pages.antt": ["page-lines", "at_most"],
    "crates/entry/proofs/Bits.antt": ["fresh-leaf", "leaf_fields"],
}
TOKEN = re.compile(r"[^\s(){}\[\],;.`\"·:=|]+")
DECLARED = re.compile(r"^(?: {4})?(?:(?:pub|abbrev|unfoldable)\s+)*([^\s:(){}=,]+)(?:\s+[({].*?)?\s+:(?:\s+(.*))?$")
WORD = re.compile(r"(?<![^\s(){}\[\],;`])[^\s(){}\[\],;.`\"·:=|]+")
USE = re.compile(r"\b(?:ghost )?use ([^\s{;]+?)\.\{([^}]*)\}")
# The older spelling inside edits.
EDITS = [
    (re.compile(r"\(\(([a-z]\w*) ((?:\.\w+ ?)+)\)\)"), lambda m: "(" + m.group(1) + m.group(2).replace(" ", "") + ")"),
    (re.compile(r"\(([a-z]\w*) ((?:\.\w+ ?)+)\)"), lambda m: m.group(1) + m.group(2).replace(" ", "")),
    (re.compile(r"\b([a-z]\w*) (\.[a-z]\w*)"), lambda m: m.group(1) + m.group(2)),
    (re.compile(r"(\.[a-z]\w*) (?=\.[a-z])"), lambda m: m.group(1)),
    (re.compile(r"\bgetD\b"), lambda m: "get_or"),
    (re.compile(r"⌜ (.*?) ⌝"), lambda m: m.group(1)),
    (re.compile(r"\bentry\b(?= ≡)"), lambda m: m.group(0)),
]


def snake(name):
    made = name.replace("-", "_").replace("′", "'")
    if made[0].islower():
        made = re.sub(r"([a-z0-9₀-₉])([A-Z])", lambda m: m.group(1) + "_" + m.group(2).lower(), made)
    return made


def read(path):
    with open(path, encoding="utf-8") as f:
        return f.read()


def write(path, text):
    with open(path, "w", encoding="utf-8") as f:
        f.write(text)


def files(ends, top="crates"):
    for folder, dirs, names in os.walk(top):
        dirs[:] = sorted(d for d in dirs if d not in ("out", "target", ".git"))
        for name in sorted(names):
            if name.endswith(ends):
                yield os.path.join(folder, name)


def foreign(where):
    """Whether a module is of the kit."""
    return not re.match(r"Rattle\.\w+\.(specs|proofs)\b", where) or where.startswith("Rattle.std.")


def module(path):
    _, crate, kind, rest = path.split("/", 3)
    return f"Rattle.{crate}.{kind}." + rest[: -len(".antt")].replace("/", ".")


def declared():
    names = collections.defaultdict(set)
    for path in files(".antt"):
        for line in read(path).splitlines():
            m = DECLARED.match(line)
            if m and not (m.group(2) or "").startswith("tie.") and m.group(1) not in ("let", "use", "--", "in"):
                names[m.group(1)].add(path)
    return names


def local(text):
    taken = set()
    for m in USE.finditer(text):
        if foreign(m.group(1)):
            taken |= {n.strip().split(" as ")[0] for n in m.group(2).split(",")}
    for line in text.splitlines():
        line = line.partition("--")[0]
        if not re.match(r"\s*(pub )?use ", line):
            yield from (w for w in WORD.findall(line) if w not in taken and re.match(r"[a-z].*(-|[a-z][A-Z])", w))


def main():
    names = declared()
    # what no proof of a function names after the function's source: all words of specs/ and of the lemma files, local ones too
    for path in files(".antt"):
        if not path.endswith("/Proof.antt"):
            for word in local(read(path)):
                names[word].add(path)
    new = {n: snake(n) for n in names if "◌" not in n and n[0].isalpha() and snake(n) != n}
    lem = {(module(p), n): snake(n) + "_lem" for p, ns in LEMMAS.items() for n in ns}
    for path in files((".antt", ".rt")):
        text = read(path)
        mine = dict(new)
        here = module(path) if path.endswith(".antt") else ""
        for m in USE.finditer(text):
            for name in re.split(r",\s*", m.group(2)):
                name = name.strip().split(" as ")[0]
                if foreign(m.group(1)):
                    mine.pop(name, None)
                elif (m.group(1), name) in lem:
                    mine[name] = lem[m.group(1), name]
        for (where, name), to in lem.items():
            if where == here:
                mine[name] = to
        code = path.endswith(".rt")
        out = []
        for line in text.splitlines(keepends=True):
            parts = re.split(r'("(?:[^"\\]|\\.)*")', line) if code else [line]
            out.append("".join(p if code and k % 2 else TOKEN.sub(lambda m: mine.get(m.group(0), m.group(0)), p) for k, p in enumerate(parts)))
        if "".join(out) != text:
            write(path, "".join(out))
    said = dict(new) | {n: snake(n) for n in PORTED} | {n: snake(n) + "_lem" for ns in LEMMAS.values() for n in ns if snake(n) != n}
    for path in files(".md", ".") :
        text = read(path)
        turned = re.sub(r"`[^`\n]*`", lambda m: TOKEN.sub(lambda t: said.get(t.group(0), t.group(0)), m.group(0)), text)
        if turned != text:
            write(path, turned)
    missed = 0
    for path in files(".edit"):
        at, out, gone = None, [], []
        for line in read(path).splitlines():
            key, _, value = line.partition(": ")
            if key == "file":
                at = os.path.join(os.path.dirname(os.path.dirname(path)), value.strip())
            if key in ("old", "new"):
                for pattern, to in EDITS:
                    value = pattern.sub(to, value)
                value = TOKEN.sub(lambda t: said.get(t.group(0), t.group(0)), value)
                if key == "old" and read(at).count(value) != 1:
                    gone.append(value)
                line = key + ": " + value
            out.append(line)
        write(path, "\n".join(out) + "\n")
        if gone:
            missed += 1
            print(f"{path}: {gone[0]}")
    print(f"spelling: {len(new)} names, {missed} edits to mend by hand")


main()
