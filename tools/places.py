#!/usr/bin/env python3
"""Counts what docs/DESIGN-PASS.md counts: for each of its points the places in crates/*/src at a commit (the tree as it is, with
no commit), by the forms that a text search can see. tools/places.py [COMMIT] [-v]"""
import difflib
import re
import subprocess
import sys


def files(commit):
    if commit:
        names = subprocess.check_output(['git', 'ls-tree', '-r', '--name-only', commit, 'crates'], text=True).split('\n')
    else:
        names = subprocess.check_output(['git', 'ls-files', '-co', '--exclude-standard', 'crates'], text=True).split('\n')
    for name in sorted(names):
        if not re.fullmatch(r'crates/\w+/(src/.*\.rt|proofs/.*\.antt)', name):
            continue
        if commit:
            yield name, subprocess.check_output(['git', 'show', f'{commit}:{name}'], text=True)
        else:
            try:
                yield name, open(name).read()
            except FileNotFoundError:
                pass


def functions(text):
    """(name, parameters, clauses and body) of each function; rt fmt's layout is relied on."""
    for m in re.finditer(r'^( *)(?:pub(?:\(\w+\))? )?(?:extern "C" )?(?:const )?fn (\w+)(?:<[^\n]*?>)?\(', text, re.M):
        end = text.find('\n' + m.group(1) + '}', m.end())
        whole = text[m.end():end]
        depth, i = 1, 0
        while depth:
            depth += {'(': 1, '[': 1, '<': 1, ')': -1, ']': -1}.get(whole[i], 0)
            if whole[i] == '>' and whole[i - 1] != '-':
                depth -= 1
            i += 1
        # parameters are split at the commas outside brackets
        params, depth, start = [], 0, 0
        for k, c in enumerate(whole[:i - 1]):
            depth += {'(': 1, '[': 1, '<': 1, ')': -1, ']': -1}.get(c, 0)
            if c == '>' and whole[k - 1] != '-':
                depth -= 1
            if c == ',' and not depth:
                params.append(whole[start:k])
                start = k + 1
        params.append(whole[start:i - 1])
        yield m.group(2), [p.strip() for p in params if p.strip()], whole[i:]


def body(rest):
    cut = re.search(r'^ *\{$| \{$', rest, re.M)
    return rest[cut.end():] if cut else rest


def main():
    args = [a for a in sys.argv[1:] if a != '-v']
    verbose = '-v' in sys.argv
    source, proofs = [], []
    for name, text in files(args[0] if args else None):
        (source if name.endswith('.rt') else proofs).append((name, text))

    def lines(pattern):
        for name, text in source:
            for i, line in enumerate(text.split('\n'), 1):
                if re.search(pattern, line) and not line.lstrip().startswith('//'):
                    yield f'{name}:{i}: {line.strip()}'

    def report(what, found):
        found = list(found)
        print(f'{len(found):4} {what}')
        if verbose:
            for f in found:
                print('       ', f)

    report('1: own enums', lines(r'^(pub(\(\w+\))? )?enum '))
    report('1: numbers as constants, for refusals, kinds and places', lines(r'^(pub )?const [A-Z_0-9]+: (u64|usize) = [0-9]+;'))
    report('1: numbers of refusals handed on', lines(r'\bnumber: u64|-> u64 *$.*number|\.number\b|refusals::[A-Z]'))
    report('1: flags that say whether a value is there', lines(r'\b(has_\w+|was): bool'))

    bodies = []
    for name, text in source:
        crate = name.split('/')[1]
        for function, _, rest in functions(text):
            tokens = re.findall(r'\w+|[^\w\s]', re.sub(r'"[^"]*"', 'TEXT', body(rest)))
            shape = ['0' if re.fullmatch(r'[0-9].*|[A-Z_0-9]+|u8|u32|u64', t) else t for t in tokens]
            if len(shape) >= 12:
                bodies.append((crate, function, shape))
    pairs = []
    for i, (crate, f, a) in enumerate(bodies):
        for other, g, b in bodies[i + 1:]:
            if crate != other or min(len(a), len(b)) * 2 < max(len(a), len(b)):
                continue
            alike = difflib.SequenceMatcher(None, a, b, autojunk=False).ratio()
            if alike >= 0.8:
                pairs.append(f'{crate}: {f}, {g} ({alike:.2f})')
    report('2: pairs of functions of a crate whose bodies are alike to four fifths, but for numbers, texts and widths', pairs)

    report('3: while loops', lines(r'^\s*while '))
    report('3: for loops', lines(r'^\s*for '))

    report('4: own conversions, and std functions in place of methods', lines(r'fn wide|fn ones_of|std::num::|u64::count_ones|u32::trailing_zeros'))
    report('4: own comparisons', lines(r'fn same\(|fn empty\(words|check::same|fn blank\(bytes'))
    report('4: functions that print or name, in place of Display', lines(r'fn (put|put_\w+|print\w*|sentence|write|write_\w+|\w+_line|text|number)(<\w+>)?\(\w+: &(impl Print|str)|fn (sentence|put_\w+)\('))
    report('4: fields that are written as f: f', lines(r'^\s*(\w+): \1,$'))

    wide = []
    for name, text in source:
        for function, params, _ in functions(text):
            if len(params) >= 6:
                wide.append(f'{name}: {function} ({len(params)})')
    report('5: functions of six parameters or more', wide)

    report('6: arrays and slices with a count beside them', lines(r'\b(count|words|front|back|length): (usize|u64),|&mut \[u64; (4|REGISTERS)\]'))
    report('7: flags that choose what to do', lines(r'\bis_\w+: bool'))

    answers = lets = 0
    for name, text in proofs:
        if name.endswith('/Answers.antt'):
            answers += len(re.findall(r'^pub \S+ : goal\.', text, re.M))
            lets += len(re.findall(r'^ +let ', text, re.M))
    print(f'{answers:4} 8: answers')
    print(f'{lets:4} 8: lets in them')


main()
