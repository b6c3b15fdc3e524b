#!/bin/sh
# Lists the lines that may be places of the points of docs/DESIGN-PASS.md, for the checkout given (this one, if none is): `bash docs/design-pass.sh [FOLDER]`.
# With a second word, a number from 1 to 8, that point alone. The page says which of the lines are places.
cd "${1:-$(dirname "$0")/..}" || exit 1
only=$2
point() { [ -z "$only" ] || [ "$only" = "$1" ]; }
look() { grep -rnE --include=*.rt "$1" crates/*/src; }
count() { tee /dev/stderr 2>&1 | wc -l; }

if point 1; then
    echo "1a numbers for kinds and refusals:"; look 'const [A-Z_]+: u8 =|-> i64|Result<bool, '
    echo "1b a number or a bool that says that there is none:"; look 'fn push\(.*-> bool|place: 0,$|place == 0|second: u32,$|fn best_alone.*usize'
    echo "1c Option and Result taken apart by hand:"
    look 'Err\([a-zA-Z_]+\) => (refused|Err\(|return Err)|None => (Err\(|None|false|true|NOTHING|NO_HOUSE|"")'
    grep -rnE -A1 --include=*.rt 'let (Some|Ok)\(.*\) = .* else \{$' crates/*/src | grep -E 'return (None|Err|Ok|false|0)'
fi
if point 2; then
    echo "2 pairs of places of the same shape, by the command duplicates:"
    copy=$(mktemp -d) && for f in $(find crates/*/src -name '*.rt'); do mkdir -p "$copy/$(dirname "$f")" && cp "$f" "$copy/${f%.rt}.rs"; done
    (cd "$copy" && duplicates --most 100)
    echo "2 functions whose names differ in a width or a type:"; look 'fn [a-z_]*(u8|u16|u32|u64|one|two|pair|single)[a-z_]*(<|\()' 
fi
if point 3; then
    echo "3 loops that are no for over values:"; look 'for [a-z_]+ in \(?[0-9a-z_().]+\.\.|while |loop \{'
fi
if point 4; then
    echo "4 equality, order, conversion and printing by hand:"
    look 'fn (number|from_number|is_same|is_before|digit_of|digit|piece|kind_of|code_of|refused|longer|told)\(|_le_bytes|% 256|% 65536|[*] 256|4294967296| as (u8|u16|char|u64|i64|usize)'
fi
if point 5; then
    echo "5 facts and parameters that stand in three functions or more of a crate:"
    python3 - <<'PY'
import re, glob, collections, itertools
for crate in sorted(set(f.split('/')[1] for f in glob.glob('crates/*/src/*.rt'))):
    facts, groups = collections.defaultdict(set), collections.defaultdict(set)
    for f in glob.glob(f'crates/{crate}/src/**/*.rt', recursive=True):
        text = open(f).read()
        for m in re.finditer(r'fn (\w+)(?:<[^(]*>)?\(([^)]*)\)[^{]*?((?:\n\s+(?:requires|ensures)[^\n]*)*)\n', text):
            name = f + ':' + m.group(1)
            for clause in re.findall(r'requires \w*\s*\{ (.*) \}', m.group(3)):
                for fact in re.split(r' × ', clause):
                    facts[re.sub(r'\.(now|old|entry)|[()]', '', fact).strip()].add(name)
            ps = [p.strip() for p in m.group(2).split(',') if ':' in p]
            for k in (2, 3):
                for g in itertools.combinations(ps, k):
                    groups[', '.join(g)].add(name)
    for what, table in (('fact', facts), ('parameters', groups)):
        for key, names in sorted(table.items()):
            if len(names) >= 3:
                print(f'{crate}: {what} {{{key}}} in {len(names)}')
PY
fi
if point 6; then
    echo "6 arrays, and numbers beside them:"; look '\[[A-Za-z0-9<>]+; ?[0-9A-Z]+\]|count: usize'
fi
if point 7; then
    echo "7 switches on steps, tables of functions:"; look '\[fn|: fn\(|dyn |match (step|stage|phase|state)'
fi
if point 8; then
    echo "8 files of answers, entries in them, and lines of proofs:"
    find crates/*/proofs -name Answers.antt | wc -l
    find crates/*/proofs -name Answers.antt -exec grep -hE '^pub ' {} + | wc -l
    find crates/*/proofs -name '*.antt' -exec cat {} + | wc -l
fi
