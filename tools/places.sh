#!/usr/bin/env bash
# Lists the places that docs/DESIGN-PASS.md counts, point by point, at a commit (HEAD where none is named).
set -uo pipefail
cd "$(dirname "$0")/.." || exit 1
at=${1:-HEAD}

lines() { # TITLE PATTERN
    printf '== %s\n' "$1"
    git grep -nP "$2" "$at" -- ':(glob)crates/*/src/**' | sed 's/^[^:]*://'
}

often() { # TITLE PATTERN LEAST: what stands in at least so many lines, with how many
    printf '== %s\n' "$1"
    git grep -hoP "$2" "$at" -- ':(glob)crates/*/src/**' | sort | uniq -c | awk -v least="$3" '$1 >= least'
}

lines '1 enums, to be read' '^(pub(\(\w+\))? )?enum \w'
lines '1 refusals by a flag' 'fn (push|add|write)\(.*-> bool'
lines '1 numbers for kinds, refusals and null' 'fn number\(|const NULL'
often '2 functions of one name, to be read' '^ *(pub(\([a-z]+\))? )?(const )?fn \K\w+' 2
lines '2 a field for each attribute' '^    pub [am][0-3]: '
lines '3 loops over an index or a condition' '^ *(while|loop)\b|^ *for \w+ in [^{]*\.\.'
lines '3 loops that search or fold, to be read' '^ *for [^{]* in (?![^{]*\.\.)'
lines '4 written by hand' '^impl.* (Clone|Copy|PartialEq|Eq|PartialOrd|Ord|Drop) for |fn (number|layer|hex_digit|one_if_some|rule_words|yes_or_no)\('
often '5 clauses that stand three times or more' 'ensures( \w+)? \K\{.*' 3
often '5 parameters that stand three times or more' 'fn \w+(<.*>)?\K\([^)]*,[^)]*\)' 3
lines '6 a length beside, lent memory, fixed room' 'len: usize,|used: usize,|\w: &.a mut \[|\w: \[\w+; \w+\],'
lines '7 a switch on what to run, tables of functions' 'Touch::|how: |: fn\(|\[fn'

printf '== 8 proofs: files of answers, of invariants, all lines\n'
git ls-tree -r --name-only "$at" -- crates | grep -c 'proofs/.*Answers\.antt$'
git ls-tree -r --name-only "$at" -- crates | grep -c 'proofs/.*Invariants\.antt$'
git ls-tree -r --name-only "$at" -- crates | grep 'proofs/.*\.antt$' | while read -r file; do git show "$at:$file"; done | wc -l
