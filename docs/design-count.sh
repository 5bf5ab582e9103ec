#!/usr/bin/env bash
# Counts the places of each point of docs/DESIGN-PASS.md in crates/*/src of a commit: bash docs/design-count.sh COMMIT [POINT]. With a point, its places are listed.
set -euo pipefail
cd "$(dirname "$0")/.."
commit=${1:?a commit}
point=${2:-}

count() { # the point, what is counted, the pattern
    local found
    found=$(git grep -nP "$3" "$commit" -- 'crates/*/src/*.rt' | sed "s/^$commit://" || true)
    if [ -z "$point" ]; then
        printf '%s  %4d  %s\n' "$1" "$(printf '%s' "$found" | grep -c . || true)" "$2"
    elif [ "$point" = "$1" ]; then
        printf -- '-- %s\n%s\n' "$2" "$found"
    fi
}

count 1 'types with a number for what is refused, or a flag beside what it guards' '^\s+(pub )?number: u32,|^\s+pub (over|more|broken): bool,'
count 1 'answers with an index or a number that stands for none' '^\s*//.*(where there is none|where all are\.|none yet|; n where all are|the length of out where|else 0\.$|16 for one|the number 0 (says|with)|8 or 9 for a term)'
count 1 'refusals made of a number' '\bnumber: \w+,$|(refused|refusal|Input::new)\((rt, )?[0-9]+, '
count 1 'tests of such a number or flag' '\bif (over|over1|over2|number|fault|beyond|!held\.more)\b(?!\()|\bif \w+\.number\b'
count 1 'bytes that stand for a kind of line' '(?<!= )0x8[1-5]|(?<!= )0xff|, kind: (u8|u32)|starts_frame\(text, (0|at), [123],'
count 2 'functions that differ from another in a type, an array or a constant alone' 'fn (add|swap|negate|rotate)_[tv]\(|fn fill_(matrix|exponents)\(|fn (is_zero|is_none|product|product64|dot|wide_dot|translated|signed16|signed32|both|either|first_bad|first_large|first_out|quotient|floor_quotient)\('
count 3 'loops that are no for' '^\s*(.[a-z]+: )?while |\bloop \{'
count 3 'counters that are moved by hand' '^\s*\w+ [+-]= 1;|^\s*(at|len|p) = '
count 4 'conversions and tests by hand' 'fn (signed16|signed32|bits|low|four_bytes|wide|minus|size|opposite|is_zero|is_none|is_negative|copy|put|get|product|product64|remainder|at_most_8|within|in_range|newline|table|negative)\('
count 4 'conversions by as' ' as (i32|i64|u32|u64|usize|u8)\b'
count 5 'requires of a fact that stands in three or more contracts' 'requires.*\{.*\b(WellFormed|TermOf|Prepared|Lists|Fine|Within|all_digits|Divisible)\b'
count 5 'parameters that always travel together' '\bn: usize, matrix: &|^\s+n: usize,$|m: usize, cols: usize|^\s+m: usize,$|x: &\[i32\], base: usize|es: &\[i32\], start: usize|^\s+start: usize,|at: usize, stride: usize|text: &\[u8\], at: usize|out: &mut \[u8\], at: usize|zs: &\[i32\], from: usize'
count 6 'arrays with a count beside them' '^\s+bytes: \[u8; TEXT_BYTES\]|^\s+pub (rows: \[usize; 8\]|bytes: \[u8; TEXT_BYTES\]|moduli: \[i32; 8\]|matrix: \[i32; 128\]|coefficients: \[|exponents: \[|x: \[i64; 24\]|values: \[f64; 16\]|t: \[|v: \[|w: \[)|: \[i32; (129|9|65|1025)\]'
count 6 'entries reached by an index that is worked out' '\[[a-z]+ \+ [^\]]+\]|\[[a-z]+ \* [^\]]+\]'
count 7 'a switch that is handed on' '\bstage2\b.*(bool|,$)|stage2: bool'
