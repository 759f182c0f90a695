#!/bin/bash
# The places in src/ that a design pass looks at, found by their text: `bash tools/places.sh` counts them for each point of
# docs/DESIGN-PASS.md, and `bash tools/places.sh 3` prints those of one point. What a place is worth is for a reader to say.
cd "$(dirname "$0")/.." || exit 1
files() { git ls-files 'crates/*/src/*.rt' 'crates/*/src/*/*.rt' | sort -u; }
code() { files | xargs grep -nE -e "$1" | grep -vE ':[0-9]+:\s*//'; }
heads() { files | xargs cat | tr '\n' ' ' | grep -oE '\bfn [a-z_0-9]+(<[^(]*>)?\([^)]*\)'; }

point() {
    case $1 in
    # own enums, a refusal as a number, a flag beside a value
    1) code '\benum [A-Z]|\banswer\(|\bfn number\b|\((usize|u16), (usize|u16), u8\)|^\s+(pub )?[a-z_]+: bool,' ;;
    # functions of one name
    2) heads | sed -E 's/fn ([a-z_0-9]+).*/\1/' | sort | uniq -d | while read -r name; do code "\bfn $name\b"; done ;;
    # loops over a range, counters, searches that return from a loop
    3) code '\bfor [^{]* in [^{]*\.\.|\+= 1;|saturating_add\(1\)|\bwhile |\bloop \{|^ {12,}return Some\(' ;;
    # casts, conversions, comparisons and printing by hand
    4) code ' as (u8|u16|u32|u64|usize)\b|\bfn (number|text|cell|answer|fmt|eq|cmp|from|try_from)\b' ;;
    # clauses of one text in three or more contracts, and pairs of parameters of three or more functions
    5)
        files | xargs grep -hoE '\b(requires|ensures)\*?( [a-z_]+)? \{.*\}' | sed -E 's/^[a-z]+\*?( [a-z_]+)? //' |
            sort | uniq -c | awk '$1 >= 3'
        heads | sed -E 's/[^(]*\(//; s/&(mut )?self, *//; s/&mut /\&/g; s/^ +//' | grep -oE '^[a-z_]+: [^,)]+, *[a-z_]+: [^,)]+' |
            sort | uniq -c | awk '$1 >= 3'
        ;;
    # fields that are arrays, lent memory or a length
    6) code '^    (pub(\(crate\))? )?[a-z_]+: ([^,(]*\[|usize,|u16,)' | grep -v ': &\[' ;;
    # a choice by kind
    7) code '\bmatch |\bfn\(|\bdyn |Box<' ;;
    # answers by hand
    8) git ls-files | grep '/proofs/.*Answers.antt$' | xargs -r grep -nE '^pub [^ ]+ : goal' ;;
    *) echo "a point is a number from 1 to 8" >&2 ;;
    esac
}

if [ $# -gt 0 ]; then
    point "$1"
else
    for n in 1 2 3 4 5 6 7 8; do echo "point $n: $(point $n | wc -l)"; done
fi
