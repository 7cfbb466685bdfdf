#!/bin/bash
# places.sh [COMMIT]: the places of each point of docs/DESIGN-PASS.md in crates/*/src at a commit, by search. Prints each line, and how many there are.
commit=${1:-HEAD}
cd "$(dirname "$0")/.." || exit 1
find_lines() { # NAME PATTERN
    echo "== $1"
    git grep -nE "$2" "$commit" -- 'crates/*/src/*.rt' | cut -d: -f2- | tee /tmp/places.$$
    echo "$(wc -l < /tmp/places.$$) lines"
}
find_lines "1 errors carried on by a match, Option in a Result, flags, numbers for kinds" \
    'Err\((_|refusal)\) =>|=> Err\(|Ok\(None\)|Result<Option<|: bool,$|fn (kind_byte|number)\(&?self\) -> u8|fn kind_byte\(\)'
echo "== 2 twins"
python3 tools/twins.py "$commit"
find_lines "3 loops" '^ *(for|while|loop) ?.*\{$'
find_lines "4 equality, order, copying, conversion and printing by hand" \
    'impl.* (PartialEq|Eq|PartialOrd|Ord|Clone|Copy|Drop|From<.*>|TryFrom<.*>|fmt::Display|fmt::Debug) for|fn (is|same_bytes|number|encode_digit|decode_digit|decimal_digit|push_(hex|pairs|pair|line))\(|match (write|writeln)!'
find_lines "4 casts" ' as (u8|u16|u32|u64|usize)\b'
echo "== 5 clauses that stand three times or more"
git grep -hE '^ *(requires|ensures)' "$commit" -- 'crates/*/src/*.rt' | sed -E 's/^ *(requires|ensures)( [a-z_]+)? //' | sort | uniq -c | awk '$1 > 2'
find_lines "5 facts and parameters that travel" 'option_map \(λ x\. x\.now\) (rest|word)\.entry|ensures.* Answered |ghost (some|most):|Took (C\.Compressor\.absorbed|Absorbed)'
find_lines "6 buffers with a length beside, tables" 'held: |words: \[|ends: (Vec|&)|^static|\[u8; 128\]'
find_lines "7 switches on which step" 'macro_rules|match self|match call|match q|::<[0-9]'
echo "== 8 answers"
git grep -hE '^pub [^ ]+ : goal\.' "$commit" -- 'crates/*/proofs/*' | wc -l
rm -f /tmp/places.$$
