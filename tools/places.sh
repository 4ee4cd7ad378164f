#!/bin/sh
# Lists the lines of src/ at which a form of the older language may stand, point by point as in
# docs/DESIGN-PASS.md, and how many each point has. Lines to read, not a verdict.
# usage: places.sh [FOLDER]    (FOLDER has crates/; without it, this repository)
set -eu
cd "${1:-$(dirname "$0")/..}"

point() {
    found=$(grep -nE "$2" crates/*/src/*.rt | grep -vE "$3" || true)
    echo "$1: $(printf '%s' "$found" | grep -c .) lines"
    printf '%s\n' "$found" | sed 's/^/    /'
}

none='^$'
point '1 own options and results, flags, numbers' \
    '(None|Some\([a-z_]+\)|Err\([A-Za-z_:]*\)|Ok\([a-z()_]*\)) =>|let mut all\b|Result<bool|-> (u8|bool)$|i == 0|digest: u32' "$none"
point '2 impls and enums side by side, constants twice' \
    '^impl (Word|Digest) for|^pub enum Function|^(pub |pub\(crate\) )?const [A-Z_]+: u|^(pub\(crate\) )?fn (put|hex|width|limited|geometry_of)\b' "$none"
point '3 loops and rows of the same call' \
    '^ *(for|while|loop)\b|::<W, [0-9]+, LAST>|^ *w[0-9]+: word|^ *put_word\(&mut out|W::upper\(' "$none"
point '4 conversions, printing and defaults by hand' \
    '^impl.*\b(Display|From<.*>|PartialEq|Eq|Ord|PartialOrd|Clone|Copy|Default|FromStr)\b.* for |fn (number|named|name)\(|pub fn new\(\) ->|write!\(text' "$none"
point '5 conditions of functions' '^ *requires' "$none"
point '6 arrays of a fixed length, and tables by match' \
    '\[(0u8|0|u8|usize|u64); ?[0-9]+\]|match self \{' 'mut \[0; [0-9]+\]\)\)'
point '7 dispatch on a kind' '=> [a-z_]+\((heap|rt), &Sha(256|512)' "$none"
