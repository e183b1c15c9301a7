#!/usr/bin/env bash
# Counts the places of docs/DESIGN-PASS.md in the crates below a folder (default: this checkout): tools/places.sh [DIR]
set -u
cd "${1:-$(dirname "$0")/..}/crates" || exit 1
sources() { ls -d */src | grep -v '^normalization'; }
show() { printf '%-64s %s\n' "$1" "$2"; }
enums() { # KIND: refusal2, refusal3, option
    python3 - "$1" <<'P'
import glob
import re
import sys

found = []
for path in sorted(glob.glob("*/src/**/*.rt", recursive=True)):
    if path.startswith("normalization"):
        continue
    for m in re.finditer(r"enum (\w+)[^{]*\{\n(.*?)\n\}", open(path).read(), re.S):
        cases = [x.strip() for x in m.group(2).split("\n") if x.strip() and not x.strip().startswith("//")]
        refuses = any(re.match(r"\w+\(Refusal\)", x) for x in cases)
        one = sum("(" in x for x in cases) == 1
        kind = "refusal2" if refuses and len(cases) == 2 else "refusal3" if refuses else "option" if one and len(cases) == 2 else ""
        if kind == sys.argv[1]:
            found.append(f"{path.split('/')[0]}::{m.group(1)}")
print(len(found), " ".join(found))
P
}
# shellcheck disable=SC2046
lines() { grep -rnE "$1" --include=*.rt $(sources) | grep -vE '^[^:]*:[0-9]*: *(//|ghost|ensures|requires)' | wc -l; }
files() { find */proofs -name "$1" -not -path '*/out/*' | grep -v '^normalization' | wc -l; }
show '1 enums of two cases, one a refusal' "$(enums refusal2)"
show '1 enums of more cases, one a refusal' "$(enums refusal3)"
show '1 enums of two cases, one with a value' "$(enums option)"
show '1 matches that only pass a refusal on' "$(lines '(No|Err)\((\w+)\) => (return )?([A-Za-z]+::No|Err)\((\w+)\),')"
show '1 uses of ?' "$(lines '\?[;.),]| \? |\?$')"
show '2 structs of an answer and its nodes' "$(grep -rnE -A4 '^pub struct ' --include=*.rt $(sources) | grep -cE 'pub nodes: u64')"
show '3 while' "$(lines '^\s*while ')"
show '3 loop' "$(lines '^\s*(let \w+ = )?loop \{')"
show '3 for' "$(lines '^\s*for \w+ in ')"
show '5 reader and image side by side' "$(lines 'reader: Reader, image: &\[u8\]')"
show '5 a buffer, its room and a position side by side' "$(lines 'room: usize')"
show '8 proofs by goals in order' "$(files Proof.antt)"
show '8 answers by name' "$(files Answers.antt)"
show '8 invariants' "$(files Invariants.antt)"
