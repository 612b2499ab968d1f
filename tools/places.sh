#!/bin/sh
# Lists the lines of src/ that docs/DESIGN-PASS.md counts, by its points. `sh tools/places.sh` at the top of the repository.
# A hit is a line to look at, and not yet a place.
src() { git ls-files 'crates/*/src/*.rt' 'crates/*/src/**/*.rt'; }
hits() { src | xargs grep -nE "$1" | grep -vE "${2:-no such text}"; }
point() { echo "== $1: $(eval "$2" | wc -l)"; eval "$2"; }

# enums, flags, and numbers where a kind or a refusal is meant
point 1 "hits '^\s*(pub(\(crate\))? )?enum |: bool,|^\s+[0-9]+ => |(command|reading) < [0-9]+|\[(command|reading) as usize\]|^\s+(Refused|Lift)\(u8'"
# names of functions that stand more than once
point 2 "src | xargs grep -hoE '\bfn [a-z_]+' | sort | uniq -c | awk '\$1 > 1'"
# loops that count, and loops that a method of the library says
point 3 "hits '^\s*(for .* in .*|while .*|loop) \{|\+= 1;'"
# what is rebuilt, compared or converted by hand
point 4 "hits '=> (Ok|Err|Some)\([a-z_]+\),\$|=> None,\$|else \{ ?(unreachable\(\) \})?\$|\{ None \}|match self.phase|Err\(AllocError\)|^\s*impl.* for '"
# clauses that stand three times or more
point 5 "src | xargs grep -hE '^\s*(requires|ensures) ' | sed -E 's/^ *(requires|ensures) ?[a-z_]* *\{/\1 {/' | sort | uniq -c | awk '\$1 > 2'"
# arrays, and lengths or places beside them
point 6 "hits '\[[A-Za-z0-9_<>]+; ?[0-9A-Z_]+\]|\bn: usize|\b(count|place): usize'"
# switches on what to do
point 7 "hits '\bdyn |: fn\(|match (letter|command|program|arguments|order|line)\b|match \('"
# answers by hand, and lines of proofs
echo "== 8: $(git ls-files 'crates/*/proofs/**/Answers.antt' | xargs cat | grep -c '^pub ') answers, $(git ls-files 'crates/*/proofs/*.antt' 'crates/*/proofs/**/*.antt' | sort -u | xargs cat | wc -l) lines of proofs"
