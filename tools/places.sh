#!/usr/bin/env bash
# Lists, of a commit, the lines of src/ at which to look for forms that newer Rattle says otherwise, point by point, and counts them.
# With no argument it reads the commit HEAD; tests are left out, and the rows of the table of steps.
set -euo pipefail
cd "$(dirname "$0")/.."
commit=${1:-HEAD}

look() {
    local name=$1 pattern=$2
    local lines
    lines=$(git grep -nE "$pattern" "$commit" -- 'crates/*/src/*.rt' ':!crates/lut/src/table.rt' ':!crates/*_tests/*' ':!crates/*_cases/*' |
        sed "s/^$commit://" || true)
    echo "== $name: $(printf '%s' "$lines" | grep -c '' || true)"
    printf '%s\n' "$lines"
}

look 'enums, flags, numbers for kinds' \
    '^ *(pub(\(crate\))? )?(enum |const [A-Z0-9_]+: u(8|16|32) )|\b[a-z_]+: bool\b|fn number\(|format: u16'
echo '== functions of one name in several places'
git grep -hoE 'fn [a-z_0-9]+' "$commit" -- 'crates/*/src/*.rt' ':!crates/*_tests/*' ':!crates/*_cases/*' | sort | uniq -c | sort -rn | awk '$1 > 1'
look 'loops that count' '\+= 1;|wrapping_add\(1\)|for .* in .*\.\..*\{|loop \{|while '
look 'comparison, conversion, printing by hand' \
    'impl.*(From|Display|Default|PartialEq|Ord|Clone)[^{]* for |trait Entry|impl Entry|(Ok|Some)\([a-z]+\) => (Ok|Some)\(|(Err|None)[^=]* => (Err|return Err)|fn number\('
look 'zero values by hand' ': (0|false|[A-Za-z]+::(Empty|None)),$'
look 'lists as parameters' '^    [a-z]+: &mut \['
echo '== requires clauses, and texts inside clauses, that stand three times or more'
git grep -hE '^ +requires' "$commit" -- 'crates/*/src/*.rt' | sed 's/^ *//' | sort | uniq -c | sort -rn | awk '$1 > 2'
echo "contracts that name the fields of an array: $(git grep -hE '(requires|ensures|ghost).*fields T' "$commit" -- 'crates/*/src/*.rt' | wc -l)"
look 'buffers and numbers beside them' '^ +(pub(\([a-z]+\))? )?[a-z_]+: (Vec<|&.*\[|\[|u32|usize|u64)'
look 'switches and boxed steps' 'dyn |: fn\(|Box<|match [a-z.%() 0-9]+ \{'
echo '== proofs'
echo "files: $(git ls-tree -r --name-only "$commit" -- crates | grep -c '/proofs/.*antt$')"
echo "answers: $(git grep -hE '^pub [^ ]+ : goal\.' "$commit" -- 'crates/*/proofs/*Answers.antt' | wc -l)"
echo "lines: $(git ls-tree -r --name-only "$commit" -- crates | grep '/proofs/.*antt$' | while read -r file; do git show "$commit:$file"; done | wc -l)"
