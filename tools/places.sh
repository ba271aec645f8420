#!/bin/sh
# Counts the places that docs/DESIGN-PASS.md speaks of, by its points, in the sources of a commit: tools/places.sh COMMIT.
# With -l it lists them too.
list=no
[ "$1" = -l ] && list=yes && shift
commit=${1:-HEAD}
found() { # NAME REGEX: lines of the sources that a pattern finds
    lines=$(git grep -nE "$2" "$commit" -- 'crates/*/src/*.rt' | sed 's/^[^:]*:crates.//')
    printf '%4d  %s\n' "$(printf '%s' "$lines" | grep -c .)" "$1"
    [ $list = yes ] && [ -n "$lines" ] && printf '%s\n' "$lines" | sed 's/^/        /'
}
echo "1 numbers for types, rights, links, tags, causes; flags beside a value"
found "constants that number types, rights and links" '^const (PERSON|FOLDER|YARD|CARD|TAKE_GRANT|OWNER|R|W|T|G|O): u8'
found "fields and parameters that number a cause, a layer or a tag" '\b(layer|cause|tag): u8\b|fn tag\(|\bTag(ged|Above)\((pub )?u8\)'
found "numbers written where a cause, a layer or a tag is meant" '\b(layer|cause): [0-9]+,|Tagged\([0-9]\)|tag\(\) == [0-9]|Cause::[A-Za-z]+ => [0-9],|Record::[A-Za-z]+ \{ \.\. \} => [0-9],|^        [0-9] => ("its|"it says|"a field|"another|"a right|f\.write_str|write!)'
found "words told by a number, and numbers by a word" '^ +"[a-z]+" => Some\([0-9]\),|^ +[0-9] => "[a-z ]+",'
found "flags beside a value" 'let mut linked = false|\bchosen: bool|run_phase\(.*, (true|false)\)'
echo "2 twins"
printf '%4d  %s\n' "$(git grep -hE '^ *(pub |pub\(crate\) )fn |^fn ' "$commit" -- 'crates/*/src/*.rt' | sed 's/^ *//' | sort | uniq -c | awk '$1 > 1 { n += $1 - 1 } END { print n + 0 }')" "signatures of functions that stand again"
[ $list = yes ] && git grep -hE '^ *(pub |pub\(crate\) )fn |^fn ' "$commit" -- 'crates/*/src/*.rt' | sed 's/^ *//' | sort | uniq -cd | sed 's/^/        /'
printf '%4d  %s\n' "$(git grep -hE '^(pub |pub\(crate\) )?(struct|enum|trait) [A-Za-z]' "$commit" -- 'crates/*/src/*.rt' | sed -E 's/.*(struct|enum|trait) ([A-Za-z]+).*/\2/' | sort | uniq -c | awk '$1 > 1 { n += $1 - 1 } END { print n + 0 }')" "names of types that stand again"
[ $list = yes ] && git grep -hE '^(pub |pub\(crate\) )?(struct|enum|trait) [A-Za-z]' "$commit" -- 'crates/*/src/*.rt' | sed -E 's/.*(struct|enum|trait) ([A-Za-z]+).*/\2/' | sort | uniq -cd | sed 's/^/        /'
echo "3 loops"
found "loops that count" '^ *(for [a-z_]+ in [^;]*\.\.|while [a-z]+ <)'
found "loops over items" '^ *(for [a-z_]+ in [^.;]*(\.iter[a-z_]*\(\))? \{|while let )'
echo "4 equality, order, conversion and printing by hand"
found "comparisons" 'fn (is|is_before|same_parent|second_fits)\('
found "conversions" 'fn (tickets|rule)\(self\)|fn (entered|linked|created|asked|unless_refused|set_found|packed|unpacked|second_in)\(|fn number\(word|fn tickets\(set'
found "reasons and names told by a match" 'fn reason\(|f\.write_str\(match'
found "types that derive Clone and Copy alone" 'derive\(Clone, Copy\)\]'
echo "5 facts that stand in many contracts"
found "clauses on the standing invariant of rows, lists, tables, holdings, set-up and register" '(requires|ensures)[a-z ]*\{.*(Kept \(|Holdings\.ok|InOrder|Laid |KeptList|\{ ok self|P\.Phase\.ok)'
echo "6 buffers with a length beside, searches by hand, parallel fields"
found "buffers with a count" '^ +count: usize,'
found "searches of a sorted list by hand" 'let middle = '
found "parallel fields" '^ +pub (c1|c2|s1|s2|g1|g2): '
echo "7 traits that are one closure; a switch on which step to run"
found "traits and types that stand for a test" 'trait (Sought|Keep|Key)\b|impl (Sought|Keep<Pair>|Key) for'
found "step switches" 'enum Next|match phase \{'
echo "8 proofs"
printf '%4d  %s\n' "$(git ls-tree -r --name-only "$commit" -- crates | grep -c '/Answers.antt$')" "files of answers"
printf '%4d  %s\n' "$(git grep -hE '^pub .* : goal\.' "$commit" -- 'crates/*/Answers.antt' | wc -l)" "answers"
printf '%4d  %s\n' "$(git ls-tree -r --name-only "$commit" -- crates | grep '/proofs/.*\.antt$' | while read -r f; do git show "$commit:$f"; done | wc -l)" "lines of proof"
