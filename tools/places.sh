#!/bin/sh
# Counts, over crates/*/src, the places where code of an older style is likely; docs/DESIGN-PASS.md says what became of each.
# Usage: tools/places.sh [-l]   (-l lists the places)
cd "$(dirname "$0")/.." || exit 1
list=$1
count() { # what it counts, pattern, files
  found=$(grep -rnE --include=*.rt -e "$2" $3)
  printf '%4d  %s\n' "$(printf '%s' "$found" | grep -c .)" "$1"
  if [ "$list" = -l ]; then printf '%s\n' "$found" | sed 's/^/        /'; fi
}
all='crates/*/src'
echo 'own forms of Option and Result, flags, numbers for refusals'
count 'functions that answer an Option of a refusal' '-> Option<[A-Z][a-z]+Refusal>' "$all"
count 'flags in a Result' 'Result<bool>' "$all"
count 'numbers that stand for a refusal' 'Result<(u32|\(\)), u32>|Result<u32, Fail>|\(u32, u32\)' "$all"
count 'pairs of a number and a fault' '\(u32, [A-Z][A-Za-z]+\)' "$all"
count 'functions that answer a number which means nothing' '^    [0-9]+$' "$all"
count 'enums (read one by one)' '^(pub(\(crate\))? )?enum ' "$all"
echo 'loops'
count 'while' '^ *while ' "$all"
count 'for over numbers' '^ *for [a-z_]+ in .*\.\.' "$all"
count 'enumerate' '\.enumerate\(\)' "$all"
count 'Option taken apart for a default or another Option' '^ *None => (None|S::zero\(\)|&\[\]),' "$all"
echo 'equality, conversion, printing'
count 'cases numbered one by one' '^ +[A-Za-z]+::[A-Za-z]+( \{[^}]*\})? => [0-9]+,$' "$all"
count 'equality by numbers' '\.number\(\) == ' "$all"
count 'a case turned into a bool' '=> (true|false),$' "$all"
count 'From by hand' '^impl.* From<' "$all"
count 'printing' '(print|println)!\(rt;' 'crates/*/src'
echo 'parameters and facts'
count 'head of a ring as a parameter' '(head|from): usize, |(head|from): usize\)' 'crates/line/src'
count 'place of the next piece as a parameter' ' at: usize' 'crates/lines/src'
count 'lag as a parameter or premise' '^ *lag: u32|requires lag|lag: u32,' "$all"
count 'premises on the lengths of a row or its marks' 'requires (symbols|marks|packet) ' "$all"
echo 'buffers'
count 'arrays of a fixed size' '= \[[^]]*; [0-9]+\];|: \[[A-Za-z]+; [0-9]+\],' "$all"
count 'Vecs moved out and back' ' replace\(' "$all"
echo 'switches'
count 'the kind of a header' 'SymbolKind::(Bytes|Digits) => [a-z_]+::<' "$all"
echo 'proofs'
files() { git ls-files 'crates/*.antt' | grep "$1"; }
printf '%4d  files of lemmas\n' "$(files '/proofs/[A-Za-z]*\.antt' | grep -vc /Lib.antt)"
printf '%4d  files of answers and invariants\n' "$(files '/proofs/.*/' | grep -c .)"
printf '%4d  lines in them all\n' "$(files '/proofs/' | xargs cat | wc -l)"
