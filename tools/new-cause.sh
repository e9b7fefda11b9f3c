#!/usr/bin/env bash
# Writes what a new cause of an error needs wherever causes are listed, after another cause, and prints what is left to write by hand.
#
#   tools/new-cause.sh NAME AFTER     both as in docs/TABLE.md, such as ping-too-often ping-length
#
# The new cause gets a copy of the other's code, scope and row, and a sentence that is to be replaced; CONTRIBUTING.md says how to go on.
set -euo pipefail
cd "$(dirname "$0")/.."
name=${1:?a name such as ping-too-often} after=${2:?the cause after which it is listed}
code=crates/h2_spec/src/causes.rt words=crates/h2_spec/specs/Causes/CauseWords.antt codes=crates/h2_spec/specs/Causes/Cause.antt
places=crates/h2_spec/proofs/causes/place_of/Answers.antt example=examples/causes/$name.h2
law=crates/h2_spec_laws/specs/Conformance.antt laws=crates/h2_spec_laws/proofs/ConformanceLaws.antt
special=crates/h2_explain_item/proofs/SpecialLaws.antt

variant_of() { sed -E 's/(^|-)([a-z])/\U\2/g' <<<"$1"; }
variant=$(variant_of "$name") before=$(variant_of "$after")
# The variants of the enum, in their order.
variants() { sed -n '/^pub enum Cause/,/^}/s/^    \([A-Z][A-Za-z]*\),$/\1/p' "$code"; }

variants | grep -qx "$before" || { echo "new-cause.sh: there is no cause $after" >&2; exit 1; }
if variants | grep -qx "$variant"; then
    echo "new-cause.sh: there is a cause $name already" >&2
    exit 1
fi
count=$(variants | wc -l)

sed -i "/^pub enum Cause/,/^}/s|^    $before,\$|&\n    /// $name: say when it arises.\n    $variant,|" "$code"
# The row of the other cause once more, with the new name and a sentence.
awk -v row="        \"$after\"," -v name="$name" '
    { print }
    index($0, row) == 1 { copy = substr($0, length(row) + 1); next }
    copy != "" { print "        \"" name "\"," copy; print "            \"" name ": say the rule\";"; copy = "" }
' "$code" >"$code.new"
mv "$code.new" "$code"
sed -i "s/^\(static .*; \)$count\] = causes!/\1$((count + 1))] = causes!/" "$code"
sed -i "/pub fn code(self)/,/^    }/s/Cause::$before\b/& | Cause::$variant/" "$code"

for file in "$words" "$codes" "$places" "$law"; do
    sed -i "/^use .*causes\.Cause\.TheVariants\.{/s/\b$before\b/&, $variant/" "$file"
done
sed -i "s/^code_of $before = \(.*\)\$/&\ncode_of $variant = \1/" "$codes"
sed -i "s/^row_of $before = \(.*\) name = codes \"[^\"]*\";\(.*\) sentence = codes \".*\" }\$/&\nrow_of $variant = \1 name = codes \"$name\";\2 sentence = codes \"$name: say the rule\" }/" "$words"
sed -i "/^all_causes =\$/,/\[\]/s/\b$before ∷/& $variant ∷/" "$words"
sed -i "s/\b$before ↦ refl/& | $variant ↦ refl/" "$places"
sed -i "s/\bcause\.$before ↦ refl/& | cause.$variant ↦ refl/" "$laws"
sed -E -i "s/\bcause\.$before ↦ [^|]*\| /&@&/; :again; s/(@[^|]*)\bcause\.$before\b/\1cause.$variant/; t again; s/@//" "$special"
sed -i "s/^is_of_stream $before = true\$/&\nis_of_stream $variant = true/" "$law"

printf ';# %s: say in a sentence what the client does (RFC 9113, 0)\nPREFACE\nSETTINGS 00 0 -\n' "$name" >"$example"

cat <<TEXT
Written: $code, $words, $codes, $places, $law, $laws, $special, $example.
Each has a sentence to replace (grep -rn '$name:' crates examples), and the code, the scope and the row of $after to compare with the RFC.
Then, in this order:
  the definition that answers cause.$variant, by this name (crates/h2_spec/specs), and its laws in crates/h2_spec_laws
  the function that answers Cause::$variant (crates/h2_conn_rules, or crates/h2_frame for a payload)
  a row of CauseRows.antt (crates/h2_spec_examples/proofs): the frame, and $variant
  a sentence with values, if there is one (crates/h2_explain_error/src/sentence.rt)
  the end of $example, and below each line of it as lines ;> what explain prints, at the end as comments: ./h2_bench asm < $example | ./h2_bench explain (read each line of it)
  its place in the text of docs/TABLE.md, as \`$name\`, a case with the line ;! $name (cases), and a line in CHANGELOG.md
  where its code is another one: $codes, and its place in code() of $code
  rt fmt in crates/h2_spec; tools/docs.py writes docs/RULES.md again; tools/docs.py --check shows what is missing; tests/all
TEXT
