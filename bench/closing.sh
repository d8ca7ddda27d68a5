#!/bin/sh
# Times closed assertions, each of which puts renamed variables into its sentence: one of about 98,000 nodes, where the
# variable stands in one part alone and where it stands in all; one of a term of 65,535 nodes; and 10,000 small ones.
top=$(dirname -- "$(dirname -- "$(readlink -f -- "$0")")")
folder=$(mktemp -d)
trap 'rm -rf "$folder"' EXIT

# a balanced tree of 2^n copies of a sentence, or of a term, under `and` or another symbol
doubled() {
    text=$1
    for step in $(seq "$2"); do text="(${3:-and} $text $text)"; done
    printf '%s' "$text"
}

declared='(domain D) (declare P (-> (D) Boolean)) (declare c D) (declare f (-> (D D) D))'
{
    echo "$declared"
    echo "(assert* (and $(doubled '(P ?x%3)' 1) $(doubled '(P ?y%3)' 15)))"
} > "$folder/in_one_part.ath"
{
    echo "$declared"
    echo "(assert* $(doubled '(P ?x%3)' 15))"
} > "$folder/in_all_parts.ath"
{
    echo "$declared"
    echo "(assert* (P $(doubled '?x%3' 15 f)))"
} > "$folder/in_a_term.ath"
{
    echo "$declared"
    yes '(assert* (if (P ?x%3) (P ?y%3)))' | head -n 10000
} > "$folder/small_ones.ath"
for name in in_one_part in_all_parts in_a_term small_ones; do
    before=$(date +%s.%N)
    (cd "$folder" && "${ATHENA:-$top/athena}" "$name.ath" > "$name.out")
    after=$(date +%s.%N)
    tail -n 1 "$folder/$name.out" | grep -q '^Assertion: (forall' || echo "no assertion" >&2
    awk -v n="$name" -v a="$before" -v b="$after" 'BEGIN { printf "%s: %.2f s\n", n, b - a }'
done
