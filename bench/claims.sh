#!/bin/sh
# Times scripts of many lines `(!claim A)`, and says how many steps a second the program takes.
# Words: the numbers of lines; 12500, 25000 and 50000 where there are none.
top=$(dirname -- "$(dirname -- "$(readlink -f -- "$0")")")
folder=$(mktemp -d)
trap 'rm -rf "$folder"' EXIT
[ $# -gt 0 ] || set -- 12500 25000 50000
for lines in "$@"; do
    {
        echo 'declare A: Boolean'
        echo 'assert A'
        yes '(!claim A)' | head -n "$lines"
    } > "$folder/claims.ath"
    before=$(date +%s.%N)
    (cd "$folder" && "$top/athena" claims.ath > claims.out)
    after=$(date +%s.%N)
    tail -n 1 "$folder/claims.out" | grep -q '^Theorem: A$' || echo "no theorem" >&2
    awk -v n="$lines" -v a="$before" -v b="$after" \
        'BEGIN { t = b - a; printf "%d lines: %.2f s, %d steps a second\n", n, t, (3 * n + 1) / t }'
done
