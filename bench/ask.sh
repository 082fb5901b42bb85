#!/usr/bin/env bash
# ask.sh PROGRAM: what asking a query costs over a base of 20,000 tuples (sessions.py groups), in instructions (callgrind).
# A join of three atoms, each bound in one column, is asked, and beside it the same matches are walked by the search for a
# violation: a mapping has these atoms on its left and a fourth that nothing meets, so that its search finds none.
set -eu
program=$1
here=$(cd "$(dirname "$0")" && pwd)
scratch=$(mktemp -d)
trap 'rm -rf "$scratch"' EXIT
join='A0(x, y), B0(y, z), D0(z, w)'

# The session without its updates and its last mapping, in format 2, with two relations more that are empty.
python3 "$here/sessions.py" groups --updates 0 |
  awk '/^youtopia/ { $0 = "youtopia 2" } /^mapping/ && !seen { print "relation N 1\nrelation M 1"; seen = 1 } !/^mapping s15:/' > "$scratch/plain"
awk -v join="$join" '/^base/ && !seen { print "mapping walk: " join ", N(w) -> M(w)"; seen = 1 } { print }' "$scratch/plain" > "$scratch/walk"

# Prints how many instructions the program takes with these words on the session.
instructions() {
  local session=$1
  shift
  valgrind --tool=callgrind --callgrind-out-file=/dev/null "$program" "$@" < "$scratch/$session" 2>&1 > "$scratch/out" |
    sed -n 's/.*Collected : \([0-9]*\).*/\1/p'
}

walk=$(($(instructions walk check) - $(instructions plain check)))
serial=$(instructions plain serial)
nothing=$(instructions plain ask --query 'q(x): N(x)')
printf 'walking the matches of the join %s  serial %s  asking what has no answer %s\n' "$walk" "$serial" "$nothing"
for head in 'x, y, z, w' 'x, w' x; do
  asked=$(instructions plain ask --query "q($head): $join")
  printf 'q(%s): %s more, %s answers\n' "$head" $((asked - nothing)) $(($(wc -l < "$scratch/out") - 1))
done
asked=$(instructions plain ask --query 'q(x, y): A0(x, y)')
printf 'q(x, y): A0(x, y): %s more, %s answers\n' $((asked - nothing)) $(($(wc -l < "$scratch/out") - 1))
