#!/usr/bin/env bash
# orders.sh PROGRAM [SHAPE-SIDE..]: how the cost of joins in a bad order grows with the base, in instructions (callgrind).
# The sessions are those of `sessions.py order`, at 1,000, 4,000 and 16,000 tuples. A line for each shape, side and size has the
# matches of the best order, the work of `check` (less that of the same base with a mapping of empty relations), and the work of
# `serial` for each of 20 updates (less that of `serial` without them). Growth is how much faster each grows than the matches do.
set -eu
program=$1
shift
[ $# -gt 0 ] || set -- {star,triangle,chain,cross}-{left,right}
here=$(cd "$(dirname "$0")" && pwd)
scratch=$(mktemp -d)
trap 'rm -rf "$scratch"' EXIT
updates=20

# Prints the session with this many updates.
session() {
  python3 "$here/sessions.py" order --shape "$shape" --side "$side" --size "$size" --updates "$1"
}

# Prints how many instructions the program takes with this word on standard input.
instructions() {
  valgrind --tool=callgrind --callgrind-out-file=/dev/null "$program" "$1" 2>&1 > /dev/null | sed -n 's/.*Collected : \([0-9]*\).*/\1/p'
}

for words in "$@"; do
  shape=${words%-*} side=${words#*-}
  for size in 1000 4000 16000; do
    session 0 > "$scratch/whole"
    sed 's/^mapping .*/relation Y 1\nrelation Z 1\nmapping m: Y(x) -> Z(x)/' "$scratch/whole" > "$scratch/reading"
    session $updates > "$scratch/updates"
    grep -v '^update' "$scratch/updates" > "$scratch/without"
    matches=$(sed -n 's/^# The best order has \([0-9]*\) matches\./\1/p' "$scratch/whole")
    check=$(($(instructions check < "$scratch/whole") - $(instructions check < "$scratch/reading")))
    serial=$((($(instructions serial < "$scratch/updates") - $(instructions serial < "$scratch/without")) / updates))
    [ "$size" != 1000 ] || first="$matches $check $serial"
    echo "$words $size $matches $check $serial $first" | awk '{
      printf "%-15s %6d tuples  matches %6d  check %10d, a match %6d, growth %.2f  an update %8d, growth %.2f\n",
        $1, $2, $3, $4, $4 / $3, $4 / $7 / ($3 / $6), $5, $5 / $8 }'
  done
done
