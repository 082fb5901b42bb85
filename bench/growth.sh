#!/usr/bin/env bash
# growth.sh PROGRAM: how the cost of an update grows with the tuples of the base, with the updates and with the answers, in thousands of
# instructions (callgrind), by `serial` and by `run --workers 1`. `groups` is taken without deletions, so that no update asks; in
# `answers` each update has a question and an answer. What loading takes is left out: each figure is a difference of two runs.
# Then come the instructions of `check` for each tuple, and its memory.
set -eu
program=$1
here=$(cd "$(dirname "$0")" && pwd)
scratch=$(mktemp -d)
trap 'rm -rf "$scratch"' EXIT

# Prints how many instructions the program takes with these words on standard input.
instructions() {
  valgrind --tool=callgrind --callgrind-out-file=/dev/null "$program" "$@" 2>&1 > /dev/null | sed -n 's/.*Collected : \([0-9]*\).*/\1/p'
}

# Prints the session with the first of its updates alone: first COUNT
first() {
  awk -v count="$1" '/^update/ { count-- } /^(update|answer)/ && count < 0 { next } { print }' "$scratch/session"
}

# Prints the thousands of instructions for each update from one number to another: between FROM TO WORDS..
between() {
  local from=$1 to=$2
  shift 2
  echo "$(first "$to" | instructions "$@") $(first "$from" | instructions "$@") $((to - from))" | awk '{ printf "%.1f", ($1 - $2) / $3 / 1000 }'
}

for kind in groups answers; do
  for base in 1000 10000 100000; do
    python3 "$here/sessions.py" $kind --base $base --updates 2000 |
      sed 's/^youtopia 1/youtopia 2/; /^update .* delete /d' > "$scratch/session"
    for span in '0 100' '900 1000'; do
      read -r from to <<< "$span"
      serial=$(between "$from" "$to" serial)
      echo "$kind, $base tuples, updates $from to $to: serial $serial, run $(between "$from" "$to" run --workers 1)"
    done
    first 0 > "$scratch/head"
    tuples=$(grep -c '^base' "$scratch/head")
    /usr/bin/env time -f %M -o "$scratch/memory" "$program" check < "$scratch/head" > /dev/null
    echo "$kind, $base tuples: check $(($(instructions check < "$scratch/head") / tuples)) instructions a tuple, $(cat "$scratch/memory") kilobytes"
  done
done
