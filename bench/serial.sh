#!/usr/bin/env bash
# serial.sh PROGRAM [SESSION..]: what a step of the serial run costs on generated sessions of sessions.py, in instructions
# (callgrind): those of `serial` less those of `check` on the same session, by the steps that the result tells. A SESSION is
# the words for sessions.py, as 'shop --kind quiet --fan 10'; without any, those of bench/RESULTS.md are taken.
set -eu
program=$1
shift
[ $# -gt 0 ] || set -- random groups chain join contention \
  'shop --kind quiet --fan 3' 'shop --kind quiet --fan 10' 'shop --kind mixed --fan 3' 'shop --kind mixed --fan 10' \
  'shop --kind ask --fan 3' 'shop --kind ask --fan 10'
here=$(cd "$(dirname "$0")" && pwd)
scratch=$(mktemp -d)
trap 'rm -rf "$scratch"' EXIT

# Prints how many instructions the program takes with this word on the session.
instructions() {
  valgrind --tool=callgrind --callgrind-out-file=/dev/null "$program" "$1" < "$2" 2>&1 > "$scratch/out" |
    sed -n 's/.*Collected : \([0-9]*\).*/\1/p'
}

for words in "$@"; do
  # shellcheck disable=SC2086 # the words of one session
  python3 "$here/sessions.py" $words > "$scratch/session"
  check=$(instructions check "$scratch/session")
  serial=$(instructions serial "$scratch/session")
  steps=$(sed -n 's/^update .* steps \([0-9]*\) nulls .*/\1/p' "$scratch/out" | awk '{ sum += $1 } END { print sum }')
  printf '%-26s check %s  serial %s  steps %s  work a step %s\n' "$words" "$check" "$serial" "$steps" $(((serial - check) / steps))
done
