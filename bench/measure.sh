#!/usr/bin/env bash
# measure.sh PROGRAM SESSION WORDS..: what one run costs: instructions (valgrind's callgrind), wall time and peak memory.
# The output of the run is thrown away; its exit status is told. Instructions are the same at each run, times are not.
set -u
program=$1
session=$2
shift 2
scratch=$(mktemp -d)
trap 'rm -rf "$scratch"' EXIT

/usr/bin/env time -f '%e %M' -o "$scratch/time" "$program" "$@" < "$session" > /dev/null 2> "$scratch/err"
status=$?
read -r seconds kilobytes < <(tail -n 1 "$scratch/time")
valgrind --tool=callgrind --callgrind-out-file="$scratch/calls" "$program" "$@" < "$session" > /dev/null 2> "$scratch/grind"
instructions=$(sed -n 's/.*Collected : \([0-9]*\).*/\1/p' "$scratch/grind")
printf 'status %s  instructions %s  seconds %s  kilobytes %s  words %s  session %s\n' \
  "$status" "${instructions:-unknown}" "$seconds" "$kilobytes" "$*" "$(basename "$session")"
