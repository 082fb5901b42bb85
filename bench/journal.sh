#!/usr/bin/env bash
# journal.sh PROGRAM: what `journal` costs beside `save` on the three generated sessions of sessions.py, and what `recover` costs on
# journals of about 4 and 16 MiB, in instructions (callgrind), with the seconds that it takes.
set -eu
program=$1
here=$(cd "$(dirname "$0")" && pwd)
scratch=$(mktemp -d)
trap 'rm -rf "$scratch"' EXIT

# Prints how many instructions the program takes with this word on the input.
instructions() {
  valgrind --tool=callgrind --callgrind-out-file=/dev/null "$program" "$1" < "$2" 2>&1 > "$scratch/out" |
    sed -n 's/.*Collected : \([0-9]*\).*/\1/p'
}

for kind in random groups chain; do
  python3 "$here/sessions.py" "$kind" > "$scratch/session"
  save=$(instructions save "$scratch/session")
  journal=$(instructions journal "$scratch/session")
  printf '%-7s save %s  journal %s  in 100: %s  bytes %s\n' "$kind" "$save" "$journal" $((100 * journal / save)) "$(wc -c < "$scratch/out")"
done

# A journal of one commit that inserts so many tuples of 160 bytes and more, over an empty base.
made() {
  perl -e 'my $count = shift;
    my $text = sub { "A($_[0], \"" . "x" x 150 . "\")" };
    my $frame = sub { pack("N", length $_[0]) . $_[0] };
    my @insertions = map { "+" . $text->($_) . "\n" } 1 .. $count;
    my $session = "youtopia 2\nrelation A 2\nend\n";
    print $frame->($session), "\1", $frame->("commit 1\n" . join "", @insertions), "\0"' "$1"
}

for count in 25000 100000; do
  made "$count" > "$scratch/journal"
  taken=$(instructions recover "$scratch/journal")
  start=$(date +%s.%N)
  "$program" recover < "$scratch/journal" > "$scratch/out"
  end=$(date +%s.%N)
  printf 'recover %s bytes: %s instructions, %s a byte, %.2f seconds\n' "$(wc -c < "$scratch/journal")" "$taken" \
    $((taken / $(wc -c < "$scratch/journal"))) "$(echo "$end - $start" | bc)"
done
