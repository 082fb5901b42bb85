# The built program on the tables: inputs as printf spells them, with the answers of an independent implementation.

# The answer of the command `check` to the input, on either stream.
tells() {
  "$program" check 2>&1
}

# The lines that pieces COUNT:LINE|.. stand for: each LINE COUNT times, with its number in its piece for `%`.
lines_of() {
  perl -F'\|' -ane 'for (@F) { my ($count, $line) = split /:/, $_, 2; for my $i (1 .. $count) { (my $one = $line) =~ s/%/$i/g; print "$one\n" } }'
}

# Each line of a table: an input, a tab, and the answer.
check 'each fault of tests/tables/faults.tsv is told (inputs as printf spells them)' \
  "$(while IFS=$'\t' read -r input told; do
       [ "$(printf '%b' "$input" | tells)" = "$told" ] || printf '%s\n' "$input"
     done < tests/tables/faults.tsv)"
check 'each limit of tests/tables/limits.tsv is kept' \
  "$(while IFS=$'\t' read -r pieces told; do
       [ "$(printf '%s' "$pieces" | lines_of | tells)" = "$told" ] || printf '%s\n' "$pieces"
     done < tests/tables/limits.tsv)"
check 'each beginning of tests/tables/cuts.session is told what tests/tables/cuts.tsv says of so many bytes' \
  "$(while IFS=$'\t' read -r count told; do
       [ "$(head -c "$count" tests/tables/cuts.session | tells)" = "$told" ] || printf '%s\n' "$count"
     done < tests/tables/cuts.tsv)"

# Words, a status, a session, and the answer: random sessions, with the answers of an independent implementation.
check 'each session of tests/tables/sampled.tsv is run to what is told' \
  "$(while IFS=$'\t' read -r line status input told; do
       read -r -a words <<< "$line"
       [ "$(printf '%b' "$input" | "$program" "${words[@]}" 2>&1; echo "$?")" = "$(printf '%b' "$told"; echo "$status")" ] || printf '%s %s\n' "$line" "$input"
     done < tests/tables/sampled.tsv)"

# A command line, its status, and the texts on both streams, over one session of an order and its invoice.
order='youtopia 1\nrelation Order 1\nrelation Invoice 2\nmapping bill: Order(n) -> Invoice(n, i)\nupdate first ann insert Order(7)\nend\n'
check 'each command line of tests/tables/words.tsv is taken or refused as it says' \
  "$(while IFS= read -r row; do
       line=${row%%$'\t'*}
       rest=${row#*$'\t'}
       read -r -a words <<< "$line"
       [ "$(printf '%b' "$order" | "$program" "${words[@]}" 2>&1; echo "$?")" = "$(printf '%b' "${rest#*$'\t'}"; echo "${rest%%$'\t'*}")" ] || printf '%s\n' "$line"
     done < tests/tables/words.tsv)"

