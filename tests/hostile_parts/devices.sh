# Devices: each call of the input, of out and of err fails in turn, with pieces of 1, 7 and 20 bytes or with none. A failed read is
# status 5 and nothing on out, a failed write status 6 and a prefix of the text; where err fails the status stays.
# each_write ROW PIECE: attacks each write to out. Each is handed all bytes that are left, so there is one for each piece of them.
each_write() {
  local before=$((passed + failed)) size
  size=$(stat -c %s "$1/out")
  attack "$1" FAULTS=write "FAULTS_PIECE=$2"
  if [ $((passed + failed - before)) != $(((size + $2 - 1) / $2)) ]; then
    tally "$1, $((passed + failed - before)) writes of $2 bytes" '0 passed, 1 failed'
  fi
}

rows=(one-repair conflict-abort travel travel-save ask-travel journal-travel recover-travel travel-format stuck-missing
  base-violates refused-no-number recover-cut explain one-repair-trace travel-serial travel-one-worker-trace audit-travel audit-conflict
  longest-cycle-stuck chain-of-fifty explain-travel-rewritten cascade taken-null unify-answer stuck-save)
if [ -n "$cheap" ]; then
  rows=(one-repair travel recover-travel stuck-missing base-violates)
fi
# in_pieces ROW: attacks each call, with pieces of each size.
in_pieces() {
  local piece kind
  for piece in 1 7 20 1000000; do
    each_write "$1" "$piece"
    for kind in read told; do
      attack "$1" FAULTS=$kind "FAULTS_PIECE=$piece"
    done
  done
}

for row in "${rows[@]}"; do
  in_pieces "tests/rows/$row"
  # A write that takes nothing (0), a full disk, a pipe that nobody reads; and err, which fails besides.
  for error in 0 28 32; do
    attack "tests/rows/$row" FAULTS=write FAULTS_PIECE=20 FAULTS_ERROR=$error
  done
  attack "tests/rows/$row" FAULTS=write FAULTS_PIECE=20 FAULTS_MUTE=1
  attack "tests/rows/$row" FAULTS=read FAULTS_PIECE=20 FAULTS_MUTE=1 FAULTS_LASTING=1
done
# drill reads nothing.
for piece in 1 7 20 1000000; do
  each_write tests/rows/drill-one "$piece"
done
# Random commands on random sessions.
[ -z "$cheap" ] || return 0
drawn_rows devices 80
for row in "$stored"/devices/*; do
  in_pieces "$row"
done
