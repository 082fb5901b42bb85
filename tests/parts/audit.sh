# The auditor on the program's own output: a session, the output of `run --trace` on it, and a mutation of that output.

# The verdict on the trace of a run of this session with these options.
verdict() {
  local session=$1
  shift
  { cat "$session"; "$program" run --trace "$@" < "$session"; } > "$stored/audited"
  "$program" audit "$@" < "$stored/audited" 2>&1
}
for workers in 1 2 4 8; do
  for deps in precise coarse; do
    check "the trace of the travel data by $workers workers and $deps dependences is answered yes" \
      "$(verdict examples/travel/travel.session --workers "$workers" --deps "$deps" | grep -vx 'yes entries [0-9]* quiet')"
  done
done
check 'a trace with one cause forgotten is refuted' \
  "$(sed 's/{"kind":"conflict","read":2,"reader":2,"writer":1}//' examples/collision/oslo.trace | cat examples/collision/oslo.session - \
     | "$program" audit 2>&1 | diff - <(echo 'no line 8 effect') 2>&1)"
check 'the program tells of 100 random traces, most of them mutated, what the reference tells' \
  "$(tests/differential 5 100 "$program" audit > "$stored/differences" 2>&1 || cat "$stored/differences")"
