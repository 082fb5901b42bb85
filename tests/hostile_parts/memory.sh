# Refused memory: the N-th request of a run is refused, for N from 1 up to the first that it does not come to. The run ends with status 7
# and nothing on out, or as it does undisturbed. So too where all requests from the N-th on are refused, and where err takes nothing.

# Each command on sessions of all kinds, and each refusal that has read something.
rows=(one-repair conflict-abort cascade taken-null travel travel-serial travel-save travel-check travel-format format-2-upgrade
  ask-travel journal-travel recover-travel added-mapping negative-frontier-both replace-merges stuck-missing stuck-save base-violates
  refused-no-number ask-arity recover-cut travel-eight-workers explain drill-one one-repair-trace added-mapping-spent
  audit audit-conflict audit-open audit-form)
most=${cheap:+2000}
for row in "${rows[@]}"; do
  attack "tests/rows/$row" FAULTS=memory FAULTS_MOST="${most:-5000}"
  attack "tests/rows/$row" FAULTS=thread
  if [ -z "$cheap" ]; then
    attack "tests/rows/$row" FAULTS=memory FAULTS_LASTING=1 FAULTS_MOST=5000
    attack "tests/rows/$row" FAULTS=memory FAULTS_MUTE=1 FAULTS_MOST=5000
    attack "tests/rows/$row" FAULTS=thread FAULTS_LASTING=1
  fi
done
# Worked calls on a desk, by the program of a crate of its own: a call that finds no memory is made again, and answers as it would have.
python3 -B "$here/desks.py" "$stored" || tally 'calls on a desk' '0 passed, 1 failed'
for row in "$stored"/desk-*; do
  program=$desk_table attack "$row" FAULTS=memory FAULTS_WANTING=$'Error: out of memory\n'
done
if [ -n "$cheap" ]; then
  attack tests/rows/travel FAULTS=memory FAULTS_LASTING=1
  attack tests/rows/one-repair FAULTS=memory FAULTS_MUTE=1
  made_row fifty serial < tests/rows/chain-of-fifty/session
  attack "$row" FAULTS=memory FAULTS_INSIDE=1 FAULTS_MOST=500
  return
fi

# Larger sessions, by commands with one thread.
made_row cycle serial --steps 300 < tests/rows/longest-cycle-stuck/session
attack "$row" FAULTS=memory FAULTS_INSIDE=1
for seed in 1 2 3 4 5; do
  made_row "random-$seed" serial < <(bench/sessions.py random --count 200 --seed "$seed")
  attack "$row" FAULTS=memory FAULTS_INSIDE=1
  attack "$row" FAULTS=memory FAULTS_INSIDE=1 FAULTS_LASTING=1
done
made_row contention journal < <(bench/sessions.py contention --updates 150)
attack "$row" FAULTS=memory FAULTS_INSIDE=1
made_row join save < <(bench/sessions.py join --base 700 --updates 60)
attack "$row" FAULTS=memory FAULTS_INSIDE=1
made_row groups ask --query 'q(x, w): C0(x, z), D0(z, w)' < <(bench/sessions.py groups --base 1000 --updates 40)
attack "$row" FAULTS=memory FAULTS_INSIDE=1
made_row chain serial < <(bench/sessions.py chain --length 30 --updates 20)
attack "$row" FAULTS=memory FAULTS_INSIDE=1 FAULTS_LASTING=1
# Random commands on random sessions.
drawn_rows memory 300
for row in "$stored"/memory/*; do
  attack "$row" FAULTS=memory FAULTS_MOST=2000
  attack "$row" FAULTS=memory FAULTS_LASTING=1 FAULTS_MOST=2000
done
# And by the workers.
made_row crowded run --workers 4 < <(bench/sessions.py contention --updates 30)
attack "$row" FAULTS=memory FAULTS_MOST=6000
attack tests/rows/drill-sixty FAULTS=memory FAULTS_MOST=6000
