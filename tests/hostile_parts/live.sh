# Conversations with yt_live: each request of memory and each call of a device fails in turn, and inputs are cut. What was replied stays so:
# after a refused request there are the whole replies up to it, after a failed read all that is due by what was read, after a failed
# write what was taken; and the status is the stated one.
python3 -B "$here/conversations.py" "$stored" ${cheap:+cheap} || tally 'conversations' '0 passed, 1 failed'

# talk NAME=VALUE..: attacks yt_live in the conversation `row`.
talk() {
  program=$live attack "$row" "$@" FAULTS_REPLIES="$row/replied"
}

if [ -n "$cheap" ]; then pieces=(7 20); else pieces=(1 7 20 1000000); fi
for row in "$stored"/live-*; do
  talk FAULTS=memory FAULTS_INSIDE=1
  for piece in "${pieces[@]}"; do
    for kind in read write told; do
      talk FAULTS=$kind FAULTS_PIECE=$piece FAULTS_INSIDE=1
    done
  done
  [ -z "$cheap" ] || continue
  talk FAULTS=memory FAULTS_INSIDE=1 FAULTS_PIECE=1
  talk FAULTS=memory FAULTS_INSIDE=1 FAULTS_LASTING=1
  talk FAULTS=memory FAULTS_INSIDE=1 FAULTS_MUTE=1
  for error in 0 28 32; do
    talk FAULTS=write FAULTS_PIECE=20 FAULTS_ERROR=$error
  done
  talk FAULTS=write FAULTS_PIECE=20 FAULTS_MUTE=1
  talk FAULTS=read FAULTS_PIECE=20 FAULTS_MUTE=1 FAULTS_LASTING=1
done
# And from the start, as the other programs are attacked.
for name in live-a the-page; do
  row=$stored/live-$name
  talk FAULTS=memory FAULTS_PIECE=1
done
tally 'cut conversations' "$(python3 -B "$here/live_cuts.py" "$live" ${cheap:+cheap} 2>&1)"
