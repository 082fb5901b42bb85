# What a crash may leave of journals, of three commits and of random sessions, recovered by the program. The cheaper ones are those of tests/run.
if [ -z "$cheap" ]; then
  tally 'images of journals' "$(tests/journal_images.py "$program" "${FIRST:-0}" "${COUNT:-820}" 2>&1)"
fi
