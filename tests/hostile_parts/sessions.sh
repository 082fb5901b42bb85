# Random sessions of all commands, by the program and by the reference, compared byte by byte. The cheaper ones are those of tests/run.
if [ -z "$cheap" ]; then
  tally 'random sessions' "$(tests/differential "${FIRST:-1}" "${COUNT:-100000}" "$program" 2>&1)"
fi
