# Cut inputs: every beginning of five sessions, of a journal and of a query, and in the whole also every end, and every byte left out.
tally 'cut inputs' "$(python3 -B "$here/cuts.py" "$program" ${cheap:+cheap} 2>&1)"
