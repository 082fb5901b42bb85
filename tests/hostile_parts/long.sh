# Long inputs: at and one beyond each limit, within 4 GiB and 20 seconds of processor time, and matching that explodes.
tally 'long inputs' "$(python3 -B "$here/long.py" "$program" "$live" ${cheap:+cheap} 2>&1)"
