# Real workers: sessions with many conflicts, each run by 2, 4, 8 and 16 of them; the bytes are the serial ones, the histories legal.
tally 'workers' "$(python3 -B "$here/workers.py" "$program" "$shim" ${cheap:+cheap} 2>&1)"
