# Schedules: every order in which two and three seats of a desk come over small sessions, on one thread, by the program of a crate of its own.
if [ -n "$cheap" ]; then extents=(7 6); else extents=(14 11 "${FIRST:-0}" "${COUNT:-400}"); fi
tally 'schedules' "$(python3 -B "$here/schedules.py" "$desk_table" "${extents[@]}" 2>&1 | grep -v ' ends$')"
