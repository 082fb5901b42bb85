# The reference in Python: it must give the stored answer for each stored row, and the program's answer for random cases.
check 'the reference tells what the stored rows have' "$(tests/reference tests/rows/* 2>&1)"
check 'the program tells of 200 random cases what the reference tells' \
  "$(tests/differential 1 200 "$program" > "$stored/differences" 2>&1 || cat "$stored/differences")"
check 'the program tells of 20 random sessions with joins in any order what the reference tells' \
  "$(tests/differential 6 20 "$program" join > "$stored/differences" 2>&1 || cat "$stored/differences")"
check 'runs by 1, 2, 4 and 8 workers tell what the serial machine tells, by histories that the auditor takes' \
  "$(tests/differential 2 100 "$program" trace > "$stored/differences" 2>&1 || cat "$stored/differences")"
check 'a core answers 100 random lists of calls as the reference does' \
  "$(tests/lists core 3 100 ${CORE_TABLE:-} > "$stored/differences" 2>&1 || cat "$stored/differences")"
check 'a desk answers 100 random lists of calls as the reference does' \
  "$(tests/lists desk 4 100 ${DESK_TABLE:-} > "$stored/differences" 2>&1 || cat "$stored/differences")"
