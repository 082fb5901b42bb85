# The built program under attack: the cheaper attacks of each kind. `tests/hostile` makes all of them.
check 'the program stands the cheaper attacks of tests/hostile' \
  "$(CHEAP=1 PROGRAM="$program" tests/hostile > "$stored/attacks" 2>&1 || cat "$stored/attacks")"
