# The built program on faulty streams and words, and on inputs at the limits.

# How the last run, with this status and its error stream stored, differs from STATUS LINE.
differs() {
  [ "$status" = "$1" ] || echo "status $status"
  printf '%s\n' "$2" | cmp - "$stored/err" 2>&1
}

# Faulty streams and words: a status and one line each.
"$program" run < examples/first.session > /dev/full 2> "$stored/err"; status=$?
check 'an output that is full' "$(differs 6 'youtopia: write fault')"
"$program" run < examples/first.session >&- 2> "$stored/err"; status=$?
check 'an output that is closed' "$(differs 6 'youtopia: write fault')"
"$program" run < examples > "$stored/out" 2> "$stored/err"; status=$?
check 'a folder as the input' "$(differs 5 'youtopia: read fault')"
"$program" run $'\xff' < examples/first.session > "$stored/out" 2> "$stored/err"; status=$?
check 'a word that is not UTF-8' "$(differs 2 'youtopia: usage: youtopia COMMAND [OPTIONS]')"
{ printf 'youtopia 1\nend\n'; head -c 16777201 /dev/zero | tr '\0' '#'; } > "$stored/session"
"$program" check < "$stored/session" > "$stored/out" 2> "$stored/err"; status=$?
check 'an input of as many bytes as may be' \
  "$([ "$status" = 0 ] || echo "status $status"; echo 'ok relations 0 mappings 0 base 0 updates 0 answers 0' | cmp - "$stored/out" 2>&1)"
head -c 16777217 /dev/zero | "$program" check > "$stored/out" 2> "$stored/err"; status=${PIPESTATUS[1]}
check 'an input of a byte too many' "$(differs 8 'youtopia: input longer than 16777216 bytes')"
"$program" run < tests/rows/refused-no-end/session > "$stored/out" 2>&-; status=$?
check 'an error stream that is closed' "$([ "$status" = 3 ] || echo "status $status")"

check 'the version is one line' \
  "$("$program" --version 2>&1 | cmp - <(echo 'youtopia 0.1.0') 2>&1)"

# A saved session may have 100,000 tuples, and here there is one more.
{ echo 'youtopia 2'; echo 'relation A 1'; seq -f 'base A(%.0f)' 100000; echo 'update one ann insert A(0)'; echo 'end'; } > "$stored/session"
check 'a saved session that is too large' \
  "$("$program" save < "$stored/session" > "$stored/out" 2> "$stored/err"
     status=$?
     [ "$status" = 9 ] || echo "status $status"
     [ ! -s "$stored/out" ] || echo 'out took something'
     echo 'youtopia: output too large' | cmp - "$stored/err" 2>&1)"

