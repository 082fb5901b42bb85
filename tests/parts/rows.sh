# The built program on each stored row: a session and words give a text, a line on the error stream and a status.
for row in tests/rows/*/; do
  words=()
  while IFS= read -r word; do words+=("$word"); done < "$row/words"
  "$program" "${words[@]}" < "$row/session" > "$stored/out" 2> "$stored/err"
  status=$?
  check "the row $(basename "$row")" \
    "$([ "$status" = "$(cat "$row/status")" ] || echo "status $status"
       for stream in out err; do cmp "$stored/$stream" "$row/$stream" 2>&1; done)"
done
