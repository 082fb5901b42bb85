# Conversations with `yt`: the stored ones, by the reference in Python and by the program, and random scripts by both.
workspace=$(realpath -m "${WORKSPACE:-crates/yt/out/yt}")
check 'the reference of yt tells what the stored conversations have' \
  "$(tests/workspace_rows > "$stored/differences" 2>&1 || cat "$stored/differences")"
check 'yt tells what the stored conversations have' \
  "$(tests/workspace_rows "$workspace" > "$stored/differences" 2>&1 || cat "$stored/differences")"
check 'yt tells of 100 random scripts what the reference tells, and youtopia takes each dump' \
  "$(tests/scripts 5 100 "$workspace" "$program" > "$stored/differences" 2>&1 || cat "$stored/differences")"
told=$(tests/databases 1 20 "$workspace" 2>&1) && failures= || failures=$told
case $told in
  skipped:*) echo "the databases of yt beside those of sqlite3 are $told" ;;
  *) check 'the database of export --sqlite has the tables that sqlite3 makes of export --sql' "$failures" ;;
esac
check 'the blocks of the guide of yt are run, and write what they show' \
  "$(tests/pages/blocks.py docs/YT.md "$workspace" plain as yt 2>&1)"
