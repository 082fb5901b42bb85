# The second program, yt_live: stored conversations, one on a pipe, random ones beside the reference, a long one, its page.
live=$(realpath -m "${LIVE:-crates/yt_live/out/yt_live}")
for row in tests/live/*/; do
  "$live" < "$row/lines" > "$stored/out" 2> "$stored/err"
  status=$?
  check "the conversation $(basename "$row")" \
    "$([ "$status" = "$(cat "$row/status")" ] || echo "status $status"
       for stream in out err; do cmp "$stored/$stream" "$row/$stream" 2>&1; done)"
done

# Some of these conversations again, with reads and writes that move one byte each.
cc -O2 -shared -fPIC -o "$stored/pieces.so" tests/pieces.c
for row in tests/live/live-a tests/live/live-b-empty tests/live/live-b-one-insert tests/live/last-line-open; do
  LD_PRELOAD="$stored/pieces.so" "$live" < "$row/lines" > "$stored/out" 2> "$stored/err"
  status=$?
  check "the conversation $(basename "$row"), byte by byte" \
    "$([ "$status" = "$(cat "$row/status")" ] || echo "status $status"
       for stream in out err; do cmp "$stored/$stream" "$row/$stream" 2>&1; done)"
done

# Each line goes in only when the reply to the one before it is there.
check 'a reply goes out before the next line is read' \
  "$(coproc curator { timeout 60 "$live"; }
     printf 'youtopia 1\nrelation A 1\nend\n' >&"${curator[1]}"; read -r -t 20 -u "${curator[0]}" ready
     printf 'update a ann insert A(1)\n' >&"${curator[1]}"; read -r -t 20 -u "${curator[0]}" admitted
     printf 'step\n' >&"${curator[1]}"; read -r -t 20 -u "${curator[0]}" stepped
     printf 'quit\n' >&"${curator[1]}"; read -r -t 20 -u "${curator[0]}" bye
     printf '%s\n' "$ready" "$admitted" "${stepped%%,*}" "$bye" | diff - <(printf '%s\n' 'ready 0' '{"event":"admitted","update":1}' '{"attempt":0' bye))"

"$live" now < tests/live/live-a/lines > "$stored/out" 2> "$stored/err"; status=$?
check 'yt_live takes no words' \
  "$([ "$status" = 2 ] || echo "status $status"; cat "$stored/out"; echo 'yt_live: usage: yt_live' | cmp - "$stored/err" 2>&1)"
"$live" < tests/live/live-a/lines > /dev/full 2> "$stored/err"; status=$?
check 'yt_live on an output that is full' \
  "$([ "$status" = 6 ] || echo "status $status"; echo 'yt_live: write fault' | cmp - "$stored/err" 2>&1)"
"$live" < tests > "$stored/out" 2> "$stored/err"; status=$?
check 'yt_live on a folder' \
  "$([ "$status" = 5 ] || echo "status $status"; echo 'yt_live: read fault' | cmp - "$stored/err" 2>&1)"
{ printf 'youtopia 1\nend\nstep\n'; head -c 16777216 /dev/zero | tr '\0' ' '; } > "$stored/lines"
"$live" < "$stored/lines" > "$stored/out" 2> "$stored/err"; status=$?
check 'yt_live on an input that is too long' \
  "$([ "$status" = 8 ] || echo "status $status"
     printf 'ready 0\nidle\n' | cmp - "$stored/out" 2>&1
     echo 'yt_live: input longer than 16777216 bytes' | cmp - "$stored/err" 2>&1)"

check 'random conversations are as the reference has them' "$(tests/conversations 1 300 "$live" 2>&1 | grep -v 'passed, 0 failed$' | grep -v '^status ')"
check 'each block of the page on curators at work is run, and writes what it shows' \
  "$(tests/pages/blocks.py docs/LIVE.md "$live" as yt_live 2>&1)"
