# Workspaces of yt: it is killed at every call of the system and at random moments, and the power is cut; a disk holds what a crash may leave of
# real conversations; each of its calls fails, each request of memory is refused, its streams are closed; its path leads to what is no good file,
# there is no room, another program changes the file; files are damaged and forged; many processes change one file at once; garbled scripts
# and files are told as the reference tells them, and one process is sent garbled commands and changes by the thousand.
workspace=$(realpath -m "${WORKSPACE:-crates/yt/out/yt}")
calls=$stored/calls.so
record=$stored/record.so
cc -O2 -Wall -shared -fPIC -o "$calls" "$here/workspace_calls.c" -ldl || exit 2
cc -O2 -Wall -shared -fPIC -o "$record" "$here/workspace_record.c" -ldl || exit 2

# on_workspaces NAME WORDS..: makes the attack workspace_NAME.py on yt.
on_workspaces() {
  tally "workspaces, $1" "$(python3 -B "$here/workspace_$1.py" "$workspace" "${@:2}" 2>&1)"
}

on_workspaces places
if [ -n "$cheap" ]; then
  on_workspaces kills "$calls" 1
  on_workspaces cuts "$calls" "$record" 1 1 100
  on_workspaces names "$calls" "$record"
  on_workspaces images "$record" all 1 1 50
  on_workspaces images "$record" random 1 1 1000
  on_workspaces calls "$calls" 1 cheap
  on_workspaces verbs "$calls" cheap
  on_workspaces closed 1
  on_workspaces room cheap
  on_workspaces meets cheap
  on_workspaces flips 50 cheap
  on_workspaces forged 1 1 500
  on_workspaces together 1
  on_workspaces crowd 3
  on_workspaces fuzz scripts 1 30
  on_workspaces fuzz files 1 50
  on_workspaces lines 1 4 1000
else
  on_workspaces kills "$calls" 5
  on_workspaces cuts "$calls" "$record" 1 20 500
  on_workspaces names "$calls" "$record"
  on_workspaces images "$record" all 1 10
  on_workspaces images "$record" random 1 50 20000
  on_workspaces calls "$calls" 3
  on_workspaces verbs "$calls"
  on_workspaces closed 5
  on_workspaces room
  on_workspaces meets
  on_workspaces flips 1000
  on_workspaces forged 1 20 20000
  on_workspaces together 5
  on_workspaces crowd 600
  on_workspaces fuzz scripts 1 3000
  on_workspaces fuzz files 1 1000
  on_workspaces lines 1 1500 5000
  on_workspaces changes
fi
