# The words of the command line: one table makes the man page and the completions, and agrees with the program's help.
check 'the man page and the completions are those of the table' "$(share/write check 2>&1)"
check 'the help lists the commands, options and statuses of the table' "$(share/write help "$program" 2>&1)"

check 'README and FORMATS name each command, and FORMATS each option' \
  "$(grep -P '^command\t' share/words.tsv | cut -f 2 | while read -r name; do
       for page in README.md docs/FORMATS.md; do grep -q "\`$name\`" "$page" || echo "$page: $name"; done
     done
     grep -P '^option\t' share/words.tsv | cut -f 2 | while read -r name; do grep -q -- "--$name" docs/FORMATS.md || echo "docs/FORMATS.md: --$name"; done)"

# The words that the completion of bash offers for the last of these words.
offered() {
  COMP_WORDS=(youtopia "$@") COMP_CWORD=$# COMPREPLY=()
  _youtopia
  echo "${COMPREPLY[*]}"
}
. share/youtopia.bash
check 'the completion of bash offers what fits' \
  "$(diff <(offered se; offered run --deps ''; offered run --steps ''; offered run --ver) <(printf '%s\n' serial 'coarse precise' '' --version) 2>&1)"

# The words that the completion of bash offers for the last of these words of yt.
offered_to_yt() {
  COMP_WORDS=(yt "$@") COMP_CWORD=$# COMPREPLY=()
  _yt
  echo "${COMPREPLY[*]}"
}
. share/yt.bash
check 'the completion of bash for yt offers what fits' \
  "$(diff <(offered_to_yt --no; offered_to_yt m.yt que; offered_to_yt --as que m.yt try ins; offered_to_yt m.yt load R f.csv --empty ''
            offered_to_yt m.yt undo 1 --an; offered_to_yt m.yt help gr; offered_to_yt m.yt --wait '') \
          <(printf '%s\n' --no-files questions insert 'new text skip refuse' --answers graph '') 2>&1)"

check 'what is installed runs, and is taken away whole' \
  "$(live=$(realpath -m "${LIVE:-crates/yt_live/out/yt_live}")
     yt=$(realpath -m "${YT:-crates/yt/out/yt}")
     make -s install DESTDIR="$stored/root" PREFIX=/usr PROGRAM="$program" LIVE="$live" YT="$yt" 2>&1
     "$stored/root/usr/bin/youtopia" --version | grep -v '^youtopia '
     "$stored/root/usr/bin/yt_live" < tests/live/session-alone/lines | grep -vx 'ready 0'
     "$stored/root/usr/bin/yt" --version | grep -vx 'yt 1'
     find "$stored/root" -type f | wc -l | grep -vx 15
     make -s uninstall DESTDIR="$stored/root" PREFIX=/usr 2>&1
     find "$stored/root" -type f)"
check 'make run shows the line of a fault' \
  "$(make -s run EXAMPLE=tests/rows/refused-no-end/session PROGRAM="$program" 2>&1 | grep -q '^youtopia: session line 2: fault 25: end is missing$' || echo 'it does not')"
