# The repository's own consistency: its list of crates, its sources, its stored cases.
crates=$(cd crates && ls -d */ | tr -d /)
listed=$(sed -n 's/^\([a-z][a-z0-9_]*\).*:.*/\1/p' crates.txt)
sources=$(find crates -path '*/out' -prune -o \( -name '*.rt' -o -name '*.antt' \) -print)

check 'the handles are the one line' \
  "$([ "$(cat HANDLES)" = 'Handles allowed: Threads, Wait.' ] || cat HANDLES)"
check 'each crate is listed once in crates.txt, and no other' \
  "$(diff <(printf '%s\n' "$crates" | sort) <(printf '%s\n' "$listed" | sort))"
check 'no file has the marks of an open merge' "$(git grep -lE '^(<<<<<<<|>>>>>>>) ' 2>&1)"
check 'each public function has a comment for its reader' \
  "$(printf '%s\n' "$sources" | grep '/src/.*\.rt$' | while read -r file; do
       awk -v file="$file" '/^ *(pub fn|pub trait|pub struct|pub enum)/ { if (before !~ /^ *(\/\/\/|#\[)/) print file ": " $0 } { before = $0 }' "$file"
     done)"
check 'each source and definition, tests aside, opens with a sentence on its job' \
  "$(printf '%s\n' "$sources" | grep -v '/proofs/.*/\(Answers\|Invariants\|Proof\)\.antt$' | grep -v '/Lib\.antt$' | grep -v '/src/tests\.rt$' | while read -r file; do
       head -n 1 "$file" | grep -qE '^(//|--)' || echo "$file"
     done)"
check 'each must-fail edit can be made' "$(python3 tests/edits_fit.py 2>&1)"

# The stored cases of violations are the cases that the brute-force script writes.
cp crates/try_violation/stdin crates/try_violation/stdout "$stored"
check 'the brute-force script writes the stored cases of violations' \
  "$(python3 tests/violation_cases.py 2>&1 > /dev/null
     for file in stdin stdout; do cmp "$stored/$file" "crates/try_violation/$file" 2>&1; done)"
cp "$stored"/std* crates/try_violation/

# The stored verdicts on explanations are the reference's verdicts.
cp crates/try_explanation/stdin crates/try_explanation/stdout "$stored"
check 'the reference judges the stored explanations, whole and broken, as it is stored' \
  "$(python3 tests/explanation_cases.py 2>&1 > /dev/null
     for file in stdin stdout; do cmp "$stored/$file" "crates/try_explanation/$file" 2>&1; done)"
cp "$stored"/std* crates/try_explanation/

# The stored calls on a core and on a desk are the calls that their script writes, with the reference's answers.
for crate in try_core try_desk; do mkdir "$stored/$crate"; cp crates/$crate/stdin crates/$crate/stdout "$stored/$crate"; done
check 'the script of calls writes the stored ones, and the reference tells of them what is stored' \
  "$(python3 tests/call_cases.py 2>&1 > /dev/null
     for crate in try_core try_desk; do for file in stdin stdout; do cmp "$stored/$crate/$file" "crates/$crate/$file" 2>&1; done; done)"
for crate in try_core try_desk; do cp "$stored/$crate"/std* crates/$crate/; done
