# Inputs of yt that AFL++ makes, which goes on from each that reaches a new branch (workspace_guided.py). For it yt is built without proof, in about
# five minutes of processor; GUIDED=path takes one that is built. COUNT=N makes N inputs of each kind. Skipped with a word if it cannot be built;
# AFL++ is installed if it can be had.
guided=$(realpath -m "${GUIDED:-crates/yt/out/guided}")

# Builds yt with its branches counted, its main by another name, and guided.c with the driver of AFL++ for it.
build_guided() {
  local kit
  kit=$(dirname "$(rt doc)") &&
  MODULE=$stored/yt.bc tests/unproved yt "$stored/yt" -- --version &&
  "$kit/toolchain/bin/clang" -O2 -fsanitize-coverage=trace-pc-guard -c -x ir "$stored/yt.bc" -o "$stored/yt.o" &&
  objcopy --redefine-sym main=program_main "$stored/yt.o" &&
  mkdir -p "$(dirname "$guided")" &&
  cc -O2 -Wall -o "$guided" "$here/guided.c" "$stored/yt.o" "$kit"/c/lib{os,libc}_c.a /usr/lib/afl/{libAFLDriver.a,afl-compiler-rt.o} -lcrypto -lm -ldl
}

# on_branches KIND COUNT: makes that many inputs of a kind, unless the environment says otherwise.
on_branches() {
  tally "inputs of new branches, $1" "$(python3 -B "$here/workspace_guided.py" "$workspace" "$guided" "$1" "${COUNT:-$2}" 2>&1)"
}

[ -z "$cheap" ] || return 0
workspace=$(realpath -m "${WORKSPACE:-crates/yt/out/yt}")
command -v afl-fuzz > /dev/null || apt-get install -y --no-install-recommends afl++ > /dev/null 2>&1 || { echo 'guided: skipped: there is no AFL++'; return 0; }
if [ ! -x "$guided" ] || [ -n "$(find crates -name '*.rt' -newer "$guided" -print -quit)" ]; then
  build_guided > "$stored/told" 2>&1 || { echo 'guided: skipped: yt cannot be built with its branches counted:'; tail -5 "$stored/told"; return 0; }
fi
on_branches scripts 3000000
on_branches files 2000000
on_branches records 2000000
on_branches workspaces 1000000
on_branches words 2000000
