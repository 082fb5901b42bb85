# The lengths of files and bodies, and the widths of clauses.
tests/figures > "$stored/figures" 2>&1
head -n 1 "$stored/figures"
check 'the figures are within their limits' "$(tail -n +2 "$stored/figures")"
