# The pages: their sizes and their English, and whether everything that they name exists. Needs no built program.
check 'README has at most 120 lines' "$(wc -l < README.md | awk '$1 > 120')"
check 'RESULTS has at most 150 lines' "$(wc -l < bench/RESULTS.md | awk '$1 > 150')"
check 'each crate stands on its own layer and lower ones, and the three lists of layers are one' "$(tests/pages/layers.py 2>&1)"
check 'the decisions are numbered, each number once' "$(grep -o '^[0-9]*\.' docs/DECISIONS.md | diff - <(seq -f '%.0f.' "$(grep -c '^[0-9]*\.' docs/DECISIONS.md)") 2>&1)"
check 'the pages are in plain English' "$(tests/pages/english.py 2>&1)"
check 'the code that CALLING shows stands in its crates' "$(tests/pages/shown.py docs/CALLING.md 2>&1)"
check 'each link of the pages leads somewhere' "$(tests/pages/links.py 2>&1)"
check 'each contract that PROOFS cites is there' "$(tests/pages/citations.py 2>&1)"
check 'each name of the crates that the pages quote is there' "$(tests/pages/names.py 2>&1)"
check 'the trace of two curators who collide is one that the reference takes' \
  "$(diff <(cat examples/collision/oslo.session examples/collision/oslo.trace | (cd tests && python3 -m oracle audit)) <(echo 'yes entries 10 quiet') 2>&1)"
check 'the must-fail edit that CONTRIBUTING shows is there' \
  "$(diff <(sed -n '/^file: /,/^```/p' CONTRIBUTING.md | sed '$d') crates/core_queue/must-fail/counts_one_committed_too_many.edit 2>&1)"
