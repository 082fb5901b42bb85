# The pages, run: each block that shows the program must write what the page shows. Needs the built program.
check 'each block of the guide is run, and writes what it shows' "$(tests/pages/blocks.py docs/GUIDE.md "$program" 2>&1)"
check 'the session of the README is run, and writes what it shows' "$(tests/pages/blocks.py README.md "$program" plain 2>&1)"
check 'the blocks of FORMATS are run, and write what they show' "$(tests/pages/blocks.py docs/FORMATS.md "$program" plain 2>&1)"
check 'each example in the tables of faults of FORMATS is reported so' "$(tests/pages/faults.py "$program" 2>&1)"
check 'the blocks of the travel example are run, and write what they show' "$(tests/pages/blocks.py examples/travel/README.md "$program" 2>&1)"
check 'the blocks of the example of an auditor are run, and write what they show' "$(tests/pages/blocks.py examples/audit/README.md "$program" 2>&1)"
check 'the blocks of the journal example are run, and write what they show' "$(tests/pages/blocks.py examples/journal/README.md "$program" 2>&1)"
check 'the blocks of the example of two curators who collide are run, and write what they show' \
  "$(tests/pages/blocks.py examples/collision/README.md "$program" 2>&1)"
check 'the example of travel data' \
  "$("$program" run < examples/travel/travel.session 2>&1 | diff examples/travel/travel.result - 2>&1)"
