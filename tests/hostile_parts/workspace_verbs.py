#!/usr/bin/env python3
"""workspace_verbs.py YT CALLS.SO [cheap|STRIDE]: requests of memory are refused, in commands of every verb: each in turn, then
all after it.

Each command of one conversation, over the file before it, in text and with --json. yt must give status 7, in words if only one
request was refused, with the file as before; or its undisturbed answer. Also each system call fails with each error, as in
workspace_calls.py. Cheap: some of the requests, only in text. With a STRIDE the distance between two requests grows by one after
each FEW. JOBS in the environment is the number of processes. The last line is 'N passed, M failed', with the numbers of each
status before it.
"""
import collections
import os
import sys
from concurrent.futures import ProcessPoolExecutor
from pathlib import Path

from workspace_calls import WAYS, Failing
from workspace_runs import Bench, Tally, yt

EACH, FEW = 10 ** 9, 3         # after EACH or FEW requests the stride grows by one
LINES = """relation Painting(title*, painter)
relation Painter(name, country)
relation Hangs(title, room)
relation Loan(title, museum)
insert Painter("Hals", "NL"), Painter("Leyster", ?)
mapping hung: Hangs(t, r) -> Painting(t, p), Painter(p, c)
insert Hangs("Boy", 1)
insert Hangs("Girl", 2)  # by letter
questions
questions 3 --like a --limit 1
try answer 3 1
answer 3 1
answer 4 new
insert Loan("Boy", "Frick"), Loan("Cat", ?m) --only
mapping lent: Loan(t, m) -> Painting(t, p)
violations
violations lent --limit 1
adopt lent
try undo 1
undo 3
redo 3
undo 4 --answers
answer 4 go
answer 4 expand
replace ?1.1 with "Haarlem"
replace Painter("Hals", "NL") with Painter("Hals", "Holland") --cascade
delete Hangs("Boy", _) --cascade
try delete Painting(_, _)
delete Loan("Cat", _) --only
load Loan FOLDER/rows.csv --empty new
load Guest FOLDER/rows.csv --create
load Loan --lines 3|title,museum|Owl,"Frick, NY"|Map,|
show
show Painting Loan --unknowns
show --like a --from 1 --limit 1
ask q(t): Painting(t, p), Painter(p, _) --unknowns --limit 2
why Painting("Girl", _)
why Painting("Girl", _) --dot
why ?4.1
log
log 4
log --since 3 --limit 2
status
export Loan --csv
export --sql
export --json --to FOLDER/out.json
graph
page
page --to FOLDER/out.html
dump
help insert
drop hung
fold
insert Hangs("Owl", 3)
insert Nothing(1)
insert Painting("open
quit"""


def commands(folder):
    Path(folder, "rows.csv").write_text("title,museum\nBoy,Frick\nMap,\n")
    return [line.replace("|", "\n").replace("FOLDER", folder) for line in LINES.split("\n")]


def attacked(program, calls, number, options, cheap, stride):
    """All refusals in the command of this number."""
    tally, counts = Tally(), collections.Counter()
    with Bench(program) as bench:
        lines, before = commands(bench.folder), bench.path("before.yt")
        for line in lines[:number]:
            yt(program, [before], line.encode() + b"\n")
        failing = Failing(bench, calls, tally, before, lines[number], *options)
        for lasting in [False] if cheap else [False, True]:
            failing.all_calls("memory", lasting, counts, stride)
        for do, lasting in [] if cheap else WAYS[:-1]:
            failing.all_calls(do, lasting, counts)
    return tally.passed, tally.failed, counts


def main():
    program, calls, how = sys.argv[1], sys.argv[2], (sys.argv[3:] or [str(EACH)])[0]
    cheap, stride = how == "cheap", FEW if how == "cheap" else int(how)
    tally, counts = Tally(), collections.Counter()
    with ProcessPoolExecutor(int(os.environ.get("JOBS", "2"))) as pool:
        choices = [(number, options) for number in range(LINES.count("\n") + 1) for options in ([[]] if cheap else [[], ["--json"]])]
        for task in [pool.submit(attacked, program, calls, number, options, cheap, stride) for number, options in choices]:
            passed, failed, told = task.result()
            tally.passed, tally.failed = tally.passed + passed, tally.failed + failed
            counts += told
    for (status, there), number in sorted(counts.items()):
        print(f"status {status}, the file {there}: {number}")
    tally.end()


if __name__ == "__main__":
    main()
