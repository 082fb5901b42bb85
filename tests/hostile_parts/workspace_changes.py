#!/usr/bin/env python3
"""workspace_changes.py YT [CHANGES]: many changes by one process, none of which may cost more because of those before it.

A process makes CHANGES changes (5,000), and another one four times as many. The second must not take more than eight times the
first one's time of processor in its own code; if each change took time for all before it, it would take sixteen times. The
changes are insertions; insertions, each tried before; and insertions between commands that are refused. The last line is
'N passed, M failed'.
"""
import resource
import subprocess
import sys

from workspace_runs import Bench, Tally

TIMES, MOST = 4, 8
KINDS = {"insertions": "insert R({0})", "insertions that were tried": "try insert R({0})\ninsert R({0})",
         "insertions and refusals": "insert R(?9.1)\ninsert R({0})"}


def seconds(program, line, count):
    """The seconds of processor that a process takes for so many changes, and whether it made them all."""
    with Bench(program) as bench:
        path = bench.path("w.yt")
        script = "\n".join(["relation R(x)", *(line.format(number) for number in range(count)), ""])
        before = resource.getrusage(resource.RUSAGE_CHILDREN).ru_utime
        subprocess.run([program, "--keep-going", path], input=script.encode(), capture_output=True, check=False)
        took = resource.getrusage(resource.RUSAGE_CHILDREN).ru_utime - before
        status = subprocess.run([program, path, "status"], capture_output=True, check=False).stdout
        return took, b"last update %d," % count in status


def main(program, changes="5000"):
    tally = Tally()
    for kind, line in KINDS.items():
        few, made = seconds(program, line, int(changes))
        many, all_made = seconds(program, line, int(changes) * TIMES)
        tally.holds(f"{kind}: not all were made", made and all_made)
        tally.holds(f"{kind}: {few:.2f} s, and {many:.2f} s for {TIMES} times as many", many <= MOST * few)
    tally.end()


if __name__ == "__main__":
    main(*sys.argv[1:])
