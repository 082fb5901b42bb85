#!/usr/bin/env python3
"""workspace_lines.py YT FIRST COUNT [LINES]: random scripts among garbled commands, for one process that goes on after faults.

The commands of each script stand among LINES garbled ones (5,000), as a browser would send them. No command may be lost: after
every hundred lines a question with a number of its own is asked, and must have its reply. Each reply must have a status that its
command can have, the process must end by itself within two minutes, and its file must be whole afterwards. Each line counts as
one attack. JOBS in the environment is the number of processes. The last line is 'N passed, M failed'.
"""
import json
import os
import random
import re
import subprocess
import sys
from concurrent.futures import ProcessPoolExecutor
from pathlib import Path

from workspace_garbled import garbled_line
from workspace_runs import Bench, Tally, Workspace, random_script, yt

STATUS = re.compile(rb'"status":(\d+)')
LOST = re.compile(rb"there is no relation Lost_(\d+)")
CAN_BE = {b"0", b"1", b"2", b"3", b"4", b"5", b"13", b"14"}
SECONDS = 120


def lines_of(seed, bench, count):
    """A random script whose commands stand among COUNT garbled ones, with a numbered question after every hundred lines."""
    drawn, rng = bench.path("drawn.yt"), random.Random(seed)
    Path(drawn).unlink(missing_ok=True)
    script = [line for line in random_script(seed, Workspace(drawn, "ann")) if "quit" not in line and "--to" not in line]
    each = max(1, count // len(script))
    lines = []
    for line in script:
        lines.append(line.encode())
        for _ in range(each):
            lines.append(garbled_line(rng, rng.choice(script)))
            if len(lines) % 100 == 0:
                lines.append(b"show Lost_%d" % len(lines))
    return [line for line in lines if b"\n" not in line]


def wrong(lines, run):
    """What is wrong with the replies of a process to these lines, if anything."""
    asked = [line[10:] for line in lines if line.startswith(b"show Lost_") and line[10:].isdigit()]
    if run.returncode < 0:
        return f"ended by the signal {-run.returncode}"
    if [number for number in LOST.findall(run.stdout)] != asked:
        return "a line has no reply"
    odd = [line for line in run.stdout.splitlines() if not CAN_BE.issuperset(STATUS.findall(line))]
    # A mapping may have the name `status`.
    statuses = {json.loads(line)["status"] for line in odd} - {int(status) for status in CAN_BE}
    return f"statuses {statuses}" if statuses else ""


def attacked(program, seed, count):
    """The number of lines given, and what is wrong, if anything."""
    with Bench(program) as bench:
        lines, path = lines_of(seed, bench, count), bench.path("w.yt")
        words = [program, "--json", "--no-files", "--keep-going", path]
        try:
            run = subprocess.run(words, input=b"\n".join(lines) + b"\n", capture_output=True, timeout=SECONDS)
        except subprocess.TimeoutExpired:
            return len(lines), f"it goes on after {SECONDS} seconds"
        status = yt(program, [path, "status"])[0]
        return len(lines), wrong(lines, run) or ("" if status == 0 else f"its file has status {status}")


def main(program, first, count, lines="5000"):
    tally, seeds = Tally(), range(int(first), int(first) + int(count))
    with ProcessPoolExecutor(int(os.environ.get("JOBS", "2"))) as pool:
        for seed, task in [(seed, pool.submit(attacked, program, seed, int(lines))) for seed in seeds]:
            told, fault = task.result()
            tally.passed += 0 if fault else told - 1
            tally.holds(f"script {seed}: {fault}", not fault)
    tally.end()


if __name__ == "__main__":
    main(*sys.argv[1:])
