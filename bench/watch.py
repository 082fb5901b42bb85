#!/usr/bin/env python3
"""watch.py: the cost of each crate while the gate runs, in processor seconds: its proof, its tests and its must-fail edits.

It watches the prover's processes until it is told to end, by a signal or by the end of the process whose number is given. It runs
nothing itself, so the figures are of one whole run of the gate as it is. It looks at each process five times a second; what a
process used after the last look is not counted. The table goes to standard output as lines of Markdown, most expensive first,
with a line of sums.
"""
import os
import signal
import sys
import time
from collections import defaultdict

TICK = os.sysconf("SC_CLK_TCK")
KINDS = ("proof", "tests", "edits")


def processes():
    """The prover's processes: for each its number with its start time, its words, its folder and its processor seconds."""
    for pid in filter(str.isdigit, os.listdir("/proc")):
        try:
            with open(f"/proc/{pid}/cmdline", "rb") as file:
                words = file.read().decode(errors="replace").split("\0")
            if os.path.basename(words[0]) != "rattle":
                continue
            with open(f"/proc/{pid}/stat", encoding="utf-8") as file:
                fields = file.read().rpartition(")")[2].split()
            yield (pid, fields[19]), words, os.readlink(f"/proc/{pid}/cwd"), sum(map(int, fields[11:15])) / TICK
        except (OSError, IndexError):
            continue


def kind_of(words, folder):
    """The crate of a process, and whether it tries an edit, proves tests, or proves the crate."""
    crate = words[words.index("--crate-name") + 1] if "--crate-name" in words else "other"
    is_edit = any("/rt-edit" in it for it in [folder, *words])
    return crate, "edits" if is_edit else "tests" if "--test" in words else "proof"


def watch(until):
    """Watches the processes until `until` returns true; returns for each crate and kind the seconds that its processes used."""
    last = {}
    while not until():
        for key, words, folder, seconds in processes():
            last[key] = kind_of(words, folder), seconds
        time.sleep(0.2)
    sums = defaultdict(float)
    for of, seconds in last.values():
        sums[of] += seconds
    return sums


def table(sums):
    """The lines of the table."""
    crates = {crate for crate, _ in sums}
    of = {crate: [sums.get((crate, kind), 0) for kind in KINDS] for crate in crates}
    yield "| Crate | Proof | Tests | Edits | Together |"
    yield "|---|---|---|---|---|"
    for crate in sorted(crates, key=lambda it: -sum(of[it])):
        yield f"| `{crate}` | {' | '.join(f'{it:.0f}' for it in of[crate])} | {sum(of[crate]):.0f} |"
    whole = [sum(of[crate][i] for crate in crates) for i in range(len(KINDS))]
    yield f"| together, minutes | {' | '.join(f'{it / 60:.1f}' for it in whole)} | {sum(whole) / 60:.1f} |"


def main():
    ended = []
    for number in (signal.SIGINT, signal.SIGTERM):
        signal.signal(number, lambda *_: ended.append(True))
    pid = sys.argv[1] if len(sys.argv) > 1 else None
    print("\n".join(table(watch(lambda: ended or pid and not os.path.exists(f"/proc/{pid}")))))


if __name__ == "__main__":
    main()
