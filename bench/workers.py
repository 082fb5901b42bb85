#!/usr/bin/env python3
"""workers.py PROGRAM [--times N] [--workers 1,2,4] [--processors N] [SESSION..]: the cost of `run` by several workers.

Each session is given as the words of sessions.py, such as 'shop --kind quiet --fan 10'; without any the usual ones are taken. The
runs are interleaved: all numbers of workers once, then all again, N times (7). For each session a line of Markdown has the
medians of the wall and processor seconds, and the ratio of the first wall time to each of the others. The load of the machine
before and after goes to standard error. Every run must write the same bytes. With --processors the program has only the first N
processors.
"""
import argparse
import os
import resource
import statistics
import subprocess
import sys
import time
from pathlib import Path

HERE = Path(__file__).resolve().parent
USUAL = ("shop --kind quiet --fan 10", "shop --kind quiet --fan 3", "shop --kind mixed --fan 3", "random", "groups", "chain", "contention")


def timed(program, session, workers, processors):
    """The wall and processor seconds of one run, and its output."""
    words = [program, "run", "--workers", str(workers)]
    limit = (lambda: os.sched_setaffinity(0, range(processors))) if processors else None
    before, start = resource.getrusage(resource.RUSAGE_CHILDREN), time.monotonic()
    ran = subprocess.run(words, input=session, stdout=subprocess.PIPE, preexec_fn=limit, check=False)
    wall, after = time.monotonic() - start, resource.getrusage(resource.RUSAGE_CHILDREN)
    return wall, after.ru_utime + after.ru_stime - before.ru_utime - before.ru_stime, ran.stdout


def measured(words, said):
    """The medians of wall and processor seconds for each number of workers."""
    session = subprocess.run([sys.executable, HERE / "sessions.py", *words.split()], stdout=subprocess.PIPE, check=True).stdout
    walls, used, wrote = {it: [] for it in said.workers}, {it: [] for it in said.workers}, set()
    for _ in range(said.times):
        for workers in said.workers:
            wall, processor, text = timed(said.program, session, workers, said.processors)
            walls[workers].append(wall)
            used[workers].append(processor)
            wrote.add(text)
    if len(wrote) > 1:
        sys.exit(f"{words}: the runs wrote different bytes")
    return {it: (statistics.median(walls[it]), statistics.median(used[it])) for it in said.workers}


def main():
    parser = argparse.ArgumentParser(description=__doc__, formatter_class=argparse.RawDescriptionHelpFormatter)
    parser.add_argument("program")
    parser.add_argument("sessions", nargs="*", default=USUAL)
    parser.add_argument("--times", type=int, default=7)
    parser.add_argument("--workers", type=lambda text: [int(it) for it in text.split(",")], default=[1, 2, 4])
    parser.add_argument("--processors", type=int)
    said = parser.parse_intermixed_args()
    print(f"load before: {os.getloadavg()[0]:.1f}", file=sys.stderr)
    print("| Session | " + " | ".join(f"{it} workers" for it in said.workers) + " | Wall, first to each |")
    print("|---|" + "---|" * (len(said.workers) + 1))
    for words in said.sessions:
        found = measured(words, said)
        first = found[said.workers[0]][0]
        cells = [f"{wall:.3f}, {processor:.3f}" for wall, processor in found.values()]
        print(f"| `{words}` | " + " | ".join(cells) + " | " + ", ".join(f"{first / wall:.2f}" for wall, _ in found.values()) + " |", flush=True)
    print(f"load after: {os.getloadavg()[0]:.1f}", file=sys.stderr)


if __name__ == "__main__":
    main()
