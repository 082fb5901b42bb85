#!/usr/bin/env python3
"""time.py PROGRAM [--rounds N] [SESSION..]: the program beside SQLite in memory on the same work, in processor time.

A SESSION is the words for sessions.py; without any, those of measure.py are taken. A round runs `serial` and SQLite in turn, on the whole
session and then without its updates: the time of the updates is the difference, user and system. It prints a line of Markdown for each
session, with the medians of N rounds (15): microseconds of an update for each program, and the ratio of a round with its quartiles. SQLite
has to leave the repository of `serial` up to the names of nulls. The load of the machine goes to standard error: it should be quiet.
"""
import argparse
import os
import resource
import statistics
import subprocess
import sys
import tempfile
from pathlib import Path

from measure import USUAL, Work, is_there


def processor_time(words, read='/dev/null'):
    """The seconds of one run that reads this file."""
    before = resource.getrusage(resource.RUSAGE_CHILDREN)
    with open(read, 'rb') as data:
        subprocess.run(words, stdin=data, stdout=subprocess.DEVNULL, check=True)
    after = resource.getrusage(resource.RUSAGE_CHILDREN)
    return after.ru_utime + after.ru_stime - before.ru_utime - before.ru_stime


def one_round(work, driver):
    """The microseconds of an update, ours and SQLite's."""
    ours = [work.program, 'serial']
    whole = processor_time(ours, work.folder / 'session'), processor_time(driver)
    load = processor_time(ours, work.folder / 'head'), processor_time([*driver, 'load'])
    return [(one - other) / work.updates * 1e6 for one, other in zip(whole, load)]


def measured(program, words, rounds):
    """The medians of both programs, and the quartiles of the ratio."""
    with tempfile.TemporaryDirectory() as folder:
        work = Work(program, words, Path(folder))
        (work.folder / 'head').write_bytes(work.head)
        driver = work.driver()
        times = [one_round(work, driver) for _ in range(rounds)]
    ratios = statistics.quantiles((ours / other for ours, other in times), n=4)
    return [statistics.median(it) for it in zip(*times)], ratios


def main():
    parser = argparse.ArgumentParser(description=__doc__, formatter_class=argparse.RawDescriptionHelpFormatter)
    parser.add_argument('program', type=lambda text: Path(text).resolve())
    parser.add_argument('sessions', nargs='*', default=USUAL)
    parser.add_argument('--rounds', type=int, default=15)
    said = parser.parse_intermixed_args()
    if not is_there('SQLite'):
        sys.exit(1)
    print(f'load before: {os.getloadavg()[0]:.1f}', file=sys.stderr)
    print('| Session | `serial` | SQLite | Ratio | Half of the rounds |\n|---|---|---|---|---|')
    for words in said.sessions:
        (ours, other), (low, ratio, high) = measured(said.program, words, said.rounds)
        print(f'| `{words}` | {ours:.1f} | {other:.1f} | {ratio:.2f} | {low:.2f} to {high:.2f} |', flush=True)
    print(f'load after: {os.getloadavg()[0]:.1f}', file=sys.stderr)


if __name__ == '__main__':
    main()
