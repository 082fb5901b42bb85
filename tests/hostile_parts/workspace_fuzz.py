#!/usr/bin/env python3
"""workspace_fuzz.py YT scripts|files FIRST COUNT: garbled scripts, or garbled CSV files, by yt and by the reference.

A garbled script has commands that fit what stands. Between them it has such commands with tokens lost, doubled or exchanged, with
odd characters, cut, or very long. A garbled file has odd cells, quotes, ends of lines, bytes that are not UTF-8, too many or too
few cells, now and then a cell of a million bytes; it is loaded with random options. Statuses, both streams and what is shown at
the end must be equal to the reference's. Inputs that differ are kept, and their folder is printed. JOBS in the environment is the
number of processes. The last line is 'N passed, M failed'.
"""
import os
import random
import shutil
import sys
from concurrent.futures import ProcessPoolExecutor
from pathlib import Path

from workspace_garbled import garbled_file, garbled_line, load_lines
from workspace_runs import LOOKS, Bench, Tally, Workspace, by_reference, random_script, yt

PART = 20          # seeds for one task
BEGIN = ['relation A(x*, y)', 'relation B(name, town, born)', 'insert A(1, ?), A("a", "Utrecht")', 'mapping m: B(n, t, b) -> A(n, u)']


def script_of(rng, bench, seed):
    """The options and the bytes of a garbled script."""
    drawn = bench.path("drawn.yt")
    Path(drawn).unlink(missing_ok=True)
    lines = []
    for line in random_script(seed, Workspace(drawn, "ann")):
        if len(lines) > 5 and rng.random() < 0.4:
            lines.append(garbled_line(rng, line))
        else:
            lines.append(line.encode())
    ends = rng.choice([b"\n"] * 8 + [b"\r\n"])
    return rng.choice([b""] * 9 + [b"\xef\xbb\xbf"]) + ends.join(lines) + ends + LOOKS


def load_of(rng, bench):
    """The bytes of a script that loads a garbled file; the file is written too."""
    data, path = garbled_file(rng), bench.path("rows.csv")
    Path(path).write_bytes(data)
    return "".join(line + "\n" for line in BEGIN).encode() + load_lines(rng, path, data) + LOOKS


def difference(bench, options, data):
    """The answers of yt and of the reference, if they differ."""
    file, both = bench.path("w.yt"), []
    for run in (by_reference, lambda words, data: yt(bench.program, words, data)):
        for name in os.listdir(bench.folder):
            if name.startswith("w.yt"):
                os.unlink(bench.path(name))
        both.append(run([*options, file], data))
    return differing(*both)


def differing(wanted, told):
    """The answers of the reference and of yt, if they differ."""
    return None if wanted == told else (wanted, told)


def kept(bench, name, options, data, both):
    """Puts an input that differs into a folder of its own, and returns the folder's name."""
    folder = Path(bench.folder + "-" + name)
    folder.mkdir()
    (folder / "options").write_text(" ".join(options) + "\n")
    (folder / "script").write_bytes(data)
    if os.path.exists(bench.path("rows.csv")):
        shutil.copyfile(bench.path("rows.csv"), folder / "rows.csv")
    for who, (status, out, err) in zip(("reference", "yt"), both):
        (folder / who).write_bytes(b"status %d\n%s\n--\n%s" % (status, out, err))
    return folder


def attacked(program, what, seeds):
    """The number of these that agree, and words about each of the others."""
    told = []
    with Bench(program) as bench:
        for seed in seeds:
            rng = random.Random(f"{what} {seed}")
            data = script_of(rng, bench, seed) if what == "scripts" else load_of(rng, bench)
            options = ["--keep-going"] + rng.choice([[], ["--json"]])
            both = difference(bench, options, data)
            if both:
                told.append(f"{what} {seed}: {kept(bench, f'{what}-{seed}', options, data, both)}")
    return len(seeds) - len(told), told


def main(program, what, first, count):
    tally, seeds = Tally(), range(int(first), int(first) + int(count))
    with ProcessPoolExecutor(int(os.environ.get("JOBS", "2"))) as pool:
        parts = [seeds[place:place + PART] for place in range(0, len(seeds), PART)]
        for task in [pool.submit(attacked, program, what, part) for part in parts]:
            passed, told = task.result()
            tally.passed += passed
            for name in told:
                tally.holds(name, False)
    tally.end()


if __name__ == "__main__":
    main(*sys.argv[1:])
