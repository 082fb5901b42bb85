#!/usr/bin/env python3
"""workspace_guided.py YT GUIDED KIND COUNT: COUNT inputs of a kind by AFL++, which goes on from inputs that reach new branches of
yt.

GUIDED is yt built without proof, with its branches counted, and with guided.c, which defines the inputs of each KIND and what
must hold. COMPARED inputs that reach a new branch, or all if there are fewer, are given to YT, whose answer must be the
reference's. Failures are kept, and their folder is printed. In the environment: JOBS fuzzers; AT_MOST, the seconds after which
the fuzzers end even if fewer inputs were made. The last line is 'N passed, M failed'.
"""
import os
import random
import re
import resource
import shutil
import signal
import subprocess
import sys
import tempfile
import time
from concurrent.futures import ProcessPoolExecutor
from functools import partial
from pathlib import Path

from workspace_forged import file_of, texts_of
from workspace_fuzz import BEGIN, differing
from workspace_garbled import CELLS, OPTIONS, WORDS, garbled_file
from workspace_runs import LOOKS, STRICT, Bench, Tally, Workspace, by_reference, random_script, yt
from workspace_verbs import LINES

ENVIRONMENT = {"AFL_NO_UI": "1", "AFL_NO_AFFINITY": "1", "AFL_SKIP_CPUFREQ": "1", "AFL_I_DONT_CARE_ABOUT_MISSING_CRASHES": "1"}
SEEDS, LONGEST, MOST_WORDS, MOST_RECORDS = 30, 8000, 40, 200
MILLISECONDS = "20000+"     # after which an input counts as hanging; guided.c uses seconds of processor time
TOGETHER = 20000            # inputs of one process
COMPARED = 2000             # inputs of each kind that are compared with the reference
PATIENCE = 10               # seconds of processor for the reference
AT_MOST = os.environ.get("AT_MOST", "")
NOT_UTF_8 = re.compile("[\udc80-\udcff]")
BEGUN = "".join(line + "\n" for line in BEGIN).encode()


# ---- what an input of each kind is, as guided.c has it: files, and runs by these words with these lines ----

def of_script(data):
    return {}, [(["--no-files", "--keep-going", "w.yt"] + ["--json"] * data.startswith(b"# json"), data)]


def of_file(data):
    line, end, rows = data.partition(b"\n")
    name, blank, options = line.partition(b"\0")[0].partition(b" ")
    load = b"load " + name + b" rows.csv" + blank + options + b"\n"
    return ({"rows.csv": rows}, [(["--keep-going", "w.yt"], BEGUN + load + LOOKS)]) if end and len(line) <= 200 else None


def of_workspace(data):
    return {"w.yt": data}, [(["--json", "--keep-going", "w.yt"], LOOKS)]


def of_records(data):
    return of_workspace(file_of(data.split(b"\0")[:MOST_RECORDS]))


def of_words(data):
    """Whether no word leads out of the folder. Words that are not UTF-8 count only with STRICT."""
    words = [os.fsdecode(word) for word in data.partition(b"\0")[0].split(b"\n")[:MOST_WORDS]]
    if b"/" in data or not STRICT and NOT_UTF_8.search("".join(words)):
        return None
    return {"rows.csv": b"x,y\n1,2\n"}, [(["w.yt"], BEGUN + b'insert B("b", ?, 3)\n'), (words, LOOKS)]


# ---- seeds ----

def scripts(bench):
    """Random scripts, some of them long, and commands of every verb."""
    for seed in range(SEEDS):
        drawn = bench.path("drawn.yt")
        Path(drawn).unlink(missing_ok=True)
        lines = random_script(seed, Workspace(drawn, "ann"))
        yield "\n".join(["# json"] * (seed % 2) + lines[:random.Random(seed).choice([8, 12, 20, 99])] + [""]).encode()
    yield from ["".join(line + "\n" for line in [head, *LINES.split("\n")] if "FOLDER" not in line).encode() for head in ("# json", "#")]


def loads(_):
    rng = random.Random(1)
    for _ in range(4 * SEEDS):
        options = " ".join(rng.sample(OPTIONS, rng.choice([0, 1, 2])))
        yield f"{rng.choice('ABC')} {options}\n".encode() + garbled_file(rng)[:LONGEST]


def workspaces(bench):
    for data in scripts(bench):
        path = bench.path("w.yt")
        Path(path).unlink(missing_ok=True)
        yt(bench.program, ["--keep-going", path], data)
        yield Path(path).read_bytes()


def records(bench):
    return (b"\0".join(texts_of(data)) for data in workspaces(bench))


def command_lines(_):
    lines = [line.replace("FOLDER/", "") for line in LINES.split("\n")] + ["--version", "--as bob --wait 0 insert A(1, 2)"]
    return ("\n".join([*["--json"] * (number % 2), "w.yt", *line.split(" ")]).encode() for number, line in enumerate(lines))


KINDS = {"scripts": (of_script, scripts), "files": (of_file, loads), "records": (of_records, records),
         "workspaces": (of_workspace, workspaces), "words": (of_words, command_lines)}


# ---- the fuzzers ----

def write_tokens(path):
    """The words of the grammar, which AFL++ puts into inputs."""
    tokens = {token.encode()[:100] for token in [*WORDS, *CELLS, *" ".join(OPTIONS).split()] if token}
    lines = ('"%s"\n' % "".join(f"\\x{byte:02x}" for byte in token) for token in sorted(tokens))
    Path(path).write_text("".join(lines))


def begun(bench, guided, kind, count, job):
    """One fuzzer of COUNT inputs. It takes over the finds of the others."""
    words = ["afl-fuzz", "-i", bench.path("seeds"), "-o", bench.path("found"), "-x", bench.path("tokens"), "-S" if job else "-M", f"job{job}"]
    words += ["-G", str(LONGEST), "-t", MILLISECONDS, "-m", "none", "-E", str(count), *["-V", AT_MOST] * bool(AT_MOST)]
    words += ["--", guided, f"-{TOGETHER}"]
    with open(bench.path(f"told{job}"), "wb") as told:
        return subprocess.Popen(words, env={**os.environ, **ENVIRONMENT, "KIND": kind, "TMPDIR": bench.folder}, stdout=told, stderr=told)


def fuzzed(bench, guided, kind, count, jobs):
    """The number of inputs made, the failed inputs, and the inputs of new branches."""
    os.mkdir(bench.path("seeds"))
    for number, data in enumerate(KINDS[kind][1](bench)):
        Path(bench.path("seeds"), str(number)).write_bytes(data[:LONGEST])
    write_tokens(bench.path("tokens"))
    for run in [begun(bench, guided, kind, -(-count // jobs), job) for job in range(jobs)]:
        run.wait()
    found = Path(bench.path("found"))
    stats = [dict(map(str.strip, line.split(":", 1)) for line in place.open()) for place in found.glob("job*/fuzzer_stats")]
    if not stats:
        print(Path(bench.path("told0")).read_text()[-1000:])
        return 0, [], []
    print(f"{kind}: {max(int(stat['edges_found']) for stat in stats)} of {stats[0]['total_edges']} branches")
    crashes, hangs, queue = ({place.read_bytes() for place in found.glob(f"job*/{name}/id:*")} for name in ("crashes", "hangs", "queue"))
    failing = [*faults(bench, guided, kind, crashes, hangs)]
    return sum(int(stat["execs_done"]) for stat in stats), failing, sorted(queue)


def faults(bench, guided, kind, crashes, hangs):
    """Each failed input, with the reason. An input passes that takes a second only because branches are counted, or hangs only
    beside others."""
    for data in sorted(crashes | hangs):
        told = fault_alone(bench, guided, kind, data)
        if told and not ("a second" in told and not is_slow(bench, kind, data)) or not told and data in crashes:
            yield data, told or "only after others"


def fault_alone(bench, guided, kind, data):
    """The words of guided.c about an input by itself; nothing if the input passes."""
    Path(bench.path("alone")).write_bytes(data)
    told = subprocess.run([guided, bench.path("alone")], env={**os.environ, "KIND": kind, "TMPDIR": bench.folder}, capture_output=True)
    if told.returncode == 0:
        return ""
    lines = [line for line in told.stderr.decode().split("\n") if line.startswith("guided: ")]
    return lines[0] if lines else f"ended by {-told.returncode}"


def is_slow(bench, kind, data):
    """Whether yt takes more than a second of processor time for all runs of an input."""
    trial, start = KINDS[kind][0](data), resource.getrusage(resource.RUSAGE_CHILDREN).ru_utime
    if trial:
        told_by(partial(yt, bench.program), bench.path("in"), *trial)
    return not trial or resource.getrusage(resource.RUSAGE_CHILDREN).ru_utime - start > 1


# ---- compared with the reference ----

def told_by(run, folder, files, runs):
    """The output for an input in an empty folder, and afterwards for its workspace."""
    os.mkdir(folder)
    os.chdir(folder)
    for name, data in files.items():
        Path(name).write_bytes(data)
    told = [run(words, lines) for words, lines in [*runs, (["--keep-going", "w.yt"], LOOKS)]]
    os.chdir("/")
    shutil.rmtree(folder)
    return told


def compared(program, kind, data):
    """The folder of an input with different answers, if they differ. Forged records count only with STRICT."""
    trial = KINDS[kind][0](data)
    if trial is None or kind == "records" and not STRICT:
        return None
    resource.setrlimit(resource.RLIMIT_CPU, (int(time.process_time()) + PATIENCE, resource.RLIM_INFINITY))
    with tempfile.TemporaryDirectory() as folder:
        both = [told_by(run, os.path.join(folder, "in"), *trial) for run in (by_reference, partial(yt, program))]
    out_of_time = any(status == -signal.SIGXCPU for status, _, _ in both[0])
    return kept(kind, data, both) if not out_of_time and any(map(differing, *both)) else None


def kept(kind, data, both=()):
    """Puts a failed input into a folder of its own, with the output."""
    place = Path(tempfile.mkdtemp(prefix=f"guided-{kind}-"))
    (place / "input").write_bytes(data)
    for name, told in zip(("reference", "yt"), both):
        (place / name).write_bytes(b"".join(b"status %d\n%s\n--\n%s\n" % part for part in told))
    return place


def main(program, guided, kind, count):
    jobs, tally = int(os.environ.get("JOBS", "2")), Tally()
    program = os.path.realpath(program)
    with Bench(program) as bench:
        made, failing, queue = fuzzed(bench, os.path.realpath(guided), kind, int(count), jobs)
    tally.passed += made - len(failing)
    tally.holds(f"{kind}: only {made} inputs", made >= int(count) or bool(AT_MOST))
    for data, fault in failing:
        tally.holds(f"{kind}: {fault}: {kept(kind, data)}", False)
    some = random.Random(1).sample(queue, min(COMPARED, len(queue)))
    print(f"{kind}: {made} inputs, of which {len(queue)} reached new branches, {len(some)} of them beside the reference", flush=True)
    with ProcessPoolExecutor(jobs) as pool:
        for place in pool.map(partial(compared, program, kind), some, chunksize=10):
            tally.holds(f"{kind}, not as the reference tells it: {place}", place is None)
    tally.end()


if __name__ == "__main__":
    main(*sys.argv[1:])
