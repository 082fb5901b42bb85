#!/usr/bin/env python3
"""gate.py [LANES] [CRATE..]: the cost of each crate in the gate, in processor seconds: its proof with its tests, and its edits.

Each crate, or each crate that is named and the crates below it, is proved from nothing in a copy of the repository that has the
proved libraries below it and nothing else that was kept. Then its must-fail edits are tried in another such copy, as the gate
does, by `rt must-fail`. So each figure is of one crate alone. Crates with the longest chain above them go first, and edits fill
the time that proofs leave free. The table goes to standard output as lines of Markdown, most expensive first, with a line of
sums. Failures go to standard error, with the end of the log, and the status is then 1.
"""
import os
import re
import shutil
import subprocess
import sys
import tempfile
from concurrent.futures import FIRST_COMPLETED, ThreadPoolExecutor, wait
from pathlib import Path

ROOT = os.path.dirname(os.path.dirname(os.path.abspath(__file__)))


def below(root):
    """The crates of crates.txt, each with the crates of the repository that it stands on."""
    lines = [line.split("#")[0].strip() for line in open(f"{root}/crates.txt", encoding="utf-8")]
    parts = [line.split(":", 1) for line in lines if line]
    found = {head.split()[0]: rest.split() for head, rest in parts}
    return {crate: [it for it in rest if it in found] for crate, rest in found.items()}


def copy_of(scratch, kind, crate):
    """A copy of the repository with the libraries proved so far; to try edits, also with the must-fail edits of the crate."""
    copy = f"{scratch}/{kind}-{crate}"
    shutil.copytree(f"{scratch}/bare", copy, symlinks=True)
    for library in os.listdir(f"{scratch}/proved"):
        shutil.copytree(f"{scratch}/proved/{library}", f"{copy}/crates/{library}/out/rlib", copy_function=os.link)
    if kind == "edits":
        shutil.copytree(f"{ROOT}/crates/{crate}/must-fail", f"{copy}/crates/{crate}/must-fail")
    return copy


def seconds(folder, *commands):
    """The processor seconds of the commands, run there in turn, and the output of the one that failed."""
    code = "import resource,subprocess,sys\n" \
        "with open(sys.argv[1], 'w') as log: s = max(subprocess.call(it.split(), stdout=log, stderr=log) for it in sys.argv[2:])\n" \
        "u = resource.getrusage(resource.RUSAGE_CHILDREN); print(u.ru_utime + u.ru_stime); sys.exit(s)"
    with tempfile.NamedTemporaryFile("r", suffix=".log") as log:
        run = subprocess.run([sys.executable, "-c", code, log.name, *commands], cwd=folder, capture_output=True, text=True)
        return float(run.stdout.split()[-1]), "" if run.returncode == 0 else log.read()[-3000:]


def has_tests(folder):
    """Whether the crate has tests, which are proved once more with it."""
    return any(re.search(r"#\[test\]", file.read_text()) for file in Path(f"{folder}/src").rglob("*.rt"))


def proves(scratch, crate):
    """Processor seconds of the crate's proof and of its tests; a library is kept for the crates above it."""
    copy = copy_of(scratch, "proof", crate)
    folder = f"{copy}/crates/{crate}"
    is_library = os.path.exists(f"{folder}/src/lib.rt")
    commands = ["rt lib --jobs 1" if is_library else "rt check --jobs 1"] + ["rt test --jobs 1"] * has_tests(folder)
    took = seconds(folder, *commands)
    if is_library and os.path.isdir(f"{folder}/out/rlib"):
        os.rename(f"{folder}/out/rlib", f"{scratch}/proved/{crate}")
    shutil.rmtree(copy)
    return took


def tries(scratch, crate):
    """Processor seconds of the crate's edits."""
    copy = copy_of(scratch, "edits", crate)
    took = seconds(copy, f"rt must-fail {crate}")
    shutil.rmtree(copy)
    return took


def edits_of(root, crate):
    """The number of the crate's must-fail edits."""
    folder = f"{root}/crates/{crate}/must-fail"
    return len([it for it in os.listdir(folder) if it.endswith(".edit")]) if os.path.isdir(folder) else 0


def chains(stands, wanted):
    """For each crate the length of the longest chain of crates above it."""
    above = {}

    def of(crate):
        if crate not in above:
            above[crate] = max([1 + of(it) for it in wanted if crate in stands[it]], default=0)
        return above[crate]

    return {it: of(it) for it in wanted}


def wanted_of(stands, words):
    """The crates of these names and the crates below them; all crates if there is no name."""
    wanted = set(words or stands)
    while any(it not in wanted for crate in wanted for it in stands[crate]):
        wanted |= {it for crate in wanted for it in stands[crate]}
    return wanted


def run_all(lanes, stands, wanted, scratch):
    """Runs proofs and edits side by side, prints each as it ends, and returns the figures by crate and the failures."""
    behind, figures, failed = chains(stands, wanted), {}, []
    proofs = sorted(wanted, key=lambda it: -behind[it])
    edits, done, running = [], set(), {}
    with ThreadPoolExecutor(lanes) as pool:
        while proofs or edits or running:
            ready = [("proof", it) for it in proofs if all(low in done for low in stands[it])] + [("edits", it) for it in edits]
            for kind, crate in ready[:lanes - len(running)]:
                (proofs if kind == "proof" else edits).remove(crate)
                running[pool.submit(proves if kind == "proof" else tries, scratch, crate)] = kind, crate
            if not running:
                break
            for it in wait(running, return_when=FIRST_COMPLETED).done:
                kind, crate = running.pop(it)
                took, fault = it.result()
                print(f"{crate}: {kind} {took:.0f}{'  FAILED' if fault else ''}", file=sys.stderr, flush=True)
                figures[kind, crate] = took
                if fault:
                    failed.append(crate)
                    print(fault, file=sys.stderr, flush=True)
                elif kind == "proof":
                    done.add(crate)
                    edits += [crate] if edits_of(ROOT, crate) else []
    return figures, failed + proofs


def main():
    words = sys.argv[1:]
    lanes = int(words.pop(0)) if words and words[0].isdigit() else 1
    stands = below(ROOT)
    wanted = wanted_of(stands, words)
    with tempfile.TemporaryDirectory(prefix="gate-") as scratch:
        shutil.copytree(ROOT, f"{scratch}/bare", ignore=shutil.ignore_patterns("out", ".git", "must-fail"), symlinks=True)
        os.mkdir(f"{scratch}/proved")
        figures, failed = run_all(lanes, stands, wanted, scratch)
    rows = [(figures.get(("proof", it), 0), edits_of(ROOT, it), figures.get(("edits", it), 0), it) for it in wanted]
    print("| Crate | Proof and tests | Edits | Theirs | Together |\n|---|---|---|---|---|")
    for proof, edits, theirs, crate in sorted(rows, key=lambda row: -row[0] - row[2]):
        print(f"| `{crate}` | {proof:.0f} | {edits} | {theirs:.0f} | {proof + theirs:.0f} |")
    proof, edits, theirs = (sum(row[at] for row in rows) for at in range(3))
    print(f"| all, in minutes | {proof / 60:.1f} | {edits} | {theirs / 60:.1f} | {(proof + theirs) / 60:.1f} |")
    print(*(f"{it}: failed, or not reached" for it in failed), sep="\n", file=sys.stderr)
    return 1 if failed else 0


if __name__ == "__main__":
    sys.exit(main())
