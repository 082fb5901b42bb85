#!/usr/bin/env python3
"""workspace.py YT YOUTOPIA: what the commands of `yt` cost over large workspaces, in instructions (callgrind), seconds and memory.

Each workspace is made anew. It prints a line for each command: millions of instructions, seconds of processor, and the greatest
memory of the process. What opening takes is in each of them, since every command is a process of its own. Beside the opening of a
folded workspace stands `check` by YOUTOPIA of the session that `dump` writes.
"""
import os
import re
import resource
import subprocess
import sys
import tempfile

ROWS = 100_000
PEOPLE = "relation Person(number, name, kind)"
# A deletion of B has to choose between A and C, so it waits.
ASKING = ["relation A(x)", "relation B(x)", "relation C(x)", "mapping j: A(x), C(x) -> B(x)"]
LACKING = ["relation S(x)", "relation T(x, y)"]


def made(yt, file, lines):
    """Says these commands to the workspace; one that waits for an answer is well too."""
    ended = subprocess.run([yt, file], input="\n".join(lines) + "\n", text=True, check=False, stdout=subprocess.DEVNULL)
    if ended.returncode not in (0, 1):
        sys.exit(f"{file}: status {ended.returncode}")


def rows(name, header, lines):
    """Writes a file of comma-separated values."""
    with open(name, "w", encoding="utf-8") as out:
        out.write(header + "\n")
        out.writelines(line + "\n" for line in lines)


def instructions(words, given):
    """Millions of instructions that the process takes."""
    callgrind = ["valgrind", "--tool=callgrind", "--callgrind-out-file=/dev/null", *words]
    with open(given, "rb") as file:
        told = subprocess.run(callgrind, stdin=file, capture_output=True, check=False).stderr.decode()
    return int(re.search(r"Collected : (\d+)", told)[1]) / 1e6


def cost(words, given):
    """Seconds of processor and the greatest memory in MB of the process."""
    with open(given, "rb") as file:
        process = subprocess.Popen(words, stdin=file, stdout=subprocess.DEVNULL, stderr=subprocess.DEVNULL)
        _, _, used = os.wait4(process.pid, 0)
    return used.ru_utime + used.ru_stime, used.ru_maxrss / 1024


def told(what, words, given=os.devnull, file=None):
    """Prints what the command costs. Each of its two runs begins with the same file."""
    before = open(file, "rb").read() if file and os.path.exists(file) else None
    seconds, memory = cost(words, given)
    if file:
        os.remove(file)
        if before is not None:
            open(file, "wb").write(before)
    millions = instructions(words, given)
    print(f"{what:45} {millions:10,.0f} million  {seconds:6.2f} s  {memory:5.0f} MB", flush=True)


def main():
    yt, youtopia = map(os.path.abspath, sys.argv[1:3])
    resource.setrlimit(resource.RLIMIT_CORE, (0, 0))
    with tempfile.TemporaryDirectory() as folder:
        os.chdir(folder)
        rows("rows.csv", "number,name,kind", (f"{n},person number {n},kind {n % 50}" for n in range(ROWS)))
        made(yt, "people.yt", [PEOPLE])
        told(f"load {ROWS:,} rows", [yt, "people.yt", "load Person rows.csv"], file="people.yt")
        told("status of them, as they were loaded", [yt, "people.yt", "status"])
        subprocess.run([yt, "people.yt", "fold"], check=True, stdout=subprocess.DEVNULL)
        made(yt, "people.yt", [f'insert Person({ROWS + n}, "one more", "kind")' for n in range(200)])
        told("status, folded, and 200 updates after it", [yt, "people.yt", "status"])
        told("an insertion", [yt, "people.yt", 'insert Person(0, "new", "kind")'], file="people.yt")
        with open("dump.session", "wb") as out:
            subprocess.run([yt, "people.yt", "dump"], check=True, stdout=out)
        told("youtopia check of its dump", [youtopia, "check"], given="dump.session")
        made(yt, "asks.yt", [*ASKING, *(f"insert {name}({n})" for name in "AC" for n in range(500))])
        made(yt, "asks.yt", [f"delete B({n})" for n in range(500)])
        told("questions, 500 waiting", [yt, "asks.yt", "questions"])
        rows("lacking.csv", "x", map(str, range(10_000)))
        made(yt, "lacks.yt", [*LACKING, "load S lacking.csv", "mapping p: S(x) -> T(x, y)"])
        told("adopt, 10,000 violations", [yt, "lacks.yt", "adopt p"], file="lacks.yt")


main()
