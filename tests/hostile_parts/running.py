"""Runs the program as a test wants it, and counts what it told rightly."""
import os
import resource
import select
import signal
import subprocess
import sys
from pathlib import Path

sys.dont_write_bytecode = True
sys.setrecursionlimit(10000)
sys.set_int_max_str_digits(0)
TESTS = Path(__file__).resolve().parent.parent
sys.path.insert(0, str(TESTS))

from oracle.commands import youtopia     # noqa: E402

SHOWN = 200
DEADLINE = 300      # seconds after which a program hangs
SERVED = 500        # inputs of one process


def file_of(data):
    """A file in memory with these bytes, at its beginning."""
    file = os.memfd_create("file")
    place = 0
    while place < len(data):
        place += os.write(file, data[place:])
    os.lseek(file, 0, os.SEEK_SET)
    return file


def taken_from(file):
    os.lseek(file, 0, os.SEEK_SET)
    with open(file, "rb") as opened:
        return opened.read()


def end_of(run):
    """The status of a run, which is killed where it hangs; below 0 where a signal ended it."""
    ending = os.pidfd_open(run)
    if not select.select([ending], [], [], DEADLINE)[0]:
        os.kill(run, signal.SIGKILL)
    os.close(ending)
    return os.waitstatus_to_exitcode(os.waitpid(run, 0)[1])


def told_by(program, words, data, **environment):
    """The status and what both streams took."""
    files = [file_of(data), file_of(b""), file_of(b"")]
    actions = [(os.POSIX_SPAWN_DUP2, file, place) for place, file in enumerate(files)]
    run = os.posix_spawn(program, [program, *words], {**os.environ, **environment}, file_actions=actions)
    status = end_of(run)
    os.close(files[0])
    return status, taken_from(files[1]), taken_from(files[2])


def served(program, shim, words, inputs):
    """The status and what out took for each of these inputs, some by each process. The shim is served.c, compiled."""
    parts = (inputs[place:place + SERVED] for place in range(0, len(inputs), SERVED))
    return [end for part in parts for end in served_at_once(program, shim, words, part)]


def served_at_once(program, shim, words, inputs):
    asked = b"".join(len(data).to_bytes(4, sys.byteorder) + data for data in inputs)
    status, told, _ = told_by(program, words, asked, LD_PRELOAD=shim, SERVED="1")
    place, ends = 0, []
    while place < len(told):
        ending, size = (int.from_bytes(told[at:at + 4], sys.byteorder) for at in (place, place + 4))
        ends.append((ending, told[place + 8:place + 8 + size]))
        place += 8 + size
    assert (status, len(ends)) == (0, len(inputs)), (status, len(ends))
    return ends


def told_within(program, words, data, megabytes, seconds):
    """The same under limits of memory and of processor time."""
    def limit():
        resource.setrlimit(resource.RLIMIT_AS, (megabytes << 20,) * 2)
        resource.setrlimit(resource.RLIMIT_CPU, (seconds,) * 2)
        resource.setrlimit(resource.RLIMIT_CORE, (0, 0))
    run = subprocess.run([program, *words], input=data, capture_output=True, preexec_fn=limit, timeout=DEADLINE)
    return run.returncode, run.stdout, run.stderr


def short(bytes_):
    return bytes_ if len(bytes_) <= SHOWN else bytes_[:SHOWN] + b".. %d bytes" % len(bytes_)


class Tally:
    """Counts, and tells of each failure."""

    def __init__(self):
        self.passed, self.failed = 0, 0

    def compare(self, name, wanted, told):
        if wanted == told:
            self.passed += 1
            return
        self.failed += 1
        print(f"FAILED {name}: status {told[0]}, {short(told[1])}, {short(told[2])}")
        print(f"  in the place of status {wanted[0]}, {short(wanted[1])}, {short(wanted[2])}")

    def holds(self, name, is_so):
        self.passed += is_so
        self.failed += not is_so
        if not is_so:
            print(f"FAILED {name}")

    def end(self):
        print(f"{self.passed} passed, {self.failed} failed")
        sys.exit(self.failed > 0)
