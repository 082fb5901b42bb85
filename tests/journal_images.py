#!/usr/bin/env python3
"""tests/journal_images.py [PROGRAM [FIRST COUNT]]: what a crash may leave at each moment of appends, recovered by the program.

The program writes a journal of three commits, or of COUNT random sessions, one journal each. From the journal without a commit
on, each commit is then appended by the four calls of an append: the record after the gate, a sync, the gate, a sync. After each
call every image is made that a crash may leave then. If no write is open the image is what is synced. Otherwise the file ends at
each place from its old end on, and the open range holds zeros, ones, its old bytes, random bytes, or the new bytes up to any
place and one of these from there on. The gate takes each of its 256 values. Once the file ends at the gate, and once stale bytes
stand after it, with an old record among them. Each image must be recovered to the commits before or to the commits with the new
one, and after the last sync to the latter. JOBS in the environment is the number of processes. The last line is 'N passed, M
failed'.
"""
import os
import random
import subprocess
import sys
import tempfile
from concurrent.futures import ProcessPoolExecutor
from pathlib import Path

sys.path.insert(0, str(Path(__file__).resolve().parent / "hostile_parts"))

from running import TESTS, served, told_by           # noqa: E402
from oracle.commands import youtopia                 # noqa: E402
from oracle.printing import session_text             # noqa: E402
from oracle.sessions import random_session           # noqa: E402

PROGRAM = TESTS.parent / "crates" / "youtopia" / "out" / "youtopia"
SESSION = b"""youtopia 1
relation A 1
relation B 2
mapping m: A(x) -> B(x, z)
base A(7)
base B(7, 7)
update a ann insert A(1)
update b ann delete A(7)
update c ann insert B(2, "x")
end
"""


def frames_of(journal):
    """The payloads with their lengths."""
    frames, place = [], 0
    while place + 1 < len(journal):
        end = place + 4 + int.from_bytes(journal[place:place + 4], "big")
        frames.append(journal[place:end])
        place = end + 1
    return frames


def over(data, place, part):
    return data[:place] + part + data[place + len(part):]


def fills(rng, old, new):
    """What an open range may hold; some of many possibilities."""
    size = len(new)
    kinds = [bytes(size), b"\1" * size, b"\xff" * size, (old + bytes(size))[:size], rng.randbytes(size)]
    return kinds + [new[:cut] + kind[cut:] for kind in kinds for cut in range(1, size + 1)]


def images(rng, stable, place, new):
    """The images that a crash may leave of these bytes while the new bytes are written at the place."""
    made = set()
    for fill in fills(rng, stable[place:place + len(new)], new):
        whole = over(stable, place, fill) + rng.randbytes(2)
        made.update(whole[:end] for end in range(len(stable), len(whole) + 1))
    if len(new) == 1:
        made.update(over(stable, place, bytes([gate])) for gate in range(256))
    return sorted(made)


class Attack:
    """The images of the journal of one session, each with what may be recovered of it."""

    def __init__(self, program, session, seed):
        self.rng, self.expected = random.Random(seed), []
        self.first, *self.records = frames_of(told_by(program, ["journal"], session)[1])
        known = (b"\1".join([self.first, *self.records[:count]]) + b"\0" for count in range(len(self.records) + 1))
        self.told = [youtopia(["recover"], data)[1] for data in known]

    def expect(self, image, allowed):
        self.expected.append((image, allowed))

    def appends(self, disk):
        """Appends each record to the bytes on the disk."""
        gate = len(self.first)
        for count, record in enumerate(self.records):
            before, either, after = self.told[count:count + 1], self.told[count:count + 2], self.told[count + 1:count + 2]
            self.expect(disk, before)
            for place, new in ((gate + 1, record + b"\0"), (gate, b"\1")):
                for image in images(self.rng, disk, place, new):
                    self.expect(image, either if place == gate else before)
                disk = over(disk, place, new)
                self.expect(disk, after if place == gate else before)
            gate += 1 + len(record)

    def draw(self):
        self.appends(self.first + b"\0")
        self.appends(self.first + b"\0" + b"\1".join([*self.records[:2], b"commit"]))
        return self.expected


def attacked(program, shim, seed):
    """How many images of this seed's session, or without one of that above, are recovered rightly, and what is told of the others."""
    session = session_text(random_session(random.Random(seed), 300).session) if seed else SESSION
    expected = Attack(program, session, seed).draw()
    ends = served(program, shim, ["recover"], [image for image, _ in expected])
    wrong = [(image, status) for (image, allowed), (status, out) in zip(expected, ends) if status or out not in allowed]
    return len(expected) - len(wrong), [f"seed {seed}, status {status}, not what it may be: {image.hex()}" for image, status in wrong]


def compiled(folder):
    """The library that runs a program on many inputs."""
    shim = os.path.join(folder, "served.so")
    source = TESTS / "hostile_parts" / "served.c"
    subprocess.run(["cc", "-O2", "-Wall", "-shared", "-fPIC", "-o", shim, source], check=True)
    return shim


def main(program=PROGRAM, first="0", count="1"):
    passed = failed = 0
    with ProcessPoolExecutor(int(os.environ.get("JOBS", "2"))) as pool, tempfile.TemporaryDirectory() as folder:
        shim = compiled(folder)
        seeds = range(int(first), int(first) + int(count))
        for task in [pool.submit(attacked, os.path.realpath(program), shim, seed) for seed in seeds]:
            made, failures = task.result()
            passed, failed = passed + made, failed + len(failures)
            print("".join(failure + "\n" for failure in failures), end="", flush=True)
    print(f"{passed} passed, {failed} failed")
    sys.exit(failed > 0)


if __name__ == "__main__":
    main(*sys.argv[1:])
