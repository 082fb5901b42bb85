"""Runs yt and its reference on workspaces of their own, and tells what a file stands for."""
import os
import random
import shutil
import sys
import tempfile
from pathlib import Path

from running import TESTS, Tally, end_of, file_of, taken_from  # noqa: F401

from oracle.yt import text as T                    # noqa: E402
from oracle.yt.program import main as reference    # noqa: E402
from oracle.yt.scripts import random_script        # noqa: E402
from oracle.yt.workspace import Workspace          # noqa: E402

os.environ.update(YT_TIME="2026-11-30T09:00:00Z", YT_CURATOR="ann", LC_ALL="C.UTF-8")
LOOKS = b"show\nlog\nquestions\nviolations\nstatus\n"
NEVER = "there is no file"
# Known differences between yt and the reference count only with STRICT in the environment, in `guided`: of a forged file with
# several faults another one is first, or none.
STRICT = "STRICT" in os.environ


def yt(program, words, data=b"", **environment):
    """The status of yt, and the bytes on both streams."""
    files = [file_of(data), file_of(b""), file_of(b"")]
    actions = [(os.POSIX_SPAWN_DUP2, file, place) for place, file in enumerate(files)]
    run = os.posix_spawn(program, [program, *words], {**os.environ, **environment}, file_actions=actions)
    return ended(run, files)


def by_reference(words, data=b""):
    """The status of the reference, and the bytes on both streams, in a process of its own."""
    files = [file_of(data), file_of(b""), file_of(b"")]
    run = os.fork()
    if run == 0:
        code = 99
        try:
            for place, file in enumerate(files):
                os.dup2(file, place)
            for place, mode in enumerate("rww"):
                stream = os.fdopen(os.dup(place), mode, encoding="utf-8", errors="surrogateescape")
                setattr(sys, ("stdin", "stdout", "stderr")[place], stream)
            code = reference(list(words))
            sys.stdout.flush()
            sys.stderr.flush()
        finally:
            os._exit(code)
    return ended(run, files)


def ended(run, files):
    status = end_of(run)
    told = status, taken_from(files[1]), taken_from(files[2])
    os.close(files[0])
    return told


class Bench:
    """A folder for workspaces, and what the reference reads in them. It is deleted when the test ends."""

    def __init__(self, program, *options):
        self.program, self.options, self.read = program, ["--keep-going", *options], {}
        self.folder = os.path.realpath(tempfile.mkdtemp(prefix="workspace-"))

    def __enter__(self):
        return self

    def __exit__(self, *_):
        shutil.rmtree(self.folder, ignore_errors=True)

    def path(self, name):
        return os.path.join(self.folder, name)

    def stands_for(self, file):
        """The answer of the reference to a file, by its bytes. The copy has always the same name, because `status` prints it."""
        if not os.path.exists(file):
            return NEVER
        data = Path(file).read_bytes()
        if data not in self.read:
            copy = self.path("copy.yt")
            Path(copy).write_bytes(data)
            self.read[data] = by_reference([*self.options, copy], LOOKS)
        return self.read[data]

    def states(self, lines):
        """What the file stands for before the first of the lines and after each, by the reference; and the last file."""
        file = self.path("reference.yt")
        if os.path.exists(file):
            os.unlink(file)
        workspace, states = Workspace(file, "ann"), [NEVER]
        for line in lines:
            workspace.command(line)
            states.append(self.stands_for(file))
        return states


def command_list(bench, seed):
    """Random commands, one of them a fold: the tables, and a part of what follows."""
    rng, drawn = random.Random(seed), bench.path("drawn.yt")
    if os.path.exists(drawn):
        os.unlink(drawn)
    lines = [line for line in random_script(seed, Workspace(drawn, "ann")) if "#" not in line]
    lines = lines[:2] + lines[4:16]
    lines.insert(rng.randrange(4, len(lines)), "fold")
    return lines
