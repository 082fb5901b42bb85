#!/usr/bin/env python3
"""Runs the fenced blocks of a page: blocks.py PAGE PROGRAM [plain] [as NAME] prints each block whose output differs.

A block ```session NAME is stored in the file NAME, and a block ```session NAME more goes into that file before its last line. A
block ```console has commands, each after `$ `, and after each command what it writes on both streams. The blocks of a page are
run in turn, in one folder, with PROGRAM as `youtopia` or as NAME, the built `youtopia` and `yt`, and the folder `examples` of the
repository beside them. `yt` takes the time from YT_TIME and the curator from YT_CURATOR, so that it writes the same each time.
Any other block is reported as not run; `plain` allows blocks without a word and shell blocks (```sh).
"""
import os
import subprocess
import sys
import tempfile
from pathlib import Path

ROOT = Path(__file__).resolve().parent.parent.parent


def blocks_of(text):
    """Each fenced block: the line of its fence, the words after the fence, its lines."""
    fence, start, words, lines = False, 0, [], []
    for number, line in enumerate(text.splitlines(), 1):
        if line.startswith("```"):
            if fence:
                yield start, words, lines
            fence, start, words, lines = not fence, number, line[3:].split(), []
        elif fence:
            lines.append(line)


def commands_of(lines):
    """Each command of a console block, with the lines that the page shows for it."""
    commands = []
    for line in lines:
        if line.startswith("$ "):
            commands.append((line[2:], []))
        elif commands:
            commands[-1][1].append(line)
        else:
            commands.append(("false # the block begins without a command", [line]))
    return commands


def store(file, lines, more):
    """Writes the lines, or puts them before the last line of the file."""
    kept = file.read_text().splitlines() if more else []
    file.write_text("".join(line + "\n" for line in kept[:-1] + lines + kept[-1:]))


def written_by(command, folder, environment):
    run = subprocess.run(["bash", "-c", command], cwd=folder, env=environment, text=True,
                         stdout=subprocess.PIPE, stderr=subprocess.STDOUT)
    return run.stdout.splitlines()


def main():
    page, program, plain = Path(sys.argv[1]), Path(sys.argv[2]).resolve(), "plain" in sys.argv[3:]
    name = sys.argv[sys.argv.index("as") + 1] if "as" in sys.argv[3:] else "youtopia"
    failed = False
    with tempfile.TemporaryDirectory() as place:
        folder, tools = Path(place, "page"), Path(place, "tools")
        folder.mkdir()
        tools.mkdir()
        (tools / name).symlink_to(program)
        for other in {"youtopia", "yt"} - {name}:
            (tools / other).symlink_to(ROOT / "crates" / other / "out" / other)
        (folder / "examples").symlink_to(ROOT / "examples")
        environment = {**os.environ, "PATH": f"{tools}:{os.environ['PATH']}", "LC_ALL": "C.UTF-8",
                       "YT_TIME": "2026-11-30T09:00:00Z", "YT_CURATOR": "ann"}
        for number, words, lines in blocks_of(page.read_text()):
            if words[:1] == ["session"] and (len(words) == 2 or words[2:] == ["more"]):
                store(folder / words[1], lines, words[2:] == ["more"])
            elif words == ["console"]:
                for command, said in commands_of(lines):
                    written = written_by(command, folder, environment)
                    if written != said:
                        failed = True
                        print(f"{page}, block at line {number}: $ {command}", *written, sep="\n")
            elif not (plain and words in ([], ["sh"])):
                failed = True
                print(f"{page}, block at line {number}: it is not run")
    sys.exit(failed)


if __name__ == "__main__":
    main()
