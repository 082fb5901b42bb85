#!/usr/bin/env python3
"""desks.py FOLDER: writes a row into the folder for each worked list of calls on a desk, with the answers of the reference."""
import sys
from pathlib import Path

from running import TESTS     # noqa: F401, makes the reference known

from call_cases import desk_rows

for number, (case, lines) in enumerate(desk_rows(), 1):
    row = Path(sys.argv[1]) / f"desk-{number}"
    row.mkdir()
    for name, text in (("session", case), ("words", b""), ("out", b"".join(line + b"\n" for line in lines)), ("err", b""), ("status", b"0\n")):
        (row / name).write_bytes(text)
