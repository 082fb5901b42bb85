#!/usr/bin/env python3
"""translate.py SESSION FOLDER: writes the session for each peer into the folders sqlite, postgres and gringo of the folder.

The same relations, mappings, base and updates. Where the program would ask, the translations expand, as the recorded answers of these
sessions do. A deletion that a mapping would carry further is refused, since the triggers repair only insertions.
"""
import sys
from pathlib import Path

sys.dont_write_bytecode = True
sys.path.insert(0, str(Path(__file__).resolve().parents[2] / 'tests'))

import gringo                                   # noqa: E402
import postgres                                 # noqa: E402
import sqlite                                   # noqa: E402
from oracle.checks import read_session          # noqa: E402
from sql import text_columns                    # noqa: E402


def refuse_far_deletions(session):
    deleted = {update.operation[1][0] for update in session.updates if update.operation[0] == 'delete'}
    if deleted & {r for mapping in session.mappings for r, _ in mapping.right}:
        sys.exit('translate.py: a mapping would carry a deletion further')


def write(folder, files):
    folder.mkdir(parents=True, exist_ok=True)
    for name, lines in files:
        (folder / name).write_text(''.join(line + '\n' for line in lines))


def main():
    session, folder = read_session(Path(sys.argv[1]).read_bytes()), Path(sys.argv[2]).resolve()
    refuse_far_deletions(session)
    texts = text_columns(session)
    write(folder / 'sqlite', sqlite.files(session, texts))
    write(folder / 'postgres', postgres.files(session, texts, folder / 'postgres'))
    write(folder / 'gringo', gringo.files(session))


main()
