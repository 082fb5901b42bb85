#!/usr/bin/env python3
"""conversations.py FOLDER [cheap]: writes a row into the folder for each conversation with yt_live that is to be attacked.

These are the conversations of tests/live, the one of docs/LIVE.md, and random ones. A row has the answers of the reference, and a
file `replied`: a line 'IN OUT' for each line of the input, where OUT bytes are the replies to its first IN bytes.
"""
import random
import sys
from pathlib import Path

from running import TESTS     # makes the reference known

from oracle.audit import session_end
from oracle.conversations import conversation
from oracle.live import curate
from pages.blocks import blocks_of

PAGE = TESTS.parent / "docs" / "LIVE.md"
SHORT = 800     # bytes


def of_the_page():
    """The page's session, and after it the lines that its curators typed."""
    sessions = [lines for _, words, lines in blocks_of(PAGE.read_text()) if words[:1] == ["session"]]
    return "".join(line + "\n" for lines in sessions for line in lines).encode()


def stored():
    """The stored conversations, by name."""
    found = {row.name: (row / "lines").read_bytes() for row in sorted((TESTS / "live").iterdir())}
    return found | {"the-page": of_the_page()}


def conversations(cheap):
    """The conversations by name; if cheap, only short ones."""
    found = stored() | {f"random-{seed}": conversation(random.Random(seed)) for seed in range(12)}
    return {name: data for name, data in found.items() if not cheap or len(data) <= SHORT}


def replied(data):
    """The places after each line feed, with the length of the replies so far; before the session's end there is no reply."""
    end = session_end(data) or len(data)
    for place in [0, *(place + 1 for place, byte in enumerate(data) if byte == 10)]:
        yield place, len(curate([], data[:place])[1]) if place >= end else 0


def main():
    folder, cheap = Path(sys.argv[1]), len(sys.argv) > 2
    for name, data in conversations(cheap).items():
        row = folder / f"live-{name}"
        row.mkdir()
        status, out, err = curate([], data)
        texts = {"session": data, "words": b"", "out": out, "err": err, "status": b"%d\n" % status,
                 "replied": b"".join(b"%d %d\n" % pair for pair in replied(data))}
        for part, text in texts.items():
            (row / part).write_bytes(text)


if __name__ == "__main__":
    main()
