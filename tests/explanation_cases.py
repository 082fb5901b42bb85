#!/usr/bin/env python3
"""Writes the stdin and the stdout of crates/try_explanation: the sessions of the rows, and the right explanations.

The reference alone decides which explanations are right: a list of reasons is accepted exactly if it is not empty and is the
reference's explanation of its first tuple. Each explanation of a tuple that a run leaves is broken at each of its reasons in each
way.
"""
import sys
from pathlib import Path

sys.dont_write_bytecode = True
sys.path.insert(0, str(Path(__file__).resolve().parent))

from oracle.checks import read_session  # noqa: E402
from oracle.explain import explain  # noqa: E402
from oracle.serial import serial    # noqa: E402

TESTS = Path(__file__).resolve().parent
STEPS = 100

# Rows with different sessions, whose bases meet their mappings.
ROWS = """
added-mapping already-there ask ask-null ask-stuck ask-travel budget-unify cascade conflict-abort explain
explain-image-unified explain-last-put format-2-upgrade journal-empty negative-frontier-misfit
negative-frontier-one one-repair refused-null repeated-variable replace-merges taken-null two-inserts unifier-cycle
"""


def with_step(reason):
    t, origin, how = reason
    return t, origin and (origin[0], origin[1] ^ 1), how


def with_mapping(reason):
    t, origin, how = reason
    return t, origin, ("generated", how[1] ^ 1, how[2]) if how[0] == "generated" else how


def with_image(reason):
    t, origin, how = reason
    return t, origin, ("generated", how[1], how[2][:-1]) if how[0] == "generated" else how


def at(change):
    return lambda reasons, i: reasons[:i] + [change(reasons[i])] + reasons[i + 1:]


WAYS = {
    "dropped": lambda reasons, i: reasons[:i] + reasons[i + 1:],
    "doubled": lambda reasons, i: reasons[:i] + reasons[i:i + 1] + reasons[i:],
    "moved": lambda reasons, i: reasons[:i] + reasons[i:i + 2][::-1] + reasons[i + 2:],
    "step": at(with_step),
    "mapping": at(with_mapping),
    "image": at(with_image),
}


def sessions():
    """The texts of the rows, and the sessions that they stand for."""
    for name in ROWS.split():
        text = (TESTS / "rows" / name / "session").read_bytes()
        yield text, read_session(text)


def told(session):
    """The lines of a session."""
    def said(reasons):
        return "taken" if reasons and explain(session, STEPS, reasons[0][0]) == reasons else "refused"

    for number, t in enumerate(serial(session, STEPS).repository, 1):
        whole = explain(session, STEPS, t)
        yield f"{number} whole {said(whole)}"
        for place in range(len(whole)):
            yield from (f"{number} {name} {place} {said(way(whole, place))}" for name, way in WAYS.items())


def main():
    texts, lines = [], []
    for text, session in sessions():
        texts.append(text)
        lines += ["session", *told(session)]
    crate = TESTS.parent / "crates" / "try_explanation"
    (crate / "stdin").write_bytes(b"".join(texts))
    (crate / "stdout").write_text("".join(line + "\n" for line in lines))
    print(f"{sum(line.endswith('refused') for line in lines)} refused, {sum(line.endswith('taken') for line in lines)} taken")


if __name__ == "__main__":
    main()
