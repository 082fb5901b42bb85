"""Tables as text, by the width of letters on a screen."""
import re
import unicodedata

from .printing import control, quoted, show_value


# Characters that are not assigned are narrow, but for those that ideographs will take.
WIDE = ((0x3400, 0x4DBF), (0x4E00, 0x9FFF), (0xF900, 0xFAFF), (0x20000, 0x2FFFD), (0x30000, 0x3FFFD))


def width(s):
    n = 0
    for ch in s:
        if unicodedata.category(ch) == "Cn":
            n += 2 if any(low <= ord(ch) <= high for low, high in WIDE) else 1
            continue
        if unicodedata.combining(ch) or unicodedata.category(ch) in ("Cf", "Mn", "Me"):
            continue
        n += 2 if unicodedata.east_asian_width(ch) in "WF" else 1
    return n


def pad(s, w, right=False):
    return " " * (w - width(s)) + s if right else s + " " * (w - width(s))


PLAIN = re.compile(r"-?[0-9]+\Z|\?")


def cell(v):
    """A value in a table: a text has no quotes if it cannot be taken for anything else."""
    if v[0] != 1:
        return show_value(v)
    s = v[1].decode()
    if s == "" or s != s.strip() or PLAIN.match(s) or any(control(ch) or ch in '"\\' for ch in s):
        return quoted(v[1])
    return s


def table(columns, rows):
    """Aligned lines; a column of numbers is aligned to the right."""
    cells = [[cell(v) for v in row] for row in rows]
    right = [bool(rows) and all(row[i][0] == 0 for row in rows) for i in range(len(columns))]
    ws = [max([width(columns[i])] + [width(r[i]) for r in cells]) for i in range(len(columns))]
    line = lambda r: "  ".join(pad(x, w, k) for x, w, k in zip(r, ws, right)).rstrip()
    return [line(columns), "  ".join("-" * w for w in ws)] + [line(r) for r in cells]
