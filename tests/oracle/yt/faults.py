"""Faults of a line, and the name that a wrong one may have meant."""


class Fault(Exception):
    """Status 2: the line cannot be read; 3: it does not fit the workspace. `at` is a place in the line or None."""

    def __init__(self, words, at=None, hint=None, status=2, more=()):
        super().__init__(words)
        self.words, self.at, self.hint, self.status, self.more = words, at, hint, status, list(more)


def distance(a, b):
    """The number of letters to insert, delete, change, or swap with the next."""
    rows = [list(range(len(b) + 1))]
    for i, x in enumerate(a, 1):
        row = [i]
        for j, y in enumerate(b, 1):
            d = min(rows[-1][j] + 1, row[-1] + 1, rows[-1][j - 1] + (x != y))
            if i > 1 and j > 1 and x == b[j - 2] and a[i - 2] == y:
                d = min(d, rows[-2][j - 2] + 1)
            row.append(d)
        rows.append(row)
    return rows[-1][-1]


def near(word, names):
    """The first of the nearest names, if at most a third of the letters of the longer one differ; capitals do not matter."""
    best = None
    for n in names:
        d = distance(word.lower(), n.lower())
        if d <= max(len(word), len(n)) // 3 and (best is None or d < best[0]):
            best = (d, n)
    return best and best[1]


def mean(word, names):
    n = near(word, names)
    return "did you mean %s?" % n if n else None
