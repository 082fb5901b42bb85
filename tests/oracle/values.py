"""Values, tuples with their orders, finite sets of tuples, and what a session is made of.

Values and tuples are plain tuples of Python, made so that Python's order is the order of values and tuples:
a number is (0, i), a text (1, bytes), a null (2, update, place, attempt), a tuple (relation, (value, ..)).
A write is (True, tuple) for an insertion and (False, tuple) for a deletion.
"""
from bisect import bisect_left, insort

FORCE = 65535   # the relation of the tuples that mark mappings as in force


def is_null(value):
    return value[0] == 2


def outer_value(value):
    """The value without the attempt of a null, as people see it."""
    return (2, value[1], value[2], 0) if is_null(value) else value


def outer(t):
    return (t[0], tuple(outer_value(v) for v in t[1]))


def nulls_of(t):
    """The distinct nulls of a tuple in order of first position."""
    return list(dict.fromkeys(v for v in t[1] if is_null(v)))


def force(number):
    """The tuple that marks this mapping as in force."""
    return (FORCE, ((0, number),))


class Facts:
    """A finite set of tuples, with sorted lists of those of a relation, with a value in a column, and with a null."""

    def __init__(self, tuples=()):
        self.all = set()
        self.by_relation, self.by_column, self.by_null = {}, {}, {}
        for t in sorted(tuples):
            self.insert(t)

    def copy(self):
        return Facts(self.all)

    def __contains__(self, t):
        return t in self.all

    def __len__(self):
        return len(self.all)

    def list(self):
        return sorted(self.all)

    def relation(self, r):
        return self.by_relation.get(r, ())

    def scan(self, r, column, value):
        return self.by_column.get((r, column, value), ())

    def occurs(self, update, place):
        """The tuples that hold a null of this outer name, in order."""
        return tuple(self.by_null.get((update, place), ()))

    def _lists(self, t):
        """Each list that the tuple belongs to: the table and the tuple's key in it."""
        r, values = t
        yield self.by_relation, r
        for column, v in enumerate(values):
            yield self.by_column, (r, column, v)
        for name in {(v[1], v[2]) for v in values if is_null(v)}:
            yield self.by_null, name

    def insert(self, t):
        """Inserts the tuple; returns whether it was not there."""
        if t in self.all:
            return False
        self.all.add(t)
        for table, key in self._lists(t):
            insort(table.setdefault(key, []), t)
        return True

    def remove(self, t):
        """Removes the tuple; returns whether it was there."""
        if t not in self.all:
            return False
        self.all.discard(t)
        for table, key in self._lists(t):
            kept = table[key]
            del kept[bisect_left(kept, t)]
            if not kept:
                del table[key]
        return True

    def apply(self, writes):
        """Makes the writes in turn, and returns the writes that undo them."""
        undo = []
        for insertion, t in writes:
            if self.insert(t) if insertion else self.remove(t):
                undo.append((not insertion, t))
        undo.reverse()
        return undo


class Mapping:
    """An atom is (relation, terms); a term is ('v', variable number) or ('c', value).

    Variables are numbered by first occurrence, the left side first; those from `universal` on are existential.
    `since` is the number of the update that adds the mapping, 0 where it is there from the start.
    """

    def __init__(self, name, names, universal, left, right, since=0):
        self.name, self.names, self.universal = name, names, universal
        self.left, self.right, self.since = left, right, since


class Update:
    """An operation is ('insert', t), ('delete', t), ('replace', null, value) or ('mapping', number).

    An answer is ('expand',), ('unify', t) or ('delete', (t, ..)), its nulls in outer form.
    """

    def __init__(self, label, curator, operation, answers=None):
        self.label, self.curator, self.operation = label, curator, operation
        self.answers = [] if answers is None else answers


class Session:
    """Relations are (name, columns); the base is sorted."""

    def __init__(self, version=1):
        self.format = version
        self.relations, self.mappings, self.base, self.updates = [], [], [], []
