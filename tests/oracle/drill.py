"""Generated sessions, and the summary of their run."""
from .checks import read_session
from .values import Update

BEGINNING = b"""youtopia 1
relation City 2
relation Country 2
relation Airport 2
relation Tour 3
mapping m1: City(x, c) -> Country(c, z)
mapping m2: Airport(a, x) -> City(x, c)
mapping m3: Tour(t, x, y) -> City(x, c), City(y, d)
end
"""

# What each of ten numbers draws: the operation, the relation, and the bound of each column.
DRAWN = ([("insert", 0, (50, 20))] * 4 + [("insert", 2, (200, 50))] * 2 + [("insert", 3, (100, 50, 50))] * 2
         + [("delete", 0, (50, 20)), ("insert", 1, (20, 20))])


def drill(count, seed):
    """This number of updates, each with four answers `expand`, drawn by a linear congruential generator."""
    session, state = read_session(BEGINNING), seed

    def draw(below):
        nonlocal state
        state = (state * 6364136223846793005 + 1442695040888963407) % 2 ** 64
        return (state >> 33) % below

    for i in range(count):
        kind, relation, columns = DRAWN[draw(10)]
        t = relation, tuple((0, draw(below)) for below in columns)
        session.updates.append(Update("u%d" % (i + 1), "c%d" % (i % 12), (kind, t), [("expand",)] * 4))
    return session


def summary(count, seed, result):
    def ended(outcome):
        return sum(finish[1] == outcome for finish in result.finishes)

    steps, nulls = (sum(finish[i] for finish in result.finishes) for i in (3, 4))
    return (b"drill count %d seed %d\ncommitted %d of %d\ndone %d spent %d refused %d\nsteps %d nulls %d\nrepository %d\n"
            % (count, seed, len(result.finishes), count, ended("done"), ended("spent"), ended("refused"), steps, nulls,
               len(result.repository)))
