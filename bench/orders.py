"""The sessions of `sessions.py order`: one mapping with the atoms of one side in a bad order, over a base that meets it.

The base has rows, and each row has one tuple for each atom. The best order starts at an atom with one tuple for each row and finds one
tuple for each further atom. The order of the mapping starts with two atoms that all rows share, or that share nothing.
"""
from collections import namedtuple

# The atoms in a bad order; the variables that the other side shares; tuples of dead ends, for each row; what an update inserts.
# `hub` has the value 0 in all rows, `dead` one that no other atom has, any other variable the number of the row.
Shape = namedtuple('Shape', 'atoms shared dead_ends inserted')
SHAPES = dict(
    star=Shape('P(x, p), Q(x, q), R(x, r), M(x, k)', 'p, k', 'P(hub, p), Q(hub, q), R(hub, r)', 'P(hub, p)'),
    triangle=Shape('A(x, hub), B(hub, z), C(z, x)', 'x, z', '', 'A(x, hub)'),
    chain=Shape('F(f, g), E(e, f), D(d, e), C(c, d), B(b, c), A(a, b)', 'g, a', 'F(hub, g), E(dead, hub)', 'A(a, b)'),
    cross=Shape('A(x, u), B(y, v), C(u, w), D(v, w, k)', 'x, k', '', 'A(x, u)'))


def split(atoms):
    """Each atom of a text as its relation and its terms."""
    for atom in atoms.split('), ') if atoms else ():
        relation, terms = atom.rstrip(')').split('(')
        yield relation, terms.split(', ')


def tuples_of(atoms, row):
    """The tuples of one row for these atoms."""
    values = dict(hub=0, dead=-row)
    return [(relation, tuple(values.get(term, row) for term in terms)) for relation, terms in split(atoms)]


def tuple_text(relation, values):
    return f'{relation}({", ".join(map(str, values))})'


def order_session(shape, side, size, updates):
    it = SHAPES[shape]
    last = it.shared.split(', ')[-1]
    other, inserted = (f'T({it.shared})', it.inserted) if side == 'left' else (f'T({last})', f'T({last})')
    count = len(list(split(it.atoms))) + 1
    rows = size // (count + len(list(split(it.dead_ends))))
    lacking = {tuples_of(inserted, row)[0] for row in range(rows - updates + 1, rows + 1)}
    base = {fact for row in range(1, rows + 1) for fact in tuples_of(f'{it.atoms}, {other}', row) + tuples_of(it.dead_ends, row)}
    yield 'youtopia 1'
    yield f'# The best order has {(rows - updates) * count} matches.'
    yield from (f'relation {relation} {len(terms)}' for relation, terms in split(f'{it.atoms}, {other}'))
    yield f'mapping m: {it.atoms} -> {other}' if side == 'left' else f'mapping m: {other} -> {it.atoms}'
    yield from ('base ' + tuple_text(*fact) for fact in sorted(base - lacking))
    for number, fact in enumerate(sorted(lacking), 1):
        yield f'update u{number} c0 insert {tuple_text(*fact)}'
    yield 'end'
