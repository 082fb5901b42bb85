"""What the SQL of both databases shares: the types of columns, the indexes, and the queries for what a mapping lacks."""
from collections import OrderedDict

COLUMNS = 'abcdefgh'


def table(session, relation):
    return 't_' + session.relations[relation][0].lower()


def variables(terms):
    return [x for kind, x in terms if kind == 'v']


# ---- values

def text_columns(session):
    """The columns that hold texts, as (relation, column); columns that a variable joins are alike."""
    texts = {(r, c) for r, values in stored(session) for c, value in enumerate(values) if value[0] == 1}
    grown = True
    while grown:
        joined = {(mapping.name, x) for mapping, place, x in places(session) if place in texts}
        new = {place for mapping, place, x in places(session) if (mapping.name, x) in joined}
        grown, texts = not new <= texts, texts | new
    return texts


def stored(session):
    """All tuples of the base and of the updates."""
    return session.base + [update.operation[1] for update in session.updates]


def places(session):
    """Each place of a variable in a mapping: the mapping, relation and column, the variable."""
    for mapping in session.mappings:
        for relation, terms in mapping.left + mapping.right:
            yield from ((mapping, (relation, c), x) for c, (kind, x) in enumerate(terms) if kind == 'v')


def spelled(value, is_text):
    """A value as the databases store it: a null is a negative number, or a text that begins with a question mark."""
    if value[0] == 2:
        return f'?{value[2]}' if is_text else str(-value[2])
    return value[1].decode() if value[0] == 1 else str(value[1])


def literal(value):
    return "'" + value[1].decode().replace("'", "''") + "'" if value[0] == 1 else str(value[1])


# ---- indexes

def looked_up(atoms, bound):
    """The relation and the columns by which each atom is looked up, if a join goes on with the atom that has most of them."""
    todo, bound = list(atoms), set(bound)
    while todo:
        best = max(todo, key=lambda atom: sum(x in bound for x in variables(atom[1])))
        todo.remove(best)
        yield best[0], frozenset(c for c, (kind, x) in enumerate(best[1]) if kind == 'c' or x in bound)
        bound |= set(variables(best[1]))


def all_looked_up(session):
    for mapping in session.mappings:
        yield from looked_up(mapping.right, {x for _, terms in mapping.left for x in variables(terms)})
        for seed, (_, terms) in enumerate(mapping.left):
            yield from looked_up(mapping.left[:seed] + mapping.left[seed + 1:], variables(terms))


def indexes(session):
    """The relation and the columns of each index that these look-ups need beside the primary key."""
    found = OrderedDict()
    for relation, columns in all_looked_up(session):
        count = session.relations[relation][1]
        if columns in (frozenset(range(len(columns))), frozenset(range(count))):
            continue
        if not any(key[0] == relation and set(key[1][:len(columns)]) == columns for key in found):
            found[relation, tuple(sorted(columns)) + tuple(c for c in range(count) if c not in columns)] = True
    return list(found)


# ---- what a mapping lacks

def equalities(atoms, where):
    """The conditions of a join of atoms with their aliases; `where`, the expression of each variable, grows."""
    found = []
    for alias, (_, terms) in atoms:
        for column, (kind, x) in zip(COLUMNS, terms):
            here = f'{alias}.{column}'
            if kind == 'c':
                found.append(f'{here} = {literal(x)}')
            elif where.setdefault(x, here) != here:
                found.append(f'{here} = {where[x]}')
    return found


def select(picked, tables, conditions):
    where = ' WHERE ' + ' AND '.join(conditions) if conditions else ''
    return f'SELECT {picked}' + (f' FROM {tables}' if tables else '') + where


class Repair:
    """A mapping as a tuple inserted for one atom of its left side, the seed, sees it."""

    def __init__(self, session, mapping, seed):
        self.session, self.mapping = session, mapping
        self.seed = variables(mapping.left[seed][1])
        self.others = [(f't{k}', atom) for k, atom in enumerate(mapping.left) if k != seed]
        self.where = {}
        self.joined = equalities([('NEW', mapping.left[seed])] + self.others, self.where)
        right = list(dict.fromkeys(x for _, terms in mapping.right for x in variables(terms)))
        self.shared = [x for x in right if x < mapping.universal]
        self.drawn = [x for x in right if x >= mapping.universal]

    def tables(self, atoms):
        return ', '.join(f'{table(self.session, atom[0])} {alias}' for alias, atom in atoms)

    def exists(self, atoms, conditions):
        return f'EXISTS ({select("1", self.tables(atoms), conditions)})'

    def lacks(self, where):
        """The condition that no tuples meet the right side for the shared variables."""
        atoms = [(f'n{k}', atom) for k, atom in enumerate(self.mapping.right)]
        return 'NOT ' + self.exists(atoms, equalities(atoms, {x: where[x] for x in self.shared}))

    def is_single(self):
        """Whether the inserted tuple has all shared variables, so that it needs at most one repair."""
        return set(self.shared) <= set(self.seed)

    def is_own_test(self):
        """Whether one insertion that ignores a tuple that is there already does all of the test."""
        return not self.others and not self.drawn and len(self.mapping.right) == 1

    def tests(self):
        """The conditions for the one repair that there can be."""
        if self.is_own_test():
            return self.joined
        return [self.lacks(self.where)] + ([self.exists(self.others, self.joined)] if self.others else self.joined)

    def query(self, right_first):
        """The values of the shared variables for which the right side is lacking, each once."""
        if self.is_single():
            return select(self.picked(self.where), '', self.tests())
        holder = self.holder() if right_first else None
        if holder:
            return self.asked_first(*holder)
        distinct = '' if self.is_unique() else 'DISTINCT '
        return select(distinct + self.picked(self.where), self.tables(self.others), self.joined + [self.lacks(self.where)])

    def picked(self, where):
        return ', '.join(f'{where[x]} AS v{x}' for x in self.shared) or '1'

    def is_unique(self):
        """Whether the join gives each list of shared values once, because its atoms have no other variables."""
        return {x for _, (_, terms) in self.others for x in variables(terms)} <= set(self.shared) | set(self.seed)

    def holder(self):
        """In a long join, the atom that has all shared variables that the seed has not, and these variables."""
        rest = [x for x in self.shared if x not in self.seed]
        found = next((atom for _, atom in self.others if set(rest) <= set(variables(atom[1]))), None)
        return (found, rest) if found and len(self.others) >= 3 else None

    def asked_first(self, atom, rest):
        """The query that asks each value of the holder's columns what the right side lacks before it tries the join."""
        columns = {x: COLUMNS[[value for _, value in atom[1]].index(x)] for x in rest}
        where = {**self.where, **{x: f'f.{column}' for x, column in columns.items()}}
        values = f'(SELECT DISTINCT {", ".join(columns.values())} FROM {table(self.session, atom[0])}) f'
        joined = self.joined + [f'{self.where[x]} = {where[x]}' for x in rest]
        return select(self.picked(where), values, [self.lacks(where), self.exists(self.others, joined)])


def repairs(session, relation):
    """The repairs that a tuple inserted into the relation may need."""
    return [Repair(session, mapping, seed) for mapping in session.mappings for seed, atom in enumerate(mapping.left) if atom[0] == relation]
