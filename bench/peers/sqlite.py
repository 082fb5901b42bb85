"""A session for SQLite: tables, indexes, triggers that repair what an insertion violates, and the statements of the driver."""
from sql import COLUMNS, indexes, literal, repairs, spelled, table

DRAWN = {True: "'?' || fresh()", False: '-fresh()'}


def columns_of(session, relation):
    return COLUMNS[:session.relations[relation][1]]


def schema(session, texts):
    for r in range(len(session.relations)):
        columns = ', '.join(f'{c} {"TEXT" if (r, k) in texts else "INTEGER"} NOT NULL' for k, c in enumerate(columns_of(session, r)))
        yield f'CREATE TABLE {table(session, r)} ({columns}, PRIMARY KEY ({", ".join(columns_of(session, r))})) WITHOUT ROWID;'


def index_lines(session):
    for number, (r, columns) in enumerate(indexes(session)):
        yield f'CREATE INDEX x{number} ON {table(session, r)} ({", ".join(COLUMNS[c] for c in columns)});'


def insertion(session, atom, of):
    """The insertion into an atom's table, up to the values, and the values; `of` has the expression of each variable."""
    terms = ', '.join(of[x] if kind == 'v' else literal(x) for kind, x in atom[1])
    return f'INSERT OR IGNORE INTO {table(session, atom[0])}', terms


def drawn(repair, texts):
    """What draws the null of each existential variable, by the type of its first column."""
    found = {}
    for relation, terms in repair.mapping.right:
        for column, (kind, x) in enumerate(terms):
            if kind == 'v' and x in repair.drawn:
                found.setdefault(x, DRAWN[(relation, column) in texts])
    return found


def is_one_row(repair):
    """Whether the right side is one atom in which no existential variable comes twice."""
    terms = [x for kind, x in repair.mapping.right[0][1] if kind == 'v' and x in repair.drawn]
    return len(repair.mapping.right) == 1 and len(set(terms)) == len(terms)


def statement(session, repair, texts):
    """The statement of a trigger that makes the repairs; several atoms go through a view, whose own trigger inserts each."""
    draws, query = drawn(repair, texts), repair.query(right_first=True)
    if is_one_row(repair):
        head, terms = insertion(session, repair.mapping.right[0], {x: f'v{x}' for x in repair.shared} | draws)
        return f'{head} SELECT {terms} FROM ({query});'
    values = ', '.join([f'v{x}' for x in repair.shared] + [draws[x] for x in repair.drawn])
    return f'INSERT INTO h_{repair.mapping.name} SELECT {values} FROM ({query});'


def view(session, repair):
    """The view for the repairs of one mapping, which has a column for each variable of the right side."""
    name, held = f'h_{repair.mapping.name}', repair.shared + repair.drawn
    rows = [' VALUES ('.join(insertion(session, atom, {x: f'NEW.v{x}' for x in held})) + ');' for atom in repair.mapping.right]
    yield f'CREATE VIEW {name} AS SELECT {", ".join(f"NULL AS v{x}" for x in held)};'
    yield f'CREATE TRIGGER {name} INSTEAD OF INSERT ON {name} BEGIN {" ".join(rows)} END;'


def triggers(session, texts):
    seen = set()
    for r in range(len(session.relations)):
        found = repairs(session, r)
        for repair in found:
            if not is_one_row(repair) and repair.mapping.name not in seen:
                seen.add(repair.mapping.name)
                yield from view(session, repair)
        if found:
            body = '\n  '.join(statement(session, repair, texts) for repair in found)
            yield f'CREATE TRIGGER i_{table(session, r)} AFTER INSERT ON {table(session, r)} BEGIN\n  {body}\nEND;'


def statements(session):
    """The statements of the driver: number r inserts into relation r, the same after all relations deletes from it."""
    for r, (_, count) in enumerate(session.relations):
        yield f'INSERT OR IGNORE INTO {table(session, r)} VALUES ({", ".join("?" * count)})'
    for r in range(len(session.relations)):
        yield f'DELETE FROM {table(session, r)} WHERE ' + ' AND '.join(f'{c} = ?' for c in columns_of(session, r))


def row(session, texts, fact, kind='insert'):
    """A tuple as the driver reads it: the number of the statement, then the values."""
    relation, values = fact
    number = relation + len(session.relations) * (kind == 'delete')
    return '\t'.join([str(number)] + [spelled(value, (relation, c) in texts) for c, value in enumerate(values)])


def files(session, texts):
    """The names of the files for the driver, and their lines."""
    yield 'schema.sql', schema(session, texts)
    yield 'triggers.sql', [*index_lines(session), *triggers(session, texts)]
    yield 'statements.sql', statements(session)
    yield 'base.tsv', (row(session, texts, fact) for fact in session.base)
    yield 'updates.tsv', (row(session, texts, update.operation[1], update.operation[0]) for update in session.updates)
    yield 'dump.sql', (f"SELECT '{table(session, r)}', * FROM {table(session, r)}" for r in range(len(session.relations)))
