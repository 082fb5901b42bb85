"""A session for PostgreSQL: tables with their base, indexes, triggers in plpgsql, and the updates as prepared statements.

Each text is for a backend that runs alone (`postgres --single -j`): a statement ends with a semicolon and an empty line.
"""
from sql import COLUMNS, indexes, literal, repairs, spelled, table
from sqlite import columns_of, drawn

FRESH = {"'?' || fresh()": "'?' || nextval('fresh')", '-fresh()': "-nextval('fresh')"}
UNUSED = {True: "'no such text'", False: '99999999'}


def types(session, texts, relation):
    return ['text' if (relation, c) in texts else 'bigint' for c in range(session.relations[relation][1])]


def schema(session, texts, folder):
    for r in range(len(session.relations)):
        name, columns = table(session, r), columns_of(session, r)
        yield f'CREATE TABLE {name} ({", ".join(f"{c} {kind} NOT NULL" for c, kind in zip(columns, types(session, texts, r)))})'
        yield f"COPY {name} FROM '{folder}/{name}.tsv'"
        yield f'ALTER TABLE {name} ADD PRIMARY KEY ({", ".join(columns)})'
    for r, columns in indexes(session):
        yield f'CREATE INDEX ON {table(session, r)} ({", ".join(COLUMNS[c] for c in columns)})'
    yield 'CREATE SEQUENCE fresh START 1000000'
    yield 'VACUUM ANALYZE'


def insertion(session, atom, of, source=''):
    terms = ', '.join(of[x] if kind == 'v' else literal(x) for kind, x in atom[1])
    values = f'SELECT {terms} FROM {source}' if source else f'VALUES ({terms})'
    return f'INSERT INTO {table(session, atom[0])} {values} ON CONFLICT DO NOTHING'


def statement(session, repair, texts):
    """The statement of a trigger that makes the repairs."""
    draws = {x: FRESH[draw] for x, draw in drawn(repair, texts).items()}
    right, tests = repair.mapping.right, repair.tests()
    if repair.is_single() and len(right) == 1:
        inserted = insertion(session, right[0], {x: repair.where[x] for x in repair.shared} | draws)
        return f'IF {" AND ".join(tests)} THEN {inserted}; END IF;' if tests else inserted + ';'
    values = ', '.join([f'v{x}' for x in repair.shared] + [f'{draws[x]} AS v{x}' for x in repair.drawn])
    source, of = f'(SELECT {values} FROM ({repair.query(right_first=False)}) q)', {x: f'v{x}' for x in repair.shared + repair.drawn}
    if len(right) == 1:
        return insertion(session, right[0], of, f'{source} w') + ';'
    parts = [f'i{k} AS ({insertion(session, atom, of, "w")})' for k, atom in enumerate(right[:-1])]
    return f'WITH w AS MATERIALIZED {source}, {", ".join(parts)} {insertion(session, right[-1], of, "w")};'


def triggers(session, texts):
    for r in range(len(session.relations)):
        found, name = repairs(session, r), table(session, r)
        if found:
            body = '\n  '.join(statement(session, repair, texts) for repair in found)
            yield f'CREATE FUNCTION i_{name}() RETURNS trigger LANGUAGE plpgsql AS $$ BEGIN\n  {body}\n  RETURN NULL; END $$'
            yield f'CREATE TRIGGER i_{name} AFTER INSERT ON {name} FOR EACH ROW EXECUTE FUNCTION i_{name}()'


def prepared(session, texts):
    """A statement for each relation that updates insert into or delete from; each trigger then runs twice, so that it has its plans."""
    for r, (_, count) in enumerate(session.relations):
        name, kinds = table(session, r), ', '.join(types(session, texts, r))
        places = [f'${k + 1}' for k in range(count)]
        yield f'PREPARE insert_{name}({kinds}) AS INSERT INTO {name} VALUES ({", ".join(places)}) ON CONFLICT DO NOTHING'
        equal = ' AND '.join(f'{c} = {place}' for c, place in zip(COLUMNS, places))
        yield f'PREPARE delete_{name}({kinds}) AS DELETE FROM {name} WHERE {equal}'
    for _ in range(2):
        yield 'BEGIN'
        for r in range(len(session.relations)):
            yield f'EXECUTE insert_{table(session, r)}({", ".join(UNUSED[(r, c) in texts] for c in range(session.relations[r][1]))})'
        yield 'ROLLBACK'


def executed(session, texts):
    for update in session.updates:
        kind, (r, values) = update.operation
        told = [spelled(value, (r, c) in texts) for c, value in enumerate(values)]
        words = ', '.join(f"'{value}'" if (r, c) in texts else value for c, value in enumerate(told))
        yield f'EXECUTE {kind}_{table(session, r)}({words})'


def dumps(session, folder):
    for r in range(len(session.relations)):
        yield f"COPY (SELECT '{table(session, r)}', * FROM {table(session, r)}) TO '{folder}/{table(session, r)}.dump'"


def files(session, texts, folder):
    """The names of the files, and their lines."""
    for r in range(len(session.relations)):
        rows = (values for relation, values in session.base if relation == r)
        yield f'{table(session, r)}.tsv', ('\t'.join(spelled(value, (r, c) in texts) for c, value in enumerate(row)) for row in rows)
    made = [*schema(session, texts, folder), *triggers(session, texts)]
    ready = list(prepared(session, texts))
    updates = ready + list(executed(session, texts))
    for name, lines in (('make', made), ('ready', ready), ('updates', updates), ('dump', dumps(session, folder))):
        yield f'{name}.sql', (f'{line};\n' for line in lines)
