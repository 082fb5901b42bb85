"""A session for gringo: the base, the mappings as rules whose nulls are terms of the values they stand beside, and all updates at once."""
from sql import variables


def value_text(value):
    return f'nul({value[2]})' if value[0] == 2 else '"%s"' % value[1].decode() if value[0] == 1 else str(value[1])


def atom_text(session, atom, of=None, prefix=''):
    terms = [(of or {}).get(x, f'V{x}') if kind == 'v' else value_text(x) for kind, x in atom[1]]
    return f'{prefix}{session.relations[atom[0]][0].lower()}({",".join(terms)})'


def fact_text(session, fact, prefix=''):
    return f'{prefix}{session.relations[fact[0]][0].lower()}({",".join(map(value_text, fact[1]))}).'


def form_of(session, mapping, shared):
    """A name for a right side without the names of its variables: mappings of one form get the same nulls."""
    def term(kind, x):
        return 'c' if kind == 'c' else f'k{shared.index(x)}' if x in shared else 'e'
    return '_'.join(session.relations[r][0].lower() + ''.join(term(*it) for it in terms) for r, terms in mapping.right)


def rules_of(session, mapping):
    """The rules of one mapping; with existential variables they ask first whether the base meets the right side."""
    right = list(dict.fromkeys(x for _, terms in mapping.right for x in variables(terms)))
    shared = [x for x in right if x < mapping.universal]
    drawn, keys = [x for x in right if x >= mapping.universal], ','.join(f'V{x}' for x in shared)
    body, form = ', '.join(atom_text(session, atom) for atom in mapping.left), form_of(session, mapping, shared)
    nulls = {x: f'f_{form}_{k}({keys})' for k, x in enumerate(drawn)}
    if drawn:
        yield f'has_{form}({keys}) :- {", ".join(atom_text(session, atom, prefix="base_") for atom in mapping.right)}.'
        body += f', not has_{form}({keys})'
    yield from (f'{atom_text(session, atom, nulls)} :- {body}.' for atom in mapping.right)


def rules(session):
    yield from (fact_text(session, fact, 'base_') for fact in session.base)
    for name, count in session.relations:
        name, places = name.lower(), ','.join(f'X{k}' for k in range(count))
        yield f'{name}({places}) :- base_{name}({places}).'
        yield f'#defined base_{name}/{count}. #defined {name}/{count}. #show {name}/{count}.'
    for mapping in session.mappings:
        yield from rules_of(session, mapping)


def files(session):
    """The names of the files and their lines; none if an update deletes, since what is derived once stays."""
    if all(update.operation[0] == 'insert' for update in session.updates):
        yield 'rules.lp', rules(session)
        yield 'updates.lp', (fact_text(session, update.operation[1]) for update in session.updates)
        yield 'none.lp', ()
