#!/usr/bin/env python3
"""Prints a session to measure on: `sessions.py random|chain|groups|shop|join|contention|answers|order`, each with options (`-h` lists them).

random      insertions and deletions over four relations and three mappings, some with a question that is answered `expand`
chain       one relation after the other, each copied into the next; every update inserts a number into the first
groups      16 groups of four relations and four mappings with joins, over a base that meets them
shop        customers, orders and products: joins of 4 to 6 atoms with a fan-out, over a base that meets four mappings; updates
            find nothing (`quiet`), or a quarter of them find 1 to 3 violations (`mixed`), which may ask (`ask`)
join        three mappings with joins of two atoms over a base that meets them, without unknowns
contention  insertions at one end of a chain of relations, deletions at the other, so that updates conflict
answers     insertions that each draw a null and ask whether it is that of a tuple of the base, which the answer says it is
order       one mapping whose atoms on one side stand in a bad order, over a base that meets it (orders.py)

The sessions are the same at each run: the numbers come from generators with a seed.
"""
import argparse
import random
import sys

from orders import SHAPES, order_session

CURATORS = 12


def curator(number):
    return f'c{number % CURATORS}'


# ---- random ----

RANDOM_SCHEMA = '''youtopia 1
relation City 2
relation Country 2
relation Airport 2
relation Tour 3
mapping m1: City(x, c) -> Country(c, z)
mapping m2: Airport(a, x) -> City(x, c)
mapping m3: Tour(t, x, y) -> City(x, c), City(y, d)'''

# What an update does, drawn from ten: the operation, its relation, and the number of values of each column.
RANDOM_OPERATIONS = (
    [('insert', 'City', (50, 20))] * 4 + [('insert', 'Airport', (200, 50))] * 2 + [('insert', 'Tour', (100, 50, 50))] * 2
    + [('delete', 'City', (50, 20)), ('insert', 'Country', (20, 20))])


def draws(seed):
    """The upper bits of a linear congruential generator, each as a function of the number of values it may have."""
    state = seed
    while True:
        state = (state * 6364136223846793005 + 1442695040888963407) % 2**64
        yield lambda count: (state >> 33) % count


def random_session(count, seed):
    drawn = draws(seed)
    yield RANDOM_SCHEMA
    for number in range(1, count + 1):
        operation, relation, columns = RANDOM_OPERATIONS[next(drawn)(10)]
        values = ', '.join(str(next(drawn)(column)) for column in columns)
        yield f'update u{number} {curator(number - 1)} {operation} {relation}({values})'
        yield from [f'answer u{number} expand'] * 4
    yield 'end'


# ---- chain ----

def chain_session(length, updates):
    yield 'youtopia 1'
    for place in range(length):
        yield f'relation R{place} 1'
    for place in range(1, length):
        yield f'mapping m{place}: R{place - 1}(x) -> R{place}(x)'
    for number in range(1, updates + 1):
        yield f'update u{number} {curator(number)} insert R1({number})'
    yield 'end'


# ---- groups ----

GROUPS = 16
GROUP_MAPPINGS = (
    'p{0}: A{0}(x, y), B{0}(y, z) -> C{0}(x, z)',
    'q{0}: C{0}(x, z) -> D{0}(z, w)',
    'r{0}: A{0}(x, y), B{0}(y, z), C{0}(x, z) -> D{0}(z, w)',
    's{0}: D{0}(z, w), B{0}(y, z) -> D{1}(z, v)',
)


class Group:
    """The tuples of one group, each as the texts of its two values."""

    def __init__(self, rng, seeds, ys, zs):
        self.a, self.b, self.c, self.d = set(), set(), set(), set()
        while len(self.a) < seeds:
            self.a.add((f'"x{rng.randrange(2 * seeds)}"', rng.randrange(ys)))
        while len(self.b) < seeds:
            self.b.add((rng.randrange(ys), rng.randrange(zs)))
        joined = {}
        for y, z in self.b:
            joined.setdefault(y, []).append(z)
        self.c = {(x, z) for x, y in self.a for z in joined.get(y, [])}
        self.reached = {z for _, z in self.c}


def reach_all(groups):
    """Adds to what each group's D has to reach the tuples that the last mapping of the group before asks for."""
    grown = True
    while grown:
        grown = False
        for place, group in enumerate(groups):
            following = groups[(place + 1) % GROUPS]
            new = (group.reached & {z for _, z in group.b}) - following.reached
            following.reached |= new
            grown = grown or bool(new)


def fill_d(rng, groups):
    """Gives each value that is reached a tuple of D, three in ten of them with a null of their own."""
    nulls = 0
    for group in groups:
        for z in sorted(group.reached):
            if rng.random() < 0.3:
                nulls += 1
                group.d.add((z, f'?0.{nulls}'))
            else:
                group.d.add((z, f'"w{rng.randrange(50)}"'))


def fill_up(groups, base):
    """Adds tuples that join nothing, up to the size of the base."""
    size = sum(len(group.a) + len(group.b) + len(group.c) + len(group.d) for group in groups)
    if size > base:
        sys.exit(f'the groups have {size} tuples, more than {base}')
    for number in range(base - size):
        groups[number % GROUPS].a.add((f'"f{number}"', 1000000 + number))


def group_operation(rng, groups, seeds, ys, zs):
    place, kind = rng.randrange(GROUPS), rng.random()
    if kind < 0.45:
        return f'insert A{place}("n{rng.randrange(4 * seeds)}", {rng.randrange(ys)})'
    if kind < 0.9:
        return f'insert B{place}({rng.randrange(ys)}, {rng.randrange(2 * zs)})'
    x, y = rng.choice(sorted(groups[place].a, key=str))
    return f'delete A{place}({x}, {y})'


def groups_session(base, updates, seed):
    rng = random.Random(seed)
    seeds = max(4, int(base // GROUPS * 0.24))
    ys, zs = max(3, seeds), max(3, seeds // 2)
    groups = [Group(rng, seeds, ys, zs) for _ in range(GROUPS)]
    reach_all(groups)
    fill_d(rng, groups)
    fill_up(groups, base)
    yield 'youtopia 1'
    for place in range(GROUPS):
        yield from (f'relation {relation}{place} 2' for relation in 'ABCD')
    for place in range(GROUPS):
        yield from ('mapping ' + text.format(place, (place + 1) % GROUPS) for text in GROUP_MAPPINGS)
    for place, group in enumerate(groups):
        for relation, tuples in zip('ABCD', (group.a, group.b, group.c, group.d)):
            yield from (f'base {relation}{place}({x}, {y})' for x, y in sorted(tuples, key=str))
    for number in range(1, updates + 1):
        yield f'update u{number} {curator(number)} {group_operation(rng, groups, seeds, ys, zs)}'
    yield 'end'


# ---- shop ----

REGIONS, KINDS, DISCOUNTS = 20, 12, 30
CUSTOMERS, PRODUCTS, SUPPLIERS = 800, 300, 60
LINES_AN_ORDER = 2

SHOP_RELATIONS = dict(
    Customer=2, Order=2, Line=2, Product=2, Supplier=2, Zone=2, Discount=2, Offer=2, Carrier=2, Reach=2, Taste=2, Campaign=2,
    Advert=3, Medium=2)
SHOP_MAPPINGS = (
    'taste: Customer(c, r), Order(o, c), Line(o, p), Product(p, k) -> Taste(r, k)',
    'offer: Discount(r, d), Customer(c, r), Order(o, c), Line(o, p), Product(p, k) -> Offer(d, k)',
    'reach: Carrier(v, z), Zone(r, z), Customer(c, r), Order(o, c), Line(o, p), Product(p, k) -> Reach(v, k)',
    'advert: Campaign(g, k), Product(p, k), Line(o, p), Order(o, c), Customer(c, r) -> Advert(g, r, m)')


def shop_sources(rng, fan):
    """The tuples of the relations that the left sides join."""
    orders = 400 * fan if fan <= 6 else 3600
    return dict(
        Customer=[(c, rng.randrange(REGIONS)) for c in range(CUSTOMERS)],
        Order=[(o, rng.randrange(CUSTOMERS)) for o in range(orders)],
        Line=sorted({(o, rng.randrange(PRODUCTS)) for o in range(orders) for _ in range(LINES_AN_ORDER)}),
        Product=[(p, rng.randrange(KINDS)) for p in range(PRODUCTS)],
        Supplier=sorted({(s, rng.randrange(KINDS)) for s in range(SUPPLIERS)}),
        Zone=[(x, x % 5) for x in range(REGIONS)])


class ShopTargets:
    """The tuples of the relations on the right sides, which hold whatever the sources join to."""

    def __init__(self):
        self.taste = {(x, k) for x in range(REGIONS) for k in range(KINDS)}
        self.offer = {(d, k) for d in range(DISCOUNTS) for k in range(KINDS)}
        self.reach = {(v, k) for v in range(DISCOUNTS) for k in range(KINDS)}
        self.advert = {(g, x, f'"m{g * REGIONS + x}"') for g in range(DISCOUNTS) for x in range(REGIONS)}
        self.medium = {(m, g) for g, _, m in self.advert}

    def missing(self, rng, number, count, targets):
        """A new key that lacks 1 to 3 of `count` kinds in the targets."""
        key = 1000 + number
        lacking = set(rng.sample(range(count), rng.randint(1, 3)))
        targets |= {(key, k) for k in range(count) if k not in lacking}
        return key

    def missing_adverts(self, rng, number, asks):
        """A new campaign that lacks an advert in 1 to 3 regions; where it asks, there are some that could be taken."""
        key = 1000 + number
        lacking = set(rng.sample(range(REGIONS), rng.randint(1, 3)))
        self.advert |= {(key, x, '"m"') for x in range(REGIONS) if x not in lacking}
        self.medium.add(('"m"', key))
        if asks:
            self.advert |= {(key, x, f'"old{x}"') for x in lacking}
        return key


def shop_operation(rng, targets, kind, share, number):
    """The tuple that the update inserts, and the number of its answers."""
    bad = kind != 'quiet' and rng.random() < share
    what = rng.choice(('offer', 'offer', 'reach', 'advert')) if kind != 'ask' else rng.choice(('offer', 'reach', 'advert', 'advert'))
    key = rng.randrange(DISCOUNTS)
    if what == 'offer':
        key = targets.missing(rng, number, KINDS, targets.offer) if bad else key
        return f'Discount({rng.randrange(REGIONS)}, {key})', 0
    if what == 'reach':
        key = targets.missing(rng, number, KINDS, targets.reach) if bad else key
        return f'Carrier({key}, {rng.randrange(5)})', 0
    key = targets.missing_adverts(rng, number, kind == 'ask') if bad else key
    return f'Campaign({key}, {rng.randrange(KINDS)})', 8 if kind == 'ask' else 0


def base_lines(relations, base):
    for relation in relations:
        for values in sorted(base.get(relation, ()), key=str):
            yield f'base {relation}({", ".join(map(str, values))})'


def shop_session(kind_of_updates, fan, updates, share, seed):
    rng, kind = random.Random(seed), kind_of_updates
    base, targets = shop_sources(rng, fan), ShopTargets()
    operations = [shop_operation(rng, targets, kind, share, number) for number in range(1, updates + 1)]
    base |= dict(Offer=targets.offer, Reach=targets.reach, Taste=targets.taste, Advert=targets.advert, Medium=targets.medium)
    yield 'youtopia 1'
    yield from (f'relation {name} {columns}' for name, columns in SHOP_RELATIONS.items())
    yield from ('mapping ' + text + (', Medium(m, g)' if kind == 'ask' and text.startswith('advert') else '') for text in SHOP_MAPPINGS)
    yield from base_lines(SHOP_RELATIONS, base)
    for number, (inserted, answers) in enumerate(operations, 1):
        yield f'update u{number} {curator(number)} insert {inserted}'
        yield from [f'answer u{number} expand'] * answers
    yield 'end'


# ---- join ----

JOIN_MAPPINGS = ('m1: A(x, y), B(y, z) -> C(x, z)', 'm2: C(x, z), D(z, w) -> E(x, w)', 'm3: E(x, w) -> F(w, x)')


def joined(lefts, rights):
    """The pairs of a first and a last value that a value in the middle joins."""
    found = {}
    for middle, last in rights:
        found.setdefault(middle, []).append(last)
    return {(first, last) for first, middle in lefts for last in found.get(middle, [])}


def join_session(base, updates, seed):
    rng = random.Random(seed)
    size = base // 7
    a, b, d = ({(rng.randrange(size), rng.randrange(size)) for _ in range(size)} for _ in range(3))
    c = joined(a, b)
    e = joined(c, d)
    tuples = dict(A=a, B=b, C=c, D=d, E=e, F={(w, x) for x, w in e})
    yield 'youtopia 1'
    yield from (f'relation {name} 2' for name in 'ABCDEF')
    yield from ('mapping ' + text for text in JOIN_MAPPINGS)
    for name in 'ABCDEF':
        yield from (f'base {name}({x}, {y})' for x, y in sorted(tuples[name]))
    for number in range(1, updates + 1):
        name, x, y = rng.choice('ABD'), rng.randrange(size), rng.randrange(size)
        yield f'update u{number} {curator(number)} insert {name}({x}, {y})'
    yield 'end'


# ---- contention ----

def contention_session(length, values, updates, seed):
    rng = random.Random(seed)
    yield 'youtopia 1'
    yield from (f'relation R{place} 2' for place in range(length))
    yield from (f'mapping m{place}: R{place - 1}(x, y) -> R{place}(x, y)' for place in range(1, length))
    for number in range(1, updates + 1):
        value = rng.randrange(values)
        operation = f'insert R0({value}, {value})' if rng.random() < 0.5 else f'delete R{length - 1}({value}, {value})'
        yield f'update u{number} {curator(number)} {operation}'
    yield 'end'


# ---- answers ----

def answers_session(base, updates):
    yield 'youtopia 2'
    yield from ('relation A 1', 'relation B 2', 'relation C 1', 'mapping m: A(x) -> B(x, z), C(z)')
    yield from (f'base B({number}, "t{number}")' for number in range(1, base + 1))
    for number in range(1, updates + 1):
        yield f'update u{number} {curator(number)} insert A({number})'
        yield f'answer u{number} unify B({number}, "t{number}")'
    yield 'end'


SESSIONS = {
    'random': random_session, 'chain': chain_session, 'groups': groups_session, 'shop': shop_session, 'join': join_session,
    'contention': contention_session, 'answers': answers_session,
    'order': order_session}


def main():
    parser = argparse.ArgumentParser(description=__doc__, formatter_class=argparse.RawDescriptionHelpFormatter)
    kinds = parser.add_subparsers(dest='kind', required=True)
    one = kinds.add_parser('random')
    one.add_argument('--count', type=int, default=1000)
    one.add_argument('--seed', type=int, default=7)
    one = kinds.add_parser('chain')
    one.add_argument('--length', type=int, default=51)
    one.add_argument('--updates', type=int, default=100)
    one = kinds.add_parser('groups')
    one.add_argument('--base', type=int, default=20000)
    one.add_argument('--updates', type=int, default=1000)
    one.add_argument('--seed', type=int, default=1)
    one = kinds.add_parser('shop')
    one.add_argument('--kind', choices=('quiet', 'mixed', 'ask'), default='quiet', dest='kind_of_updates')
    one.add_argument('--fan', type=int, default=3)
    one.add_argument('--updates', type=int, default=400)
    one.add_argument('--share', type=float, default=0.25)
    one.add_argument('--seed', type=int, default=1)
    one = kinds.add_parser('join')
    one.add_argument('--base', type=int, default=20000)
    one.add_argument('--updates', type=int, default=1000)
    one.add_argument('--seed', type=int, default=1)
    one = kinds.add_parser('contention')
    one.add_argument('--length', type=int, default=10)
    one.add_argument('--values', type=int, default=3)
    one.add_argument('--updates', type=int, default=1000)
    one.add_argument('--seed', type=int, default=1)
    one = kinds.add_parser('answers')
    one.add_argument('--base', type=int, default=10000)
    one.add_argument('--updates', type=int, default=1000)
    one = kinds.add_parser('order')
    one.add_argument('--shape', choices=SHAPES, default='star')
    one.add_argument('--side', choices=('left', 'right'), default='left')
    one.add_argument('--size', type=int, default=4000)
    one.add_argument('--updates', type=int, default=0)
    words = vars(parser.parse_args())
    for line in SESSIONS[words.pop('kind')](**words):
        print(line)


if __name__ == '__main__':
    main()
