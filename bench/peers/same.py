#!/usr/bin/env python3
"""same.py RESULT OTHER: whether two repositories are the same up to the names of nulls; else it prints how they differ, with status 1.

RESULT is what the program prints. OTHER is what a peer leaves: lines of a table and its values with tabs between them, where nulls are
negative numbers and texts that begin with `?`; or atoms of gringo, where nulls are terms with parentheses. Nulls are compared by colour:
by what they stand in, refined until nothing changes. Then one null after the other is paired with one of its colour, with backtracking.
"""
import re
import sys
from collections import Counter, defaultdict
from pathlib import Path

VALUE = re.compile(r'"(?:\\.|[^"\\])*"|\?\d+\.\d+|-?\d+')
TERM = re.compile(r'"[^"]*"|\w+\((?:[^()"]|"[^"]*"|\([^()]*\))*\)|-?\d+')


# ---- reading: a tuple is a relation and values, each with whether it is a null

def of_program(text):
    for line in text.split('\nrepository ')[1].split('\ncommitted ')[0].splitlines()[1:]:
        name, rest = line.split('(', 1)
        yield name.lower(), tuple((value[0] == '?', value.strip('"')) for value in VALUE.findall(rest))


def of_database(text):
    for line in text.splitlines():
        name, *values = line.split('\t')
        yield name.removeprefix('t_'), tuple((value[:1] in ('?', '-'), value) for value in values)


def of_gringo(text):
    for line in text.splitlines():
        if not line.startswith(('base_', 'has_', '#')):
            name, rest = line.split('(', 1)
            yield name, tuple((value[0] != '"' and '(' in value, value.strip('"')) for value in TERM.findall(rest[:-2]))


def read(path):
    text = Path(path).read_text()
    return set((of_program if text.startswith('youtopia') else of_database if '\t' in text else of_gringo)(text))


# ---- comparing

def standing(tuples):
    """The tuples that hold each null."""
    found = defaultdict(list)
    for fact in tuples:
        for value in set(fact[1]):
            if value[0]:
                found[value].append(fact)
    return found


def refined(colours, where):
    """The colours of the nulls, told apart by the tuples that hold them until no more can be."""
    while True:
        def told(null, value):
            return '*' if value == null else str(colours[value]) if value[0] else '=' + value[1]

        def seen(null):
            return sorted((name, tuple(told(null, value) for value in values)) for name, values in where[null])
        new = {null: hash((colours[null], tuple(seen(null)))) for null in where}
        if len(set(new.values())) == len(set(colours.values())):
            return new
        colours = new


def renamed(tuples, names):
    return {(name, tuple(names.get(value, value) for value in values)) for name, values in tuples}


def is_paired(left, right, where, colours):
    """Whether the nulls of both sides can be paired, where each pair has the same colour."""
    if Counter(colours[0].values()) != Counter(colours[1].values()):
        return False
    alike = defaultdict(lambda: ([], []))
    for side in (0, 1):
        for null, colour in colours[side].items():
            alike[colour][side].append(null)
    several = next((nulls for nulls in alike.values() if len(nulls[0]) > 1), None)
    if several is None:
        return renamed(left, {one: other for (one,), (other,) in alike.values()}) == right
    marked = refined({**colours[0], several[0][0]: 'marked'}, where[0])
    return any(is_paired(left, right, where, (marked, refined({**colours[1], other: 'marked'}, where[1]))) for other in several[1])


def difference(left, right):
    """How the repositories differ, or nothing."""
    ground = [{fact for fact in side if not any(null for null, _ in fact[1])} for side in (left, right)]
    if ground[0] != ground[1]:
        return f'{len(ground[0] - ground[1])} tuples without nulls only in the first, {len(ground[1] - ground[0])} only in the second'
    left, right = left - ground[0], right - ground[1]
    where = standing(left), standing(right)
    colours = tuple(refined(dict.fromkeys(side, 0), side) for side in where)
    return None if len(left) == len(right) and is_paired(left, right, where, colours) else 'the nulls cannot be paired'


def main():
    sys.setrecursionlimit(100000)
    found = difference(read(sys.argv[1]), read(sys.argv[2]))
    print(found or 'same')
    sys.exit(found is not None)


main()
