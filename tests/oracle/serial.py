"""The serial machine: the updates taken whole, one after the other in number order."""
from .matching import first_violation
from .steps import whole
from .values import FORCE, Facts


class Result:
    """How updates ended, (number, outcome, refused null or None, steps, nulls); the stop, (number, question, lack) or None; the
    repository without the tuples that mark mappings as in force; and the writes of each update that ended."""

    def __init__(self):
        self.finishes, self.stop, self.repository, self.trails = [], None, [], []


def base_violation(session):
    """The first violation of the base by a mapping in force from the start: the mapping and the image, or None."""
    facts = Facts(session.base)
    for mapping in session.mappings:
        image = None if mapping.since else first_violation(mapping, facts)
        if image is not None:
            return mapping, image
    return None


def answered(tuples):
    """The tuples that people see."""
    return [t for t in tuples if t[0] != FORCE]


def serial(session, budget=100, watch=None):
    result, facts = Result(), Facts(session.base)
    for number, update in enumerate(session.updates, 1):
        program = whole(facts, number, update.operation, update.answers, session.mappings, budget, watch)
        lack = program.lack(update.answers)
        if lack:
            result.stop = (number, program.question, lack)
            break
        result.finishes.append((number, program.phase, program.refused, program.steps, program.nulls))
        result.trails.append(list(program.own) if program.phase == "done" else [])
    result.repository = answered(facts.list())
    return result
