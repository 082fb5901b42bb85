"""Lines of the log that are no commands: numbered updates and answers."""
from . import text as T

STEPS = 300


def read_answer(text, schema):
    """N CHOICE [to MAPPING FACT, ..]: (number, choice, key, comment)"""
    c = T.Cursor(text)
    n = c.number()
    word = c.name("a choice")
    choice, key = (word,), None
    if word == "unify":
        choice = (word, T.fact(c, schema))
    elif word == "delete":
        choice = (word, tuple(c.listed(lambda: T.fact(c, schema))))
    if word != "go":
        c.name("to")
        name = c.name("a mapping")
        key = (name, tuple(c.listed(lambda: T.fact(c, schema))))
    return n, choice, key, c.comment


def answer_line(schema, n, choice, key):
    return "answer %d %s%s" % (n, T.show_choice(schema, choice), "" if key is None else " to %s %s" % (
        key[0], ", ".join(T.show_fact(schema, t) for t in key[1])))


def bare(cmd):
    """A command without its options and comment."""
    return cmd[:-1] + ({},) if isinstance(cmd[-1], dict) else cmd


def head_rule(c, schema):
    name = c.name("a name")
    c.sign(":")
    left = c.listed(lambda: T.atom(c, schema))
    c.sign("->")
    return ("mapping", name, tuple(left), tuple(c.listed(lambda: T.atom(c, schema))))


def item_line(schema, item):
    return "%d %s%s" % (item.number, "" if item.steps == STEPS else "steps %d " % item.steps,
                        T.show_line(schema, item.line))


def read_item(text, schema, mappings):
    number, _, rest = text.partition(" ")
    steps = STEPS
    if rest.startswith("steps "):
        _, s, rest = rest.split(" ", 2)
        steps = int(s)
    w = rest.split(" ", 1)
    if w[0] == "force":
        return int(number), steps, ("force", T.Cursor(w[1]).name("a mapping"))
    if w[0] == "fix":
        c = T.Cursor(w[1])
        name = c.name("a mapping")
        c.sign("(")
        vs = []
        while not c.is_sign(")"):
            vs.append(c.value())
            if c.is_sign(","):
                c.sign(",")
        return int(number), steps, ("fix", name, tuple(vs))
    return int(number), steps, T.parse(rest, schema, mappings)
