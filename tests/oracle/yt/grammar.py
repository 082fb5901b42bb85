"""The command of a line of yt: a tuple that begins with its verb and ends with its options."""
import re

from .cursor import NULL, OPTION, Cursor
from .faults import Fault, mean
from .printing import control
from .verbs import CHANGES, OPTIONS, RECORDS, SAME, UNTOLD, VERBS


class Schema:
    """Names of relations with their columns; a column is (name, whether it belongs to the key)."""

    def __init__(self):
        self.relations = []

    def names(self):
        return [r[0] for r in self.relations]

    def find(self, name, at=None):
        for i, r in enumerate(self.relations):
            if r[0] == name:
                return i
        raise Fault("there is no relation %s" % name, at,
                    mean(name, self.names()) or ("known: " + ", ".join(self.names()) if self.relations else
                                                 "make one: relation %s(COLUMN, ..)" % name), 3)

    def form(self, r):
        name, cols = self.relations[r]
        return "%s(%s)" % (name, ", ".join(c + ("*" if k else "") for c, k in cols))


def fact(c, schema, news=False, any=False):
    at = c.i
    name = c.name("a relation")
    if not c.is_sign("("):
        c.fail("( behind %s" % name)
    values = c.many(lambda: c.value(news, any))
    r = schema.find(name, at)
    if len(schema.relations[r][1]) != len(values):
        raise Fault("%s has %d column%s, found %d" % (name, len(schema.relations[r][1]),
                    "" if len(schema.relations[r][1]) == 1 else "s", len(values)), at, "it is " + schema.form(r), 3)
    return (r, tuple(values))


def atom(c, schema):
    at = c.i
    name = c.name("a relation")

    def term():
        if c.is_name():
            return ("v", c.name("a variable"))
        if NULL.match(c.s, c.i) or c.is_sign("?"):
            c.fail("a variable, number or text", "a variable is a plain name such as x")
        v = c.value()
        return ("c", v)

    if not c.is_sign("("):
        c.fail("( behind %s" % name)
    terms = c.many(term)
    r = schema.find(name, at)
    if len(schema.relations[r][1]) != len(terms):
        raise Fault("%s has %d column%s, found %d" % (name, len(schema.relations[r][1]),
                    "" if len(schema.relations[r][1]) == 1 else "s", len(terms)), at, "it is " + schema.form(r), 3)
    return (r, tuple(terms))


def plain_name(c, what):
    at = c.i
    n = c.name(what)
    if n.startswith("_") or n.lower().startswith("yt_"):
        raise Fault("names that begin with _ or yt_ are kept for yt", at, None, 3)
    return n


def rule(c, schema):
    """NAME : LEFT -> RIGHT; each _ is a variable of its own."""
    name = plain_name(c, "a name of the mapping")
    c.sign(":", ": behind the name of the mapping")
    at = c.i
    left = c.listed(lambda: atom(c, schema))
    c.sign("->", "a comma or ->")
    right = c.listed(lambda: atom(c, schema))
    for side in (left, right):
        if len(side) > 8:
            raise Fault("a side has 8 atoms at most", at)
    return ("mapping", name, tuple(left), tuple(right))


def query(c, schema):
    """[NAME ( NAME, .. ) :] ATOM {, ATOM}: (head names or None, atoms)."""
    save = c.i
    head = None
    if re.match(r"[A-Za-z_][A-Za-z0-9_]*\s*\([^()]*\)\s*:", c.s[c.i:]):
        c.name("a name")
        head_at = c.i
        head = c.many(lambda: c.name("a variable"))
        c.sign(":")
    atoms = c.listed(lambda: atom(c, schema))
    body = []
    for _, terms in atoms:
        for k, v in terms:
            if k == "v" and v not in body and v != "_":
                body.append(v)
    for h in head or ():
        if h not in body:
            raise Fault("variable %s stands in no atom" % h, head_at, mean(h, body))
    if head is None:
        head = body
    if not head:
        raise Fault("the query has no variable", save)
    return head, atoms


def options(c, verb):
    """{option: value} at the end of the line."""
    known, out = OPTIONS.get(verb, {}), {}
    taken = {**known, **UNTOLD.get(verb, {})}
    while not c.done():
        m = OPTION.match(c.s, c.i)
        if not m:
            c.fail("the end of the line")
        name, at = m.group(1), c.i
        if name not in taken:
            raise Fault("%s has no option --%s" % (verb, name), at, mean(name, known) or
                        ("it has " + ", ".join("--" + o for o in known) if known else "it has none"))
        if name in out:
            raise Fault("--%s stands twice" % name, at)
        c.i = m.end()
        c.skip()
        kind = taken[name]
        if kind is None:
            out[name] = True
        elif kind == "number":
            out[name] = c.number("a number behind --%s" % name, *((0, 2 ** 32 - 1) if name in RECORDS else (1, 1000000)))
        else:
            out[name] = c.word("a word behind --%s" % name)
    return out


def numbers(c):
    """N, N..M, .."""
    def one():
        at = c.i
        lo = c.number("the number of an update", 1, 2 ** 32 - 1)
        hi = lo
        if c.is_sign(".."):
            c.sign("..")
            hi = c.number("a number", 1, 2 ** 32 - 1)
            if hi < lo or hi - lo > 1000000:
                raise Fault("the range %d..%d is empty or too long" % (lo, hi), at)
        return range(lo, hi + 1)
    return [n for r in c.listed(one) for n in r]


def parse(line, schema, mappings):
    """A command: a tuple that begins with its verb; its last member holds the options."""
    try:
        line.encode()
    except UnicodeEncodeError:
        raise Fault("the line is not UTF-8", 0)
    c = Cursor(line)
    if c.done():
        return None
    at = c.i
    if not c.is_name():
        c.fail("a command", "`help` lists them")
    verb = c.name("a command")
    if verb == "exit":
        verb = "quit"
    if verb not in VERBS:
        raise Fault("%s is no command" % verb, at, "did you mean %s?" % SAME[verb.lower()] if verb.lower() in SAME else
                    mean(verb, VERBS) or "`help` lists them")
    cmd = body(c, verb, schema, mappings) if verb != "try" else attempt(c, schema, mappings)
    cmd[-1]["#"] = "".join("\\u{%x}" % ord(x) if control(x) else x for x in c.comment)
    return cmd


def attempt(c, schema, mappings):
    at = c.i
    verb = c.name("a command behind try")
    if verb not in CHANGES - {"fold"}:
        raise Fault("try takes a command that changes something", at, mean(verb, CHANGES - {"fold"}))
    inner = body(c, verb, schema, mappings)
    return ("try", inner, {})


def body(c, verb, schema, mappings):
    def opts():
        return options(c, verb)

    def mapping_name():
        at = c.i
        n = c.name("a mapping")
        if n not in mappings:
            raise Fault("there is no mapping %s" % n, at, mean(n, list(mappings)) or
                        ("known: " + ", ".join(mappings) if mappings else None), 3)
        return n

    if verb == "relation":
        name = plain_name(c, "a name of the relation")
        if c.is_number():
            n = c.number("columns", 1, 8)
            cols = [("c%d" % i, False) for i in range(1, n + 1)]
        else:
            def col():
                at = c.i
                x = plain_name(c, "a column")
                if x.lower() in seen:
                    raise Fault("column %s stands twice" % x, at)
                seen.add(x.lower())
                k = c.is_sign("*")
                if k:
                    c.sign("*")
                return (x, k)
            seen, at = set(), c.i
            if not c.is_sign("("):
                c.fail("( and the columns", "such as relation %s(title, painter)" % name)
            cols = c.many(col)
            if len(cols) > 8:
                raise Fault("a relation has 8 columns at most", at)
        return (verb, name, tuple(cols), opts())
    if verb == "mapping":
        return rule(c, schema) + (opts(),)
    if verb in ("adopt", "drop"):
        return (verb, mapping_name(), opts())
    if verb in ("insert", "delete"):
        return (verb, tuple(c.listed(lambda: fact(c, schema, verb == "insert", verb == "delete"))), opts())
    if verb == "replace":
        if c.is_sign("?"):
            n = c.value()
            if not c.is_name("with"):
                c.fail("with")
            c.name("with")
            return (verb, n, c.value(), opts())
        if not c.is_name():
            c.fail("an unknown such as ?12.1, or a tuple")
        old = fact(c, schema, False, True)
        if not c.is_name("with"):
            c.fail("with")
        c.name("with")
        return (verb, old, fact(c, schema, True, True), opts())
    if verb == "answer":
        ns = tuple(dict.fromkeys(numbers(c)))
        n = ns[0] if len(ns) == 1 else ns
        choice = ("go",)
        if len(ns) > 1:
            if c.is_name("new") or c.is_name("expand"):
                c.name("new")
                choice = ("expand",)
            elif c.is_name("go"):
                c.name("go")
            else:
                c.fail("new or go", "several updates take the answer new or go alone")
        elif c.is_number():
            choice = ("pick", tuple(c.listed(lambda: c.number("a candidate's number", 1, 2 ** 32 - 1))))
        elif c.is_name("new") or c.is_name("expand"):
            c.name("new")
            choice = ("expand",)
        elif c.is_name("go"):
            c.name("go")
        elif c.is_name("unify") and not re.match(r"unify\s*\(", c.s[c.i:]):
            c.name("unify")
            choice = ("unify", fact(c, schema))
        elif c.is_name("delete") and not re.match(r"delete\s*\(", c.s[c.i:]):
            c.name("delete")
            choice = ("delete", tuple(c.listed(lambda: fact(c, schema))))
        elif not c.done() and not c.is_sign("--"):
            choice = ("facts", tuple(c.listed(lambda: fact(c, schema))))
        return (verb, n, choice, opts())
    if verb in ("undo", "redo"):
        return (verb, tuple(numbers(c)), opts())
    if verb == "load":
        name = c.name("a relation")
        at = c.i
        path = None if OPTION.match(c.s, c.i) else c.word("a file")
        out = opts()
        if path is None and "lines" not in out:
            c.i = at
            c.fail("a file", "or --lines N: the next N lines of the input")
        if path is not None and "lines" in out:
            raise Fault("a file or --lines, not both", at)
        return (verb, name, path, out)
    if verb == "show":
        what = []
        while c.is_name():
            at = c.i
            save = c.i
            n = c.name("a relation")
            if c.is_sign("("):
                c.i = save
                what.append(atom(c, schema))
            else:
                what.append((schema.find(n, at), None))
            if c.is_sign(","):
                c.sign(",")
        return (verb, tuple(what), opts())
    if verb == "ask":
        return (verb, query(c, schema), opts())
    if verb == "why":
        return (verb, c.value() if c.is_sign("?") else fact(c, schema, False, True), opts())
    if verb in ("questions", "log"):
        n = c.number("the number of an update", 1, 2 ** 32 - 1) if c.is_number() else None
        return (verb, n, opts())
    if verb == "violations":
        return (verb, mapping_name() if c.is_name() else None, opts())
    if verb == "export":
        what = None
        if c.is_name():
            at = c.i
            what = schema.find(c.name("a relation"), at)
        return (verb, what, opts())
    if verb == "help":
        at = c.i
        v = c.name("a command") if c.is_name() else None
        if v and v not in VERBS:
            raise Fault("%s is no command" % v, at, mean(v, VERBS))
        return (verb, v, opts())
    return (verb, opts())        # fold, status, graph, page, dump, quit


def lines_of(line):
    """The number of the next lines of the input that belong to this one, even if it is refused: `load .. --lines N`."""
    load = re.match(r"[ \t\r]*(try[ \t\r]+)?load(?![A-Za-z0-9_])[ \t\r]*([A-Za-z_][A-Za-z0-9_]*)?", line)
    if not load:
        return 0
    bare = re.split(r"[ \t\r]#", re.sub(r'"(\\.|[^"\\])*"', '""', " " + line[load.end():]))[0]
    m = re.search(r"[ \t\r]--lines[ \t\r]*([0-9]+)", bare)
    return int(m.group(1)) if m else 0


def reads_input(line):
    """Whether the line is `load NAME -`."""
    try:
        cmd = parse(line, Schema(), {})
    except Fault:
        return False
    cmd = cmd[1] if cmd and cmd[0] == "try" else cmd
    return bool(cmd) and cmd[0] == "load" and cmd[2] == "-"
