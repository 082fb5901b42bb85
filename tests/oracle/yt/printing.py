"""The printed forms of values, tuples, lines and numbers of yt."""


def control(ch):
    return ord(ch) < 32 or 127 <= ord(ch) < 160 or ch in "\u061c\u200e\u200f\u2028\u2029\u202a\u202b\u202c\u202d\u202e\u2066\u2067\u2068\u2069"


def escaped(text):
    """The text with each control character as an escape, so that none of them acts on a terminal."""
    return "".join("\\u{%x}" % ord(ch) if control(ch) else ch for ch in text)


def quoted(b):
    out = []
    for ch in b.decode():
        out.append({'"': '\\"', "\\": "\\\\", "\n": "\\n"}.get(ch) or
                   ("\\u{%x}" % ord(ch) if control(ch) else ch))
    return '"' + "".join(out) + '"'


def show_value(v):
    if v[0] == 0:
        return str(v[1])
    if v[0] == 1:
        return quoted(v[1])
    if v[0] == 2:
        return "?%d.%d" % (v[1], v[2])
    return "?" + v[1] if v[0] == 3 else "_"


def show_fact(schema, t):
    return "%s(%s)" % (schema.relations[t[0]][0], ", ".join(map(show_value, t[1])))


def show_atoms(schema, atoms):
    return ", ".join("%s(%s)" % (schema.relations[r][0], ", ".join(v if k == "v" else show_value(v) for k, v in ts))
                     for r, ts in atoms)


def show_choice(schema, ch):
    if ch[0] in ("expand", "go"):
        return ch[0]
    return ch[0] + " " + (show_fact(schema, ch[1]) if ch[0] == "unify" else ", ".join(show_fact(schema, t) for t in ch[1]))


def show_line(schema, c):
    """A command's printed form, without options."""
    v = c[0]
    if v == "relation":
        return "relation %s(%s)" % (c[1], ", ".join(n + ("*" if k else "") for n, k in c[2]))
    if v == "mapping":
        return "mapping %s: %s -> %s" % (c[1], show_atoms(schema, c[2]), show_atoms(schema, c[3]))
    if v in ("adopt", "drop", "force"):
        return "%s %s" % (v, c[1])
    if v in ("insert", "delete"):
        return v + " " + ", ".join(show_fact(schema, t) for t in c[1])
    if v == "replace":
        if len(c[1]) == 3:
            return "replace %s with %s" % (show_value(c[1]), show_value(c[2]))
        return "replace %s with %s" % (show_fact(schema, c[1]), show_fact(schema, c[2]))
    if v == "fix":
        return "fix %s(%s)" % (c[1], ", ".join(map(show_value, c[2])))
    if v == "answer":
        return "answer %s %s" % (c[1] if isinstance(c[1], int) else span(c[1]), show_choice(schema, c[2]))
    if v in ("undo", "redo"):
        return "%s %s" % (v, span(c[1])) + (" --answers" if "answers" in c[2] else "")
    raise AssertionError(v)


def span(numbers):
    """3..9, 12"""
    out, i = [], 0
    while i < len(numbers):
        j = i
        while j + 1 < len(numbers) and numbers[j + 1] == numbers[j] + 1:
            j += 1
        out.append(str(numbers[i]) if i == j else "%d..%d" % (numbers[i], numbers[j]))
        i = j + 1
    return ", ".join(out)
