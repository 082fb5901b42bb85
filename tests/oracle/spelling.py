"""Other spellings of a session, and texts that are close to one and mostly refused."""
from .tokens import Fault, lex_line

BLANKS = [b"", b"", b" ", b" ", b"  ", b"\t", b" \r "]
BLANK_LINES = [b"", b"  ", b"\t# note", b"#", b"\r", b'# "open', "# \u00e9\u20ac".encode()]
WORDY = ("name", "number", "null")

PIECES = [b'"', b"\\", b"\n", b"(", b")", b",", b":", b"-", b">", b"?", b".", b"#", b" ", b"0", b"9", b"A", b"_", b"\t", b"\r",
          b"\0", b"\x7f", b"\xff", b"\xc3", "\u00e9".encode(), b"\xed\xa0\x80", b"->", b"-5", b"?1.1", b"?.", b"?5", b"x", b"@",
          b"9223372036854775807", b"9223372036854775808", b"-9223372036854775808", b"-9223372036854775809",
          b"?4294967295.4294967295", b"?4294967296.1", b"?1.4294967296", b"?0.00000000001", b'"a', b'"\\t"', b'"\\"', b"end", b"*"]

LINES = [line.encode() for line in """
youtopia 1|youtopia 2|youtopia 01|youtopia 3|youtopia|youtopia 1 1|Youtopia 1
relation|relation A|relation A 1|relation Z 0|relation Z 9|relation Z -1|relation Z 1 2|relation Z 08|relation 5 1|relation Q 8|relation end 1
mapping|mapping q|mapping q:|mapping q: ->|mapping q: A(x) ->|mapping q: -> A(x)|mapping q: A(x), -> B(x)|mapping q: A(x) B(x)
mapping q: A(x) -> B(x),|mapping q: A() -> B(x)|mapping q: A(x -> B(x)|mapping q: A(?0.1) -> B(x)|mapping q: A(x) -> B(x) C(x)
mapping q: A(x) -> A(x)|mapping q: A(x) -> A(1)|mapping q: A(x) -> Nope(x)|mapping q: Nope(x) -> A(x, x, x, x)|mapping m1: A(x) -> B(x)
mapping q A(x) -> B(x)|mapping q: (x) -> B(x)|mapping q: A(x) -> (x)|mapping q: A x -> B(x)|mapping 5: A(x) -> B(x)
base|base A|base A(|base A()|base A(1|base A(1,|base A(1) 2|base A(x)|base A(?1.1)|base A(?0.1)|base Nope(1)|base A(1, 2, 3, 4)|base A(1))
base 1|base A("a\\x")|base A("a|base A("a\\|base A("\\n\\\\\\"")|base A(-)|base A(--1)
update|update z|update z k|update z k foo|update z k insert|update z k insert A(x)|update z k insert A(1) 2|update z k insert Nope(1)
update z k insert A(1, 2, 3, 4)|update z k insert A(?9999.1)|update z k insert Nope(?9999.1)|update z k replace|update z k replace 1 with 2
update z k replace ?0.1|update z k replace ?0.1 with|update z k replace ?0.1 with x|update z k replace ?0.1 wit 2
update z k replace ?0.1 with 2 3|update z k replace ?9999.1 with 2|update z k replace ?0.1 with ?9999.1|update u1 k insert A(1)
update z k mapping q: A(x) -> B(x)|update z k mapping m1: A(x) -> B(x, v)|update z k mapping q: A(x) -> A(x)|update z k mapping q: A(x) ->
update z k mapping|update 1 k insert A(1)|update z 1 insert A(1)|update z k delete A(1), A(2)
answer|answer u1|answer nobody expand|answer u1 foo|answer u1 expand 1|answer u1 unify|answer u1 unify A(1) 1|answer u1 unify A(?9999.1)
answer u1 unify Nope(1)|answer u1 unify A(1, 2, 3, 4)|answer u1 delete|answer u1 delete A(1),|answer u1 delete A(1) A(1)
answer u1 delete A(1), Nope(1)|answer u1 unify A(?1.1)|answer u1 unify A(?0.1)|answer u1 delete A(?2.1), A(1)|answer 1 expand
end|end 1|end end|foo|1|(|?0.1|"x"|end # x|End""".strip().replace("\n", "|").split("|")] + [
    b'base A("' + b"x" * 256 + b'")', b'base A("' + b"x" * 257 + b'")', b'base A("' + b'\\"' * 256 + b'")',
    b"mapping q: " + b", ".join([b"A(x)"] * 8) + b" -> A(v)", b"mapping q: " + b", ".join([b"A(x)"] * 9) + b" -> A(v)",
    b"mapping q: A(x) -> " + b", ".join([b"A(v)"] * 9)]


def respelled_line(rng, line):
    spelled, last = b"", None
    for kind, start, end, _ in lex_line(line, 0)[0]:
        gap, piece = rng.choice(BLANKS), line[start:end]
        if last in WORDY and kind in WORDY and not gap:
            gap = b" "
        if kind == "number" and rng.random() < 0.15:
            piece = (b"-000" if piece.startswith(b"-") else b"00") + piece.lstrip(b"-")
        if kind == "null" and rng.random() < 0.15:
            piece = piece.replace(b"?", b"?0").replace(b".", b".00")
        spelled, last = spelled + gap + piece, kind
    return spelled + (rng.choice([b" ", b" # c", b"#c", b"\r", b" \t"]) if rng.random() < 0.1 else b"")


def respell(rng, text):
    """Another spelling of the same session."""
    lines = [respelled_line(rng, line) for line in text.split(b"\n")[:-1]]
    base = [i for i, line in enumerate(lines) if line.split()[:1] == [b"base"]]
    if base and rng.random() < 0.3:
        facts = [lines[i] for i in base]
        lines[base[0]:base[-1] + 1] = rng.sample(facts, len(facts)) + [rng.choice(facts)]
    spelled = []
    for line in lines:
        while rng.random() < 0.1:
            spelled.append(rng.choice(BLANK_LINES))
        spelled.append(line)
    while rng.random() < 0.15:
        spelled.append(rng.choice([b"", b"# after", b"  "]))
    return b"\n".join(spelled) + b"\n" * (rng.random() < 0.9)


def without_a_token(rng, line):
    try:
        tokens, _ = lex_line(line, 0)
    except Fault:
        return line
    if not tokens:
        return line
    _, start, end, _ = rng.choice(tokens)
    return line[:start] + line[end:] if rng.random() < 0.7 else line[:end] + b" " + line[start:]


def with_a_line(rng, lines):
    """Puts a line that is often wrong near to lines of its kind, or near to the end."""
    line = rng.choice(LINES)
    alike = [i for i, other in enumerate(lines) if other.split()[:1] == line.split()[:1]]
    if alike and rng.random() < 0.85:
        at = rng.choice(alike) + 1
    else:
        at = max(0, len(lines) - 2) if rng.random() < 0.6 else rng.randrange(len(lines) + 1)
    return lines[:at] + [line] + lines[at + (rng.random() < 0.15):]


def mangled_lines(rng, text):
    lines = text.split(b"\n")
    at, other = rng.randrange(len(lines)), rng.randrange(len(lines))
    kind = rng.choice(["drop"] * 4 + ["double"] * 2 + ["swap"] * 2 + ["token"] * 3 + ["add"] * 12)
    if kind == "drop":
        del lines[at]
    elif kind == "double":
        lines.insert(other, lines[at])
    elif kind == "swap":
        lines[at], lines[other] = lines[other], lines[at]
    elif kind == "token":
        lines[at] = without_a_token(rng, lines[at])
    else:
        lines = with_a_line(rng, lines)
    return b"\n".join(lines)


def mangled_bytes(rng, text):
    at = rng.randrange(len(text) + 1)
    kind = rng.choice(["cut"] * 2 + ["add"] * 4 + ["put"] * 2 + ["drop"])
    if kind == "cut":
        return text[:at]
    if kind == "drop":
        return text[:at] + text[at + rng.choice([1, 1, 2, 5]):]
    return text[:at] + rng.choice(PIECES) + text[at + (kind == "put"):]


def mangle(rng, text):
    """A text close to a session's text: one to three bytes or lines are dropped, added, doubled or changed."""
    for _ in range(rng.choice([1, 1, 1, 2, 3])):
        text = mangled_lines(rng, text) if rng.random() < 0.6 else mangled_bytes(rng, text)
    return text
