#!/usr/bin/env python3
"""long.py PROGRAM LIVE [cheap]: inputs at the limits, one beyond them, and long in every other way, within 4 GiB and 20 seconds.

The right answer stands beside each input, or comes from the reference if the reference is quick; likewise for conversations with
yt_live, which is LIVE. After them comes a large session with less and less memory. Last come sessions whose matching explodes:
only the clock of the caller ends them, and nothing is written then. The last line is 'N passed, M failed'.
"""
import sys

from running import Tally, told_within, youtopia

LIMIT = 16777216
MEGABYTES, SECONDS = 4096, 20
ONE = b"youtopia 1\nrelation A 1\n"
TWO = b"youtopia 2\nrelation A 1\n"
END = b"end\n"


def fault(line, number, words):
    return 3, b"", b"youtopia: session line %d: fault %d: %s\n" % (line, number, words)


def ended(text):
    return 0, text, b""


def counts(relations, mappings, base, updates, answers):
    return ended(b"ok relations %d mappings %d base %d updates %d answers %d\n" % (relations, mappings, base, updates, answers))


def lines(form, count, start=1):
    return b"".join(form % number for number in range(start, start + count))


# ---- tokens ----

def tokens():
    """At the limits of a token; the reference has the right answer."""
    for text in (b'\\"' * 256, b"\\n" * 256, "\u00e9".encode() * 128, b"\\\\" * 255 + b"x",
                 b'\\"' * 257, b"\\n" * 256 + b"x", "\u00e9".encode() * 128 + b"x"):
        yield "text", ["format"], ONE + b'base A("' + text + b'")\n' + END
        yield "text in a mapping", ["format"], ONE + b'relation B 1\nmapping m: A("' + text + b'") -> B("' + text + b'")\n' + END
        yield "text in a query", ["ask", "--query", 'q(x): A(x), A("' + text.decode() + '")'], ONE + END
    for number in (b"9223372036854775807", b"-9223372036854775808", b"9223372036854775808", b"-9223372036854775809"):
        for zeros in (b"", b"0" * 100000):
            spelled = b"-" + zeros + number[1:] if number.startswith(b"-") else zeros + number
            yield "number", ["format"], ONE + b"base A(" + spelled + b")\n" + END
    for null in (b"?0.4294967295", b"?0.4294967296", b"?4294967295.1", b"?4294967296.1", b"?0." + b"0" * 100000 + b"1", b"?" + b"0" * 100000 + b".1"):
        yield "null", ["format"], ONE + b"base A(" + null + b")\n" + END
        yield "replaced null", ["run"], ONE + b"update a ann replace " + null + b" with 1\n" + END
    for columns in (7, 8, 9):
        row = b", ".join([b"1"] * columns)
        yield "columns", ["format"], b"youtopia 1\nrelation A 8\nbase A(" + row + b")\n" + END
        yield "columns declared", ["check"], b"youtopia 1\nrelation A %d\n" % columns + END
        head = ", ".join(["x"] * columns)
        atoms = ", ".join(["A(x)"] * columns)
        yield "head of a query", ["ask", "--query", f"q({head}): A(x)"], ONE + b"base A(1)\n" + END
        yield "atoms of a query", ["ask", "--query", f"q(x): {atoms}"], ONE + b"base A(1)\n" + END
    yield "long name in a query", ["ask", "--query", "q(x): " + "N" * 100000 + "(x)"], ONE + END
    yield "long value", ["run", "--steps=" + "0" * 100000 + "5"], ONE + END
    yield "long wrong value", ["run", "--steps", "9" * 100000], ONE + END
    yield "many words", ["run"] * 5000, ONE + END
    yield "many dashes", ["--"] * 5000, ONE + END
    yield "long option", ["--" + "x" * 100000], ONE + END


def atoms(count, columns, names):
    """Atoms of A over variables of their own."""
    terms = [names % number for number in range(count * columns)]
    return b", ".join(b"A(" + b", ".join(terms[at * columns:(at + 1) * columns]) + b")" for at in range(count))


def statements():
    """At the limits of a session; the reference has the right answer."""
    for count in (8, 9):
        side = atoms(count, 8, b"x%d")
        yield "atoms", ["format"], b"youtopia 1\nrelation A 8\nrelation B 1\nmapping m: " + side + b" -> B(x1)\n" + END
        yield "atoms", ["format"], b"youtopia 1\nrelation A 8\nrelation B 1\nmapping m: B(x1) -> " + side + b"\n" + END
    for updates in (16, 17):
        yield "mappings added", ["upgrade"], b"youtopia 2\nrelation A 1\nrelation B 1\n" + b"".join(
            b"update u%d ann mapping m%d: A(x) -> B(x)\n" % (number, number) for number in range(1, updates + 1)) + END
    for added in (1, 2):
        yield "mappings in all", ["save"], b"youtopia 2\nrelation A 1\nrelation B 1\n" + lines(b"mapping m%d: A(x) -> B(x)\n", 63) + b"".join(
            b"update u%d ann mapping n%d: A(x) -> B(x)\n" % (number, number) for number in range(added)) + b"update v ann insert A(1)\n" + END
    for answers in (20000, 20001):
        yield "answers", ["run"], TWO + b"update a ann insert A(1)\n" + b"answer a expand\n" * answers + END
    yield "answers beyond format 1", ["upgrade"], ONE + b"update a ann insert A(1)\n" + b"answer a expand\n" * 10001 + END
    for steps in ("300", "301", "1", "0"):
        yield "steps", ["save", "--steps", steps], ONE + b"relation B 1\nmapping m: A(x) -> B(x)\nupdate a ann insert A(1)\n" + END
    for journal in (b"", b"\0", b"\xff" * 4, b"\xff" * 5000, b"\0\0\0\0", b"\0\0\0\0\1\0\0\0\0\0", b"\0\xff\xff\xff" + b"x" * 70000):
        yield "journal", ["recover"], journal


# ---- whole inputs ----

def filled(before, after, filler, size=LIMIT):
    return before + filler * (size - len(before) - len(after)) + after


def wholes():
    """As long as an input may be; the right answer stands beside each input."""
    yield "line feeds alone", ["check"], b"\n" * LIMIT, fault(LIMIT + 1, 20, b"header is not youtopia 1 or 2")
    yield "blank lines, no end", ["run"], filled(b"youtopia 1\n", b"", b"\n"), fault(LIMIT - 9, 25, b"end is missing")
    yield "blank lines, then end", ["check"], filled(b"youtopia 1\n", b"end", b"\n"), counts(0, 0, 0, 0, 0)
    yield "something after blank lines", ["check"], filled(b"youtopia 1\nend\n", b"x", b"\n"), fault(LIMIT - 13, 26, b"something follows end")
    yield "blanks", ["check"], filled(b"youtopia 1", b"\nend\n", b" "), counts(0, 0, 0, 0, 0)
    yield "open parentheses", ["run"], b"(" * LIMIT, fault(1, 20, b"header is not youtopia 1 or 2")
    yield "commas", ["run"], filled(b"youtopia 1\nrelation A", b"", b","), fault(2, 21, b"expected number")
    yield "zeros", ["run"], bytes(LIMIT), fault(1, 10, b"bad byte at 0")
    yield "open text", ["run"], filled(b'youtopia 1\nrelation "', b"", b"a"), fault(2, 11, b"text is not closed, opened at 20")
    yield "closed text", ["run"], filled(b'youtopia 1\nrelation "', b'"', b"a"), fault(2, 13, b"text longer than 256 bytes at 20")
    yield "backslashes", ["run"], filled(b'youtopia 1\nrelation "', b"", b"\\"), fault(2, 11, b"text is not closed, opened at 20")
    yield "no UTF-8 at the end", ["run"], filled(b"youtopia 1\n#", b"\xff", b"a"), fault(2, 10, b"bad byte at %d" % (LIMIT - 1))
    yield "zeros of a number", ["format"], filled(ONE + b"base A(", b"7)\nend\n", b"0"), ended(ONE + b"base A(7)\nend\n")
    yield "nines", ["format"], filled(ONE + b"base A(", b")\nend\n", b"9"), fault(3, 12, b"number out of range at 31")
    name = b"N" * 16777000
    for form in (b"youtopia 1\nrelation %s 1\nend\n", ONE + b"update %s ann insert A(1)\nend\n", ONE + b"update a %s insert A(1)\nend\n"):
        yield "a name", ["format"], form % name, ended(form % name)
    half = b"N" * 8388000
    yield "a name that is unknown", ["run"], ONE + b"base " + half + b"(1)\n" + END, fault(3, 1, b"unknown relation " + half)
    yield "a name that is used twice", ["run"], b"youtopia 1\n" + b"relation %s 1\n" % half * 2, fault(3, 5, b"name %s is used twice" % half)
    yield "values", ["run"], ONE + b"base A(" + b"1," * 8000000 + b"1)\n" + END, fault(3, 2, b"relation A has 1 columns, found 8000001")
    yield "left atoms", ["run"], ONE + b"mapping m: " + b"A(x)," * 3000000 + b"A(x) -> A(x)\n" + END, fault(3, 4, b"more than 8 atoms on a side")
    yield "right atoms", ["run"], ONE + b"mapping m: A(x) -> " + b"A(x)," * 3000000 + b"A(x)\n" + END, fault(3, 4, b"more than 8 atoms on a side")
    deleted = b"update a ann insert A(1)\nanswer a delete " + b"A(1)," * 3000000 + b"A(1)\n"
    yield "facts of an answer", ["check"], ONE + deleted + END, counts(1, 0, 0, 1, 1)
    yield "facts of an answer", ["run"], ONE + deleted + END, ended(
        b"youtopia result 1\nupdate 1 a ann done steps 2 nulls 0\nrepository 1\nA(1)\ncommitted 1 of 1\n")
    yield "one tuple so many times", ["check"], ONE + b"base A(1)\n" * 1677000 + END, counts(1, 0, 1, 0, 0)
    yield "a byte too many", ["check"], bytes(LIMIT + 1), (8, b"", b"youtopia: input longer than 16777216 bytes\n")
    yield "many bytes too many", ["recover"], bytes(5 * LIMIT), (8, b"", b"youtopia: input longer than 16777216 bytes\n")


def session_with(pairs):
    """Mappings whose relations have so many paths that only a careful search for cycles ends."""
    text = b"youtopia 2\n" + lines(b"relation R%d 1\n", 128, 0)
    for layer in range(15):
        left = b", ".join(b"R%d(x)" % (8 * layer + place) for place in range(8))
        right = b", ".join(b"R%d(x)" % (8 * layer + 8 + place) for place in range(8))
        text += b"".join(b"mapping m%dx%d: %s -> %s\n" % (layer, copy, left, right) for copy in range(pairs))
    return text


def sized(payload):
    return len(payload).to_bytes(4, "big") + payload


def sessions():
    """Sessions at several limits at once; the right answer stands beside each session."""
    yield "paths through mappings", ["format"], session_with(4) + END, ended(session_with(4) + END)
    closing = b"mapping back: R127(x) -> R127(x)\n"
    yield "a cycle after them", ["check"], session_with(4) + closing + END, fault(190, 6, b"mapping back closes a plain cycle")
    wide = b"youtopia 2\nrelation A 8\n" + b"".join(
        b'base A(%d, 1, 2, 3, 4, 5, 6, "%s")\n' % (number, b"x" * 125) for number in range(100000)) + END
    yield "base tuples", ["check"], wide, counts(1, 0, 100000, 0, 0)
    yield "base tuples", ["save"], wide, ended(wide)
    yield "base tuples", ["upgrade"], wide, ended(wide)
    unknown = b"youtopia 2\nrelation A 2\n" + b"".join(b"base A(%d, ?0.%d)\n" % (number, number) for number in range(1, 100001)) + END
    yield "nulls", ["save"], unknown, ended(unknown)
    yield "answers to a query", ["ask", "--query", "q(x): A(x, y)"], unknown, ended(
        b"youtopia answers 1\n" + b"".join(b"(%d)\n" % number for number in range(1, 100001)))
    merged = unknown[:-4] + b"update a ann replace ?0.1 with ?0.2\n" + END
    yield "a null replaced among them", ["run"], merged, ended(
        b"youtopia result 1\nupdate 1 a ann done steps 2 nulls 0\nrepository 100000\nA(1, ?0.2)\n" + b"".join(
            b"A(%d, ?0.%d)\n" % (number, number) for number in range(2, 100001)) + b"committed 1 of 1\n")
    chain = b"youtopia 1\n" + lines(b"relation R%d 1\n", 64, 0) + b"".join(
        b"mapping m%d: R%d(x) -> R%d(x)\n" % (place, place - 1, place) for place in range(1, 64))
    updates = b"".join(b"update u%d c%d insert R0(%d)\n" % (number, number % 64, number) for number in range(1, 1001))
    repository = b"".join(b"R%d(%d)\n" % (place, number) for place in range(64) for number in range(1, 1001))
    yield "updates along a chain", ["run", "--steps", "300"], chain + updates + END, ended(
        b"youtopia result 1\n" + b"".join(b"update %d u%d c%d done steps 128 nulls 0\n" % (number, number, number % 64) for number in range(1, 1001))
        + b"repository 64000\n" + repository + b"committed 1000 of 1000\n")
    yield "updates that are spent", ["run"], chain + updates + END, ended(
        b"youtopia result 1\n" + b"".join(b"update %d u%d c%d spent steps 100 nulls 0\n" % (number, number, number % 64) for number in range(1, 1001))
        + b"repository 0\ncommitted 1000 of 1000\n")
    first = sized(b"youtopia 1\nend\n")
    commits = b"".join(b"\1" + sized(b"commit %d\n" % number) for number in range(1, 800001))
    yield "commits", ["recover"], first + commits + b"\0", ended(b"commits 800000\nrepository 0\n")
    yield "commits, cut", ["recover"], first + commits, (12, b"", b"youtopia: journal damaged at %d\n" % len(first + commits))


def at_output_limit():
    """Outputs of the greatest allowed number of bytes, and of one byte more: an update adds a tuple of 8 long texts."""
    text = b"y" * 256
    head = b"youtopia 2\nrelation S 1\nrelation T 8\nrelation Z 2\nmapping m: S(x) -> T(x, x, x, x, x, x, x, x)\n"
    made = b'S("%s")' % text, b"T(" + b", ".join([b'"%s"' % text] * 8) + b")"
    kept = b"".join(b"base %s\n" % fact for fact in made)
    commit = b"commit 1\n" + b"".join(b"+%s\n" % fact for fact in made)
    update = b'update u ann insert S("%s")\n' % text

    def base(size):
        """Tuples of Z that take this number of bytes."""
        whole = b"".join(b'base Z(%d, "%s")\n' % (number, b"z" * 256) for number in range(1000000, 1000000 + size // 276 - 1))
        rest = size - len(whole)
        first, second = rest // 2, rest - rest // 2
        return whole + b"".join(b'base Z(%d, "%s")\n' % (number, b"z" * (length - 20)) for number, length in ((8000000, first), (9000000, second)))

    for beyond in (0, 1):
        tuples = base(LIMIT + beyond - len(head + kept + END))
        yield "saved", ["save"], head + tuples + update + END, (
            (9, b"", b"youtopia: output too large\n") if beyond else ended(head + kept + tuples + END))
        tuples = base(LIMIT + beyond - len(sized(head + END) + b"\1" + sized(commit) + b"\0"))
        yield "journal", ["journal"], head + tuples + update + END, (
            (9, b"", b"youtopia: output too large\n") if beyond else ended(sized(head + tuples + END) + b"\1" + sized(commit) + b"\0"))


# ---- conversations ----

def conversations():
    """As long as the input of yt_live may be; the right answer stands beside each input."""
    opening, ready = b"youtopia 1\nrelation A 1\nend\n", b"ready 0\n"
    name = b"N" * 8388000
    admitted, withdrawn = b'{"event":"admitted","update":1}\n', b'{"causes":[],"committed":1,"event":"withdrawn","update":1}\n'
    yield "blank lines", filled(opening, b"quit", b"\n"), ended(ready + b"bye\n")
    yield "blanks of one line", filled(opening, b"", b" "), ended(ready)
    yield "a comment", filled(opening + b"#", b"\nstep", b"x"), ended(ready + b"idle\n")
    yield "a word", filled(opening, b"\nstep", b"x"), ended(ready + b"refused line\nidle\n")
    yield "open text", filled(opening + b'update a ann insert A("', b"\nstep", b"x"), ended(ready + b"refused line\nidle\n")
    yield "zeros of a number", filled(opening + b"update a ann insert A(", b"7)\n", b"0"), ended(ready + admitted)
    yield "no UTF-8", filled(opening, b"\nstep\n", b"\xff"), ended(ready + b"refused line\nidle\n")
    yield "steps", opening + b"step\n" * 3355000, ended(ready + b"idle\n" * 3355000)
    yield "a label", opening + b"update %s ann insert A(1)\nwithdraw %s\n" % (name, name), ended(ready + admitted + withdrawn)
    yield "a label that is unknown", filled(opening + b"question ", b"\n", b"N"), ended(ready + b"refused label\n")
    yield "values", opening + b"update a ann insert A(" + b"1," * 8000000 + b"1)\n", ended(ready + b"refused fact\n")
    deleted = b"update a ann insert A(1)\nanswer a delete " + b"A(1)," * 3000000 + b"A(1)\n"
    yield "facts of an answer", opening + deleted, ended(ready + admitted + b"refused ready\n")
    yield "the session", filled(b"youtopia 1\n", b"end\nstep\n", b"\n"), ended(ready + b"idle\n")
    yield "the session, which is all", filled(b"youtopia 1\n", b"end", b"\n"), ended(ready)
    longer = 8, ready + b"idle\n", b"yt_live: input longer than 16777216 bytes\n"
    yield "a byte too many", filled(opening + b"step\n", b"step", b"\n", LIMIT + 1), longer
    yield "many bytes too many", filled(opening + b"step\n", b"", b" ", 3 * LIMIT), longer
    yield "a byte too many after the end", filled(opening + b"step\nquit\n", b"step", b"\n", LIMIT + 1), ended(ready + b"idle\nbye\n")


# ---- little memory ----

def narrow(tally, program):
    """A session of 50,000 tuples with less and less memory, so that the system refuses some of it."""
    head = b"youtopia 2\nrelation A 3\nrelation B 2\nmapping m: B(x, y) -> A(x, y, z)\n"
    base = [b'base A(%d, %d, "%s")\n' % (number, number, b"x" * 100) for number in range(50000)]
    data = head + b"".join(base) + b"update a ann insert B(7, 8)\n" + END
    saved = ended(head + b"".join(base[:8]) + b"base A(7, 8, ?0.1)\n" + b"".join(base[8:]) + b"base B(7, 8)\n" + END)
    for megabytes in (*range(8, 256, 8), MEGABYTES):
        told = told_within(program, ["save"], data, megabytes, SECONDS)
        wants = megabytes < MEGABYTES and told[0] == 7
        tally.compare(f"{megabytes} MiB", (7, b"", b"youtopia: out of memory\n") if wants else saved, told)


# ---- matching that explodes ----

NAMES = "abcdefgh"
LEFT = ", ".join(f"A({name})" for name in NAMES).encode()


def met_early():
    """Sessions in which a step has 60 to the power of 8 matches, and the first atom alone would decide."""
    tuples = lines(b"base A(%d)\n", 60) + lines(b"base B(%d)\n", 60)
    many = b"relation A 1\nrelation B 1\nmapping m: %s -> B(a)\n" % LEFT + tuples
    yield "a base that meets a mapping of 8 atoms", ["check"], b"youtopia 1\n" + many + END, counts(2, 1, 120, 0, 0)
    yield "its saved session", ["save"], b"youtopia 1\n" + many + END, ended(b"youtopia 2\n" + many + END)
    few = ONE + b"relation B 1\nrelation C 1\nmapping m: %s, C(z) -> B(z)\n" % LEFT[:LEFT.rindex(b",")] + lines(b"base A(%d)\n", 60) + b"base B(1)\n"
    yield "an update that meets it", ["run"], few + b"update a ann insert C(1)\n" + END, ended(
        b"youtopia result 1\nupdate 1 a ann done steps 2 nulls 0\nrepository 62\n" + lines(b"A(%d)\n", 60) + b"B(1)\nC(1)\ncommitted 1 of 1\n")


def explosions():
    """A query with 60 to the power of 8 answers."""
    query = "q(" + ", ".join(NAMES) + "): " + LEFT.decode()
    yield "a query of 8 atoms", ["ask", "--query", query], ONE + lines(b"base A(%d)\n", 60) + END


def main():
    program, live, cheap = sys.argv[1], sys.argv[2], len(sys.argv) > 3
    tally = Tally()
    for series in (tokens, statements):
        for name, words, data in series():
            if not cheap or len(data) < 100000:
                tally.compare(f"{name}, {words[0]}", youtopia(words, data), told_within(program, words, data, MEGABYTES, SECONDS))
    for series in () if cheap else (wholes, sessions, at_output_limit):
        for name, words, data, wanted in series():
            tally.compare(f"{name}, {words[0]}", wanted, told_within(program, words, data, MEGABYTES, SECONDS))
    for name, data, wanted in () if cheap else conversations():
        tally.compare(f"{name}, yt_live", wanted, told_within(live, [], data, MEGABYTES, SECONDS))
    if not cheap:
        narrow(tally, program)
    for name, words, data, wanted in met_early():
        tally.compare(f"{name}, {words[0]}", wanted, told_within(program, words, data, MEGABYTES, 1))
    for name, words, data in explosions():
        tally.compare(f"{name}, {words[0]}", (-9, b"", b""), told_within(program, words, data, MEGABYTES, 1))
    tally.end()


if __name__ == "__main__":
    main()
