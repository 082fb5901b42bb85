"""Garbled commands and garbled files of comma-separated values, drawn at random."""
import re
from functools import lru_cache

TOKEN = re.compile(r'"(?:[^"\\]|\\.)*"|--\w+|[\w.]+|\s+|.', re.S)
WORDS = ("insert delete replace with mapping relation adopt drop answer undo redo try load show ask why questions violations log status export page graph "
         "dump help quit fold new go expand unify -> , ( ) : .. * ; # ? ?x ?1.1 ?99.2 _ 0 -1 1 007 -0 9223372036854775807 9223372036854775808 "
         '1.5 "" "a" "12" "\\n" "\\u{7f}" "\\u{0}" "\\u{d800}" "\\u{110000}" --json --limit --steps --still --at --only --cascade --answers --unknowns --like '
         "--from --since --mine --create --lines --to x t Painting painting Painter _fix_m yt_x select update").split() + ['"a b"', '"\\q"', "'a'", "“a”"]
ODD = list("'\"\\?#;:*_.,()-><=|&\t \u00a0\u00e9\u65e5\u0301\u202e\u200b\ufeff\x01\x7f\x85\u2028") + ["\U0001f600", "\r", "\x00", "\x1b[31m"]


def garbled_line(rng, line):
    """The bytes of this command, damaged one to three times."""
    tokens = list(tokens_of(line))
    for _ in range(rng.choice([1, 1, 1, 2, 3])):
        at = rng.randrange(len(tokens) + 1)
        tokens[at:at + rng.randrange(2)] = rng.choice(DAMAGES)(rng, tokens, at)
    raw = "".join(tokens).replace("\n", " ").encode("utf-8", "surrogatepass")
    if rng.random() < 0.08:
        raw = raw[:rng.randrange(len(raw) + 1)]
    if rng.random() < 0.04:
        at = rng.randrange(len(raw) + 1)
        raw = raw[:at] + rng.choice([b"\xff", b"\xc3", b"\xe2\x82", b"\xed\xa0\x80", b"\xf5\x80\x80\x80"]) + raw[at:]
    return raw if b" --to" not in raw and b"quit" not in raw and b"exit" not in raw else b"status"


@lru_cache(1000)
def tokens_of(line):
    return TOKEN.findall(line)


# What may come in place of a token, or in front of it.
DAMAGES = [
    lambda rng, tokens, at: [],
    lambda rng, tokens, at: [rng.choice(WORDS)],
    lambda rng, tokens, at: [" ", rng.choice(WORDS), " "],
    lambda rng, tokens, at: [rng.choice(ODD)],
    lambda rng, tokens, at: tokens[at:at + 1] * 2,
    lambda rng, tokens, at: tokens[at + 1:at + 2] + tokens[at:at + 1],
    lambda rng, tokens, at: [rng.choice(LONG)],
]
LONG = ['"%s"' % ("x" * size) for size in (255, 256, 257, 5000)] + ['"%s"' % ("\u00e9" * size) for size in (128, 129)] + [
    *("9" * size for size in (19, 20, 400)), *("(" * size for size in (2, 300)), *("n" * size for size in (64, 300)),
    *(", ".join("Loan(%d, 1)" % number for number in range(size)) for size in (9, 300)),
    *("1..%d" % number for number in (2, 999999, 4294967295, 4294967296))]


# ---- files ----

CELLS = ["", "1", "2", "-3", "007", "-0", "+4", "1.5", "1e3", "9223372036854775807", "9223372036854775808", "-9223372036854775808", "a", "A", " a", "a ",
         "Utrecht", "utrecht", "?1.1", "?3.1", "?9.9", "?", "_", "n/a", "NULL", '"', '""', '"a"', '"a""b"', '"a,b"', '"a\nb"', '"a\r\nb"', '"a"b', 'a"b',
         '" a "', '"12"', "O'Brien", "\u00e9", "\u65e5\u672c", "\U0001f600", "\u202e", "\x01", "\x00", "\x7f", "a\tb", "=1+1", "\\n", "#", "x" * 256, "x" * 257, "\u00e9" * 129]
HEADS = [["x", "y"], ["y", "x"], ["x"], ["x", "x"], ["x", "y", "z"], ["name", "town", "born"], ["born", "town", "name"], [" name ", "Town", "born"],
         ["Name of it", "2nd", "\u00e9"], [""], ["x", ""], ['"x"', '"y"'], ["_x", "yt_y"], list("abcdefghi")]


def garbled_file(rng):
    """The bytes of a file."""
    separator = rng.choice([","] * 8 + [";", "\t"])
    head = rng.choice(HEADS)
    tidy = rng.random() < 0.4
    rows = [separator.join(head)]
    for _ in range(rng.choice([0, 1, 2, 5, 20])):
        size = len(head) if tidy or rng.random() < 0.9 else rng.randrange(len(head) + 3)
        rows.append(separator.join(rng.choice(CELLS[1:17] if tidy else CELLS) for _ in range(size)))
    if rng.random() < 0.1:
        rows.insert(rng.randrange(len(rows) + 1), "")
    if rng.random() < 0.02:
        rows.append("1" + separator + rng.choice(["", '"']) + "m" * 1000000 + rng.choice(["", '"', '",2']))
    end = rng.choice(["\n"] * 6 + ["\r\n", "\r\n", "\r"])
    data = (rng.choice([""] * 7 + ["\ufeff"]) + end.join(rows) + rng.choice([end, end, "", "\n\n"])).encode()
    if rng.random() < 0.05:
        at = rng.randrange(len(data) + 1)
        data = data[:at] + rng.choice([b"\xff", b"\xc3", b"\xe2\x82", b"\xfe\xff"]) + data[at:]
    return data if rng.random() < 0.97 else b""


OPTIONS = ["--create", "--create", "--empty new", "--empty new", "--empty text", "--empty skip", "--empty refuse", "--empty odd", "--null n/a", "--null n/a,NULL",
           '--separator ";"', "--separator tab", '--separator ",,"', "--text x", "--text y,x", "--text nothing", "--unknowns", "--columns x,y", "--columns name,town,born",
           "--columns y", "--columns x,x", "--steps 2"]


def load_lines(rng, path, data):
    """One to three lines that load the file, or load its lines from the script."""
    out = b""
    for _ in range(rng.choice([1, 1, 2, 3])):
        words = " ".join(rng.sample(OPTIONS, rng.choice([0, 1, 1, 2, 3])))
        name = rng.choice(["A", "A", "B", "B", "C", "Nothing"])
        attempt = rng.choice(["", "", "", "try "])
        if rng.random() < 0.25:
            count = data.count(b"\n") + rng.choice([0, 0, 1, 3])
            out += f"{attempt}load {name} --lines {max(1, count)} {words}\n".encode() + data + (b"" if data.endswith(b"\n") else b"\n")
        else:
            out += f"{attempt}load {name} {path} {words}\n".encode()
    return out
