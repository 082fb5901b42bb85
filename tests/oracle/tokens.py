"""The tokens of a line, and the faults of a session."""
import re

# Each kind of fault: its number, and the form of its words, with places for its content.
FAULTS = {
    "UnknownRelation": (1, "unknown relation %s"),
    "Arity": (2, "relation %s has %d columns, found %d"),
    "EmptySide": (3, "empty side"),
    "TooManyAtoms": (4, "more than 8 atoms on a side"),
    "DuplicateName": (5, "name %s is used twice"),
    "PlainCycle": (6, "mapping %s closes a plain cycle"),
    "BadByte": (10, "bad byte at %d"),
    "OpenText": (11, "text is not closed, opened at %d"),
    "WideNumber": (12, "number out of range at %d"),
    "LongText": (13, "text longer than 256 bytes at %d"),
    "Header": (20, "header is not youtopia 1 or 2"),
    "Expected": (21, "expected %s"),
    "UnknownLabel": (22, "unknown label %s"),
    "NullNotBelow": (23, "null ?%d.%d is not below"),
    "LimitReached": (24, "limit reached: %s"),
    "NoEnd": (25, "end is missing"),
    "AfterEnd": (26, "something follows end"),
}


class Fault(Exception):
    """What is wrong with an input, and in which line."""

    def __init__(self, kind, *carries):
        super().__init__(kind, *carries)
        self.number, form = FAULTS[kind]
        self.words = form % carries
        self.line = None


NAME = re.compile(rb"[A-Za-z_][A-Za-z0-9_]*")
NUMBER = re.compile(rb"-?[0-9]+")
NULL = re.compile(rb"\?([0-9]+)\.([0-9]+)")
SIGNS = {b"(": "open", b")": "close", b",": "comma", b":": "colon"}
ESCAPES = {b'"': b'"', b"\\": b"\\", b"n": b"\n"}


def whole(digits, most, place):
    """The number of decimal digits, if it is at most `most`. Long spellings are refused before they are read."""
    digits = digits.lstrip(b"0") or b"0"
    if len(digits) > 19 or int(digits) > most:
        raise Fault("WideNumber", place)
    return int(digits)


def text_at(data, start):
    """The place after a text, and the bytes that it stands for. The first fault from the left counts."""
    place, said = start + 1, bytearray()
    while True:
        byte = data[place:place + 1]
        if byte in (b"", b"\n"):
            raise Fault("OpenText", start)
        if byte == b'"':
            break
        if byte == b"\\":
            place += 1
            byte = data[place:place + 1]
            if byte in (b"", b"\n"):
                raise Fault("OpenText", start)
            if byte not in ESCAPES:
                raise Fault("BadByte", place)
            byte = ESCAPES[byte]
        said += byte
        place += 1
    if len(said) > 256:
        raise Fault("LongText", start)
    return place + 1, bytes(said)


def token_at(data, start):
    """The longest token at a place that is no blank: its kind, its beginning and end, and its content."""
    if found := NAME.match(data, start):
        return "name", start, found.end(), found.group().decode()
    if found := NUMBER.match(data, start):
        negative = found.group().startswith(b"-")
        size = whole(found.group().lstrip(b"-"), 2 ** 63 - (not negative), start)
        return "number", start, found.end(), -size if negative else size
    byte = data[start:start + 1]
    if byte == b"?":
        found = NULL.match(data, start)
        if not found:
            raise Fault("BadByte", start)
        update, place = (whole(part, 4294967295, start) for part in found.groups())
        return "null", start, found.end(), (2, update, place, 0)
    if byte == b'"':
        end, said = text_at(data, start)
        return "text", start, end, (1, said)
    if data[start:start + 2] == b"->":
        return "arrow", start, start + 2, None
    if byte in SIGNS:
        return SIGNS[byte], start, start + 1, None
    raise Fault("BadByte", start)


def lex_line(data, start):
    """The tokens of the line that begins there, and the beginning of the next line, None at the end of the input."""
    tokens, place = [], start
    while place < len(data):
        byte = data[place:place + 1]
        if byte == b"\n":
            return tokens, place + 1
        if byte in b" \t\r":
            place += 1
        elif byte == b"#":
            end = data.find(b"\n", place)
            return (tokens, None) if end < 0 else (tokens, end + 1)
        else:
            tokens.append(token_at(data, place))
            place = tokens[-1][2]
    return tokens, None


def line_of(text):
    """The tokens of a text of one line, or None."""
    try:
        text.decode("utf-8")
        tokens, following = lex_line(text, 0)
    except (UnicodeDecodeError, Fault):
        return None
    return tokens if following is None else None
