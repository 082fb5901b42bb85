"""The forms of statements: a line's tokens read from the left, up to the first that does not fit."""
from .tokens import Fault


class Line:
    """A cursor over the tokens of one statement. A name is its spelling; facts and atoms are (name, values or terms)."""

    def __init__(self, tokens, at=0):
        self.tokens, self.at = tokens, at

    def kind(self):
        return self.tokens[self.at][0] if self.at < len(self.tokens) else "end of line"

    def is_word(self, *words):
        return self.kind() == "name" and self.tokens[self.at][3] in words

    def take(self, kind, wanted):
        """The content of the next token, if it is of this kind; otherwise the fault that `wanted` was expected."""
        if self.kind() != kind:
            raise Fault("Expected", wanted)
        self.at += 1
        return self.tokens[self.at - 1][3]

    def end(self):
        if self.at < len(self.tokens):
            raise Fault("Expected", "end of line")

    def listed(self, item, closing, wanted):
        """Items with commas between them, up to a token of the closing kind, which is not taken."""
        items = [item()]
        while self.kind() != closing:
            self.take("comma", wanted)
            items.append(item())
        return items

    def in_parentheses(self, item):
        self.take("open", "open")
        items = self.listed(item, "close", "comma or close")
        self.at += 1
        return items

    def value(self):
        if self.kind() == "number":
            return (0, self.take("number", "value"))
        return self.take("null" if self.kind() == "null" else "text", "value")

    def term(self):
        if self.kind() == "name":
            return ("v", self.take("name", "term"))
        if self.kind() == "number":
            return ("c", (0, self.take("number", "term")))
        return ("c", self.take("text", "term"))

    def fact(self):
        return self.take("name", "name"), self.in_parentheses(self.value)

    def atom(self):
        return self.take("name", "name"), self.in_parentheses(self.term)

    def whole_fact(self):
        fact = self.fact()
        self.end()
        return fact

    def mapping(self):
        """A mapping from its name to the end of the line: the name and its two sides, either of which may be empty."""
        name = self.take("name", "name")
        self.take("colon", "colon")
        left = self.listed(self.atom, "arrow", "comma or arrow") if self.kind() == "name" else []
        self.take("arrow", "name or arrow")
        if self.kind() == "name":
            return name, left, self.listed(self.atom, "end of line", "comma or end")
        if self.at < len(self.tokens):
            raise Fault("Expected", "name or end")
        return name, left, []

    def operation(self, with_mapping):
        """An operation to the end of the line; it may add a mapping only if the caller allows it."""
        if self.is_word("insert", "delete"):
            return self.take("name", "operation"), self.whole_fact()
        if self.is_word("replace"):
            self.at += 1
            null = self.take("null", "null")
            if not self.is_word("with"):
                raise Fault("Expected", "with")
            self.at += 1
            value = self.value()
            self.end()
            return "replace", null, value
        if with_mapping and self.is_word("mapping"):
            self.at += 1
            return "mapping", self.mapping()
        raise Fault("Expected", "operation")

    def choice(self):
        """An answer to the end of the line: its kind and the facts that it names."""
        if not self.is_word("expand", "unify", "delete"):
            raise Fault("Expected", "choice")
        kind = self.take("name", "choice")
        if kind == "delete":
            return kind, self.listed(self.fact, "end of line", "comma or end")
        facts = [self.fact()] if kind == "unify" else []
        self.end()
        return kind, facts
