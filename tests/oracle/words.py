"""The words of the command line, as the library that reads them takes them."""
import re

from .ask import parse_ask
from .checks import is_fact

COMMANDS = ("run", "serial", "save", "check", "format", "upgrade", "explain", "drill", "ask", "audit", "journal", "recover")
NUMBERS = {"workers": (1, 16, 4), "steps": (1, 300, 100), "retries": (0, 4, 3), "count": (1, 1000, 60), "seed": (0, 4294967295, 1)}
TEXTS = {"deps": "precise", "tuple": None, "query": None}
FLAGS = ("trace",)
HELP = "help"      # the answer to words that ask for help or the version


class Refused(Exception):
    """Words that ask for nothing."""


def number(text, low, high):
    if not re.fullmatch(r"\+?[0-9]+|-0+", text, re.ASCII) or not low <= int(text) <= high:
        raise Refused
    return int(text)


class Words:
    """Reads the words from the left, up to the first that is refused or asks for help."""

    def __init__(self, words):
        self.words, self.command, self.said, self.plain = list(words), None, {}, False

    def say(self, name, value):
        if name in self.said:
            raise Refused
        self.said[name] = value

    def value_of(self, equals, value):
        """The value after an option's `=`, or the next word, unless that begins with a dash and goes on."""
        if equals:
            return value
        if not self.words or self.words[0].startswith("-") and self.words[0] != "-":
            raise Refused
        return self.words.pop(0)

    def option(self, name, equals, value):
        if name in FLAGS + ("help", "version") and equals:
            raise Refused
        if name in FLAGS:
            self.say(name, True)
        elif name in NUMBERS:
            self.say(name, number(self.value_of(equals, value), *NUMBERS[name][:2]))
        elif name in TEXTS:
            self.say(name, self.value_of(equals, value))
        else:
            raise Refused

    def read(self):
        """Whether the words ask for help or the version."""
        while self.words:
            word = self.words.pop(0)
            dashes = 0 if self.plain or word == "-" else len(word) - len(word.lstrip("-"))
            if not self.plain and word == "--":
                self.plain = True
            elif dashes >= 2:
                name, equals, value = word[2:].partition("=")
                if name in ("help", "version") and not equals:
                    return True
                self.option(name, equals, value)
            elif dashes == 1:
                if word[1] in "hV":
                    return True
                raise Refused
            elif self.command is not None:
                raise Refused
            else:
                self.command = word
        return False


def read_words(words):
    """What the words ask for: HELP, or a table of the command and the value of each option."""
    read = Words(words)
    if read.read():
        return HELP
    said = {**{name: fallback for name, (_, _, fallback) in NUMBERS.items()}, **TEXTS, "trace": False, **read.said}
    if read.command not in COMMANDS or said["deps"] not in ("coarse", "precise"):
        raise Refused
    if read.command == "explain" and (said["tuple"] is None or not is_fact(said["tuple"].encode())):
        raise Refused
    if read.command == "ask" and (said["query"] is None or parse_ask(said["query"].encode()) is None):
        raise Refused
    return {"command": read.command, **said}
