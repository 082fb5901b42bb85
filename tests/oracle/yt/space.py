"""The state that a log stands for.

Inside, a null is (2, seq, k, 0): the k-th that the seq-th update of the session drew. Outside it has a name (2, U, P).
An item is a numbered line. It stands (in `order`), waits (in `waiting`), or is undone (in neither).
"""
from . import text as T
from .chase import Facts
from .heads import Heads
from .lines import Lines
from .naming import Naming
from .running import Running
from .telling import Telling


class Space(Naming, Running, Lines, Telling, Heads):
    """The state that the records of a file leave."""

    def __init__(self, head):
        self.schema = T.Schema()
        self.mappings, self.gone = {}, set()
        self.facts, self.force, self.seq = Facts(), [], 0
        self.name_of, self.null_of = {}, {}
        self.items, self.order, self.waiting = {}, [], {}
        self.history, self.out, self.void = [], set(), set()    # lines since the fold; undone updates; answers taken back
        self.last = self.at = self.folded = 0
        self.records = []
        self.created = ""
        self.subs = []
        self.read_head(head)
