"""One command, done over a space."""
from .answering import Answering
from .asked import Asked
from .changed import Changed
from .changing import Changing
from .explaining import Explaining
from .loading import Loading
from .looking import Looking
from .sending import Sending
from .undoing import Undoing


class Doer(Asked, Changed, Changing, Answering, Undoing, Loading, Looking, Explaining, Sending):
    """Does one command over a space; with `ws` it also puts it into the log."""

    def __init__(self, ws, space, trying=False):
        self.ws, self.space, self.trying, self.vagues = ws, space, trying, {}

    def do(self, cmd):
        self.before = None
        return getattr(self, "do_" + cmd[0])(cmd)

    def accept(self, lines, time, tables=None):
        if not self.trying:
            self.ws.accept(lines, time, tables)
