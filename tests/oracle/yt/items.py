"""What is kept of an update, and why an update does not stand."""


class Stop(Exception):
    """Why an item does not stand: question, lost, spent, violated, gone."""

    def __init__(self, why, **more):
        super().__init__(why)
        self.why = why
        self.__dict__.update(more)


class Item:
    def __init__(self, number, curator, time, line, steps):
        self.number, self.curator, self.time, self.line, self.steps = number, curator, time, line, steps
        self.answers, self.places = [], {}      # places: {what drew an unknown: its place}
        self.runs, self.drawn, self.writes, self.work = [], 0, [], 0
        self.state, self.was, self.first, self.first_answers = "new", "new", False, []


class Run:
    """One update of the session that an item became."""
    __slots__ = ("op", "choices", "seq", "drawn", "steps", "changes", "force", "work")
