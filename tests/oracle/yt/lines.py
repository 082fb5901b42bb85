"""The effect of each line of the log: updates, answers, undo and redo."""
from .chase import Facts
from .items import Item


class Lines:
    """Does one line after the other."""

    def do_item(self, number, curator, time, line, steps):
        item = Item(number, curator, time, line, steps)
        self.last = max(self.last, number)
        self.items[number] = item
        self.history.append(("item", number))
        return item, self.start(item)

    def start(self, item):
        stop = self.run(item)
        self.settle(item, stop)
        self.sweep()
        return stop

    def sweep(self):
        """Gives up updates that wait for a dropped mapping, or wait to put a mapping in force that is in force already."""
        for n, item in list(self.waiting.items()):
            if item.line[0] in ("fix", "force", "drop") and item.line[1] in self.gone or \
                    item.line[0] == "force" and item.line[1] in self.force:
                item.state = "given up"
                del self.waiting[n]

    def settle(self, item, stop):
        if stop is None:
            item.state = "stands"
            self.waiting.pop(item.number, None)
            self.order.append(item)
        else:
            item.state = "waits"
            item.writes = []
            self.waiting[item.number] = item

    def answer(self, number, choice, key):
        """Returns (item, stop); the answer counts if it fits the question that it was given to."""
        self.history.append(("answer", number, choice, key))
        return self.items[number], self.take(number, choice, key)

    def take(self, number, choice, key):
        item = self.waiting.get(number)
        if item is None:
            return None
        stop = self.run(item, peek=True)
        if choice[0] != "go" and (stop is None or stop.why != "question" or stop.question["key"] != key):
            return stop
        item.answers = item.answers[:stop.taken if stop else len(item.answers)]
        if choice[0] != "go":
            item.answers.append((choice, key))
        stop = self.run(item)
        self.settle(item, stop)
        self.sweep()
        return stop

    def undo(self, numbers):
        self.out |= set(numbers)
        return self.replay_lines(numbers)

    def redo(self, numbers):
        self.out -= set(numbers)
        return self.replay_lines(numbers)

    def undo_answers(self, numbers):
        self.void |= {i for i, e in enumerate(self.history) if e[0] == "answer" and e[1] in numbers}
        for n in numbers:
            self.items[n].first_answers = []
        return self.replay_lines(numbers)

    def replay_lines(self, numbers):
        """Does all lines that count again, from the base. Returns the other updates that this changed, by number."""
        old = {n: (i.state, i.writes) for n, i in self.items.items()}
        self.restart()
        for i, e in enumerate(self.history):
            item = self.items[e[1]]
            if e[1] in self.out or i in self.void:
                continue
            if e[0] == "item":
                item.answers = []
                self.start(item)
            else:
                self.take(e[1], e[2], e[3])
        changed = [self.items[n] for n in sorted(old)
                   if n not in numbers and (self.items[n].state, self.items[n].writes) != old[n]]
        for item in changed:
            item.was = old[item.number][0]
        return changed

    def restart(self):
        """Goes back to the base of the last fold, with the updates that waited then."""
        self.facts = Facts(self.base)
        self.force, self.gone = list(self.base_force), set(self.base_gone)
        self.name_of, self.null_of, self.order, self.seq, self.became = {}, {}, [], 0, {}
        for k, name in enumerate(self.base_names, 1):
            self.give((0, k), name)
        self.waiting = {}
        for n, item in self.items.items():
            item.state, item.writes = "undone", []
            if item.first and n not in self.out:
                item.state, item.answers = "waits", list(item.first_answers)
                self.waiting[n] = item
        self.begin()
