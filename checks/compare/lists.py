"""The two lists of who waits: docs/RULES.md, 'Who waits'."""


class Waiting:
    """Who waits, in the order of coming; the first `told` of them are told."""

    def __init__(self, ids=(), told=0):
        """Lists `ids`, the first `told` of them told."""
        self.ids = list(ids)
        self.told = told

    def copy(self):
        """The same list, on its own."""
        return Waiting(self.ids, self.told)

    def is_told(self, who):
        """Whether `who` is listed and told."""
        return who in self.ids[:self.told]

    def tell_first(self):
        """Tells the first one, unless one is told already."""
        if self.told == 0 and self.ids:
            self.told = 1

    def tell_all(self):
        """Tells everybody."""
        self.told = len(self.ids)

    def leave(self, who):
        """Takes `who` off the list after an answer; nobody is told for it."""
        if who in self.ids:
            if self.is_told(who):
                self.told -= 1
            self.ids.remove(who)

    def give_up(self, who):
        """Takes `who` off the list; if it was told, the next one is told in its place."""
        was_told = self.is_told(who)
        self.leave(who)
        if was_told:
            self.tell_first()

    def wait(self, who):
        """`who` must wait: it keeps its position if listed and not told, else it joins last."""
        if who not in self.ids or self.is_told(who):
            self.leave(who)
            self.ids.append(who)
