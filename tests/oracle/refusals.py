"""How an answer ends early: a refusal, with its name, its fields and the status. FORMATS.md, Refusals."""


class Refused(Exception):
    def __init__(self, status, name, *fields):
        super().__init__(name)
        self.status, self.words = status, (name, *fields)

    @property
    def line(self):
        return " ".join(["refused:", *map(str, self.words)]) + "\n"

    def behind(self, *words):
        """The same refusal behind words that say whose it is."""
        return Refused(self.status, *words, *self.words)
