"""Edits of texts that look like chance: a byte changed, put in or taken out, two lines exchanged, the end cut off."""


class Edits:
    """Edits that most often put in bytes of a grammar."""

    def __init__(self, chance, likely):
        self.chance, self.likely = chance, likely

    def some_byte(self):
        return self.chance.choice(self.likely) if self.chance.randrange(4) else self.chance.randrange(256)

    def byte_at(self, byte):
        """A byte in place of that one or before it: by a digit, often a zero or another digit."""
        way = self.chance.randrange(4)
        if way < 3 and 48 <= byte <= 57:
            return 48 if way < 2 else 48 + self.chance.randrange(10)
        return self.some_byte()

    def edit(self, text):
        if not text:
            return text
        at, way = self.chance.randrange(len(text)), self.chance.randrange(16)
        if way < 3:
            return text[:at] + text[at + 1 :]
        if way < 12:
            return text[:at] + bytes([self.byte_at(text[at])]) + text[at + (way < 9) :]
        if way == 12:
            return text + bytes([self.some_byte()])
        return self.exchanged(text) if way < 15 else text[:at]

    def exchanged(self, text):
        lines = text.split(b"\n")
        one, other = (self.chance.randrange(len(lines)) for _ in "ab")
        lines[one], lines[other] = lines[other], lines[one]
        return b"\n".join(lines)

    def edited(self, texts):
        """One of the texts, after one to six edits."""
        text = self.chance.choice(texts)
        for _ in range(1 + min(self.chance.randrange(6), self.chance.randrange(6))):
            text = self.edit(text)
        return text
