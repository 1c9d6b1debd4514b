"""Who is in at a read-write lock: when its words can go ahead, and who is in after them."""
from typing import NamedTuple

HOLDS = ("rdlock", "rdunlock", "wrlock", "wrunlock")
TAKES = ("rdlock", "wrlock")
WRITES = ("wrlock", "wrunlock")


class Inside(NamedTuple):
    readers: int = 0
    writer: bool = False

    def lets(self, word, places):
        """Whether a word can go ahead, at a lock with so many reading places."""
        return {
            "rdlock": self.readers < places and not self.writer,
            "rdunlock": self.readers > 0,
            "wrlock": self == Inside(),
            "wrunlock": self.writer,
        }[word]

    def after(self, word):
        """Who is in after a word. A word that could not go ahead has its effect all the same, so that every step is told."""
        return {
            "rdlock": self._replace(readers=self.readers + 1),
            "rdunlock": self._replace(readers=max(0, self.readers - 1)),
            "wrlock": self._replace(writer=True),
            "wrunlock": self._replace(writer=False),
        }[word]
