"""Numbers that look random and are the same on every machine."""

from typing import Sequence, TypeVar

Item = TypeVar("Item")

WORD = 0xFFFFFFFF

EDGES = (
    0, 1, 2, 0x1F, 0x20, 0x7F, 0x80, 0xFF, 0x7FFF, 0x8000, 0xFFFF, 0x10000,
    0x7FFFFFFF, 0x80000000, 0x80000001, 0xFFFF8000, 0xFFFFFF80, 0xFFFFFFFE, 0xFFFFFFFF,
)  # fmt: skip


class Draws:
    """A linear congruential generator."""

    def __init__(self, seed: int) -> None:
        self.state = seed

    def below(self, bound: int) -> int:
        self.state = (self.state * 6364136223846793005 + 1442695040888963407) % 2**64
        return (self.state >> 33) % bound

    def among(self, items: Sequence[Item]) -> Item:
        return items[self.below(len(items))]

    def any_word(self) -> int:
        return self.below(1 << 16) << 16 | self.below(1 << 16)

    def word(self) -> int:
        """As often one near a bound as any."""
        return self.among(EDGES) if self.below(2) else self.any_word()

    def pair(self) -> tuple[int, int]:
        """Two words: often equal, or with the sum 0 or -1, so that carries and comparisons meet their bounds."""
        first = self.word()
        second = (first, -first & WORD, ~first & WORD, self.word(), self.word(), self.word())[self.below(6)]
        return first, second
