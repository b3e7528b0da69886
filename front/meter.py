"""What is learned of a sound while it is written: its peak, how often it stands at the ceiling, its outline."""
from __future__ import annotations

import array

from .panel import Samples


class Meter:
    """Samples taken cycle by cycle. `lows` and `highs` have the lowest and the highest sample of each, `first_missed` is the cycle in which
    the panel first missed a note."""

    def __init__(self, ceiling: int) -> None:
        self.ceiling = ceiling
        self.peak, self.at_ceiling = 0, 0
        self.lows, self.highs = array.array("h"), array.array("h")
        self.missed, self.first_missed = 0, 0

    def take(self, samples: Samples, missed: int) -> None:
        """The samples of a cycle, and the panel's count of missed notes behind it."""
        low, high = min(samples), max(samples)
        self.peak = max(self.peak, high, -low)
        if max(high, -low) == self.ceiling:
            self.at_ceiling += samples.count(self.ceiling) + samples.count(-self.ceiling)
        if missed and not self.missed:
            self.first_missed = self.cycles()
        self.missed = missed
        self.lows.append(low)
        self.highs.append(high)

    def cycles(self) -> int:
        return len(self.lows)
