"""The wave of a sound under its ceiling, as an SVG picture."""
from __future__ import annotations

from collections.abc import Sequence
from dataclasses import dataclass
from html import escape

from .panel import MOST_CEILING
from .schedule import CYCLES_A_SECOND

WIDTH, HEIGHT = 960, 200
LEFT, RIGHT, TOP, BOTTOM = 56, 16, 30, 26
LETTER = 12
WAVE, CEILING, INK, PAPER, GRID = "#2f6db3", "#c0392b", "#333333", "#ffffff", "#dddddd"
# Seconds between two marks of the time, and at most so many marks.
STEPS = (1, 2, 5, 10, 15, 30, 60, 120, 300, 600, 1800, 3600, 7200, 21600)
MOST_MARKS = 12


@dataclass(frozen=True)
class Wave:
    """A title, the ceiling, and the lowest and the highest sample of each cycle."""
    title: str
    ceiling: int
    lows: Sequence[int]
    highs: Sequence[int]


def columns(wave: Wave, count: int) -> list[tuple[int, int]]:
    """The lowest and the highest sample of so many columns, or fewer where the sound is shorter."""
    cycles = len(wave.lows)
    count = min(count, cycles)
    edges = [cycles * at // count for at in range(count + 1)] if count else []
    return [(min(wave.lows[start:end]), max(wave.highs[start:end])) for start, end in zip(edges, edges[1:])]


def minutes(second: int) -> str:
    return f"{second // 60}:{second % 60:02}"


class Chart:
    """The place of one wave in the picture: loudness goes up to the highest ceiling that there is, so that pictures compare."""

    def __init__(self, wave: Wave, top: int) -> None:
        self.wave, self.top = wave, top + TOP
        self.height = HEIGHT - TOP - BOTTOM
        self.middle = self.top + self.height / 2

    def y(self, sample: int) -> str:
        return f"{self.middle - sample * self.height / 2 / MOST_CEILING:.1f}"

    def x(self, share: float) -> str:
        return f"{LEFT + share * (WIDTH - LEFT - RIGHT):.1f}"

    def drawn(self) -> list[str]:
        return [self.title(), *self.times(), self.wave_path(), *self.ceilings()]

    def title(self) -> str:
        return text(LEFT, self.top - 12, escape(self.wave.title), "start")

    def wave_path(self) -> str:
        """Along the highest samples and back along the lowest."""
        parts = columns(self.wave, WIDTH - LEFT - RIGHT)
        if not parts:
            return ""
        places = [self.x((at + 0.5) / len(parts)) for at in range(len(parts))]
        points = [f"{x},{self.y(high)}" for x, (_, high) in zip(places, parts)]
        points += [f"{x},{self.y(low)}" for x, (low, _) in zip(reversed(places), reversed(parts))]
        return f'<polygon points="{" ".join(points)}" fill="{WAVE}" stroke="{WAVE}" stroke-width="0.5"/>'

    def ceilings(self) -> list[str]:
        """The ceiling above and below, and its number at the side, twice where there is room."""
        out = []
        for level in (self.wave.ceiling, -self.wave.ceiling):
            out.append(f'<line x1="{LEFT}" y1="{self.y(level)}" x2="{WIDTH - RIGHT}" y2="{self.y(level)}" '
                       f'stroke="{CEILING}" stroke-dasharray="6 3"/>')
            if level > 0 or self.wave.ceiling * self.height / MOST_CEILING > LETTER:
                out.append(text(LEFT - 6, float(self.y(level)) + 4, f"{level:,}", "end", CEILING))
        return out

    def times(self) -> list[str]:
        """A mark every so many seconds."""
        seconds = len(self.wave.lows) / CYCLES_A_SECOND
        step = next((step for step in STEPS if seconds / step <= MOST_MARKS), STEPS[-1])
        out, bottom = [], self.top + self.height
        for second in range(0, int(seconds) + 1, step):
            x = self.x(second / seconds if seconds else 0)
            out.append(f'<line x1="{x}" y1="{self.top}" x2="{x}" y2="{bottom}" stroke="{GRID}"/>')
            out.append(text(float(x), bottom + 16, minutes(second), "middle"))
        return out


def text(x: float, y: float, words: str, anchor: str, colour: str = INK) -> str:
    return f'<text x="{x:.1f}" y="{y:.1f}" text-anchor="{anchor}" fill="{colour}">{words}</text>'


def is_picture(first: bytes) -> bool:
    return first.lstrip().startswith(b"<svg")


def svg(waves: Sequence[Wave]) -> str:
    """The waves, one below the other."""
    height = HEIGHT * len(waves)
    parts = [f'<svg xmlns="http://www.w3.org/2000/svg" width="{WIDTH}" height="{height}" viewBox="0 0 {WIDTH} {height}" '
             f'font-family="sans-serif" font-size="{LETTER}">',
             f'<rect width="{WIDTH}" height="{height}" fill="{PAPER}"/>']
    for at, wave in enumerate(waves):
        parts += Chart(wave, at * HEIGHT).drawn()
    return "\n".join([*parts, "</svg>", ""])
