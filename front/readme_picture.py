"""Draws docs/wave.svg, the picture in README: the demo under two ceilings.

    python3 -B -m front.readme_picture
"""
from __future__ import annotations

import os

from . import files, orchestra, panel, picture, piece
from .faults import Warnings, counted
from .meter import Meter

DEMO = os.path.join(panel.ROOT, "demo", "chaconne")
PICTURE = os.path.join(panel.ROOT, "docs", "wave.svg")
LOW_CEILING = 6_000


def wave(ceiling: int) -> picture.Wave:
    """The demo under a ceiling."""
    made = orchestra.read("chaconne.orc", files.read(f"{DEMO}.orc"), None, Warnings())
    what = piece.from_score("chaconne.sasl", files.read(f"{DEMO}.sasl"), made, None, Warnings())
    meter = Meter(ceiling)
    with panel.Panel() as played:
        start = panel.fresh(ceiling, made.symbol_of(made.instruments[0].name), made.data)
        for samples in played.play(start, made.path, what.calls, what.cycles, what.is_closed):
            meter.take(samples, played.missed)
    title = f"demo/chaconne.sasl, ceiling {ceiling:,}: {counted(meter.at_ceiling, 'sample')} at the ceiling, none above"
    return picture.Wave(title, ceiling, meter.lows, meter.highs)


def drawn() -> str:
    return picture.svg([wave(panel.MOST_CEILING), wave(LOW_CEILING)])


if __name__ == "__main__":
    with open(PICTURE, "w", encoding="utf-8") as file:
        file.write(drawn())
