"""What people are told of a sound: how long, how loud, what was missed."""
from __future__ import annotations

from . import wav
from .faults import counted
from .meter import Meter
from .piece import Piece, clock
from .schedule import CYCLES_A_SECOND


def length(cycles: int) -> str:
    minutes, rest = divmod(cycles, 60 * CYCLES_A_SECOND)
    seconds = f"{rest / CYCLES_A_SECOND:.1f} seconds"
    return f"{counted(minutes, 'minute')} {seconds}" if minutes else seconds


def percent(peak: int, ceiling: int) -> str:
    share = 100 * peak / ceiling
    return "below 1 %" if 0 < share < 1 else f"{int(share)} %"


def summary(out: str, meter: Meter, what: Piece | None) -> list[str]:
    """What people want to know of a sound, the most important in the last line."""
    told = []
    if what and what.read_over:
        told.append(f"read over: {', '.join(what.read_over)}")
    if what and what.is_cut:
        told.append(f"cut by --seconds after {length(what.cycles)}: the piece goes on")
    if what and not meter.peak:
        told.append(f"silent, no sample is other than 0: {what.hint}")
    missed = counted(meter.missed, "note") + " missed"
    if meter.missed:
        missed += f", the first at {what.moment(meter.first_missed) if what else clock(meter.first_missed)}"
    notes = f"{counted(what.notes, 'note')}, " if what else ""
    told.append(f"{wav.shown(out)}: {length(meter.cycles())}, {notes}peak {percent(meter.peak, meter.ceiling)} of the ceiling "
                f"{meter.ceiling:,}, {counted(meter.at_ceiling, 'sample')} at the ceiling, {missed}")
    return told
