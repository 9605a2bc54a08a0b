"""What is drawn over time, as plain numbers: segments of verdicts, spans of alarms, and curves of which long ones are thinned."""
from dataclasses import dataclass

from .report import ALARMS

# A picture has no more columns to show points in.
MOST_POINTS = 2000


@dataclass(slots=True)
class Segment:
    """A letter of a phase that consecutive sets have, from a place on and up to one."""

    letter: str
    first: float
    last: float


def segments_of(told, spacing):
    """The segments of a phase, of which each set's place, number and letter are told.

    Each set counts until the one that follows it, and where none does for a spacing.
    """
    segments, before = [], None
    for place, number, letter in told:
        follows = before is not None and number == before + 1
        if segments:
            segments[-1].last = place if follows else min(segments[-1].last, place)
        if not follows or segments[-1].letter != letter:
            segments.append(Segment(letter, place, place))
        segments[-1].last = place + spacing
        before = number
    return segments


def alarm_spans(turns, end):
    """For each alarm that was on, by name: the ticks at which it turned on and off, or the end of the run."""
    spans = {}
    for turn in turns:
        if turn.is_on:
            spans.setdefault(turn.name, []).append((turn.tick, end))
        else:
            spans[turn.name][-1] = spans[turn.name][-1][0], turn.tick
    return {name: spans[name] for name in ALARMS if name in spans}


def thinned(places, lows, highs):
    """A band from lows to highs: all of its places, or of a long one the extremes in each column of a picture."""
    if len(places) <= MOST_POINTS:
        return list(places), list(lows), list(highs)
    width = -(-len(places) // (MOST_POINTS // 2))
    columns = [slice(at, at + width) for at in range(0, len(places), width)]
    return [places[column.start] for column in columns], [min(lows[column]) for column in columns], [max(highs[column]) for column in columns]


def runs_of(estimates, spacing):
    """Estimates in runs between which for long none was told."""
    runs = []
    for estimate in estimates:
        if not runs or estimate.tick - runs[-1][-1].tick > 10 * spacing:
            runs.append([])
        runs[-1].append(estimate)
    return runs
