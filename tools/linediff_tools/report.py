"""The lines of a report of `bench`."""
import re
from dataclasses import dataclass

from .rows import NotReadable

ALARMS = ("Unlocked", "Yellow", "Silent", "Unaligned", "Fault")
LETTERS = {"W": "waiting", "R": "restrain", "O": "outside", "T": "trip"}
# `error` and `bound` count half millionths of a tick.
HALF_MILLIONTHS = 2_000_000


@dataclass(slots=True)
class Estimate:
    """A line `est`: at a tick, what a station estimates of its peer's clock. No bound is told of forged messages: None."""

    tick: int
    station: int
    peer: int
    twice_offset: int
    round_trip: int
    error: int
    bound: int | None


@dataclass(slots=True)
class SetJudged:
    """A line `set`: at a tick, the letters of a station's set, one for each phase."""

    tick: int
    station: int
    number: int
    letters: str


@dataclass(slots=True)
class AlarmTurn:
    """A line `alarm`: at a tick, an alarm of a peer's channel that turned on or off."""

    tick: int
    station: int
    peer: int
    name: str
    is_on: bool


@dataclass(slots=True)
class Total:
    """A line `total`: the counts of a station."""

    station: int
    accepted: int
    sets: int
    trips: int
    refused: int
    strange: int
    repeats: int
    slow: int
    bad: int


@dataclass(slots=True)
class Forged:
    """The line `forged`: how many accepted messages weren't sent as they were accepted."""

    count: int


@dataclass(slots=True)
class End:
    """The line `end`: the tick before which the run ended."""

    ticks: int


@dataclass(slots=True)
class Report:
    """The lines of each kind in their order, the forged messages, and the tick before which the run ended."""

    estimates: list[Estimate]
    sets: list[SetJudged]
    alarms: list[AlarmTurn]
    totals: list[Total]
    forged: int
    end: int


class Refused(NotReadable):
    """The one line that the program writes of an input that breaks a rule."""

    def __init__(self, row, rule):
        super().__init__("the program refused the input: bad,%d,%d" % (row, rule))
        self.row = row
        self.rule = rule


REFUSAL = re.compile(r"bad,([0-9]+),([0-9]+)\n?")


def refusal_of(text):
    """The row and the rule of a text that is the line of a refused input, and else None."""
    told = REFUSAL.fullmatch(text)
    return (int(told[1]), int(told[2])) if told else None


def lines_of(text):
    """Each line of a report as what it tells, one after the other, so that a large report needs no memory for all of them.

    Raises Refused where the text tells of a refused input, and NotReadable where it is no whole report.
    """
    refused = refusal_of(text)
    if refused:
        raise Refused(*refused)
    line, told = "", None
    for place, line in enumerate(text.splitlines(), 1):
        try:
            told = _told(line.split(","))
        except (ValueError, TypeError, KeyError):
            raise NotReadable("line %d is no line of a report: %.80s" % (place, line)) from None
        yield told
    if not isinstance(told, End):
        raise NotReadable("the report isn't whole: its last line isn't end,TICKS")


def read_report(text):
    """The report of a text. Raises what `lines_of` raises."""
    report = Report([], [], [], [], 0, 0)
    lists = {Estimate: report.estimates, SetJudged: report.sets, AlarmTurn: report.alarms, Total: report.totals}
    for told in lines_of(text):
        if isinstance(told, Forged):
            report.forged = told.count
        elif isinstance(told, End):
            report.end = told.ticks
        else:
            lists[type(told)].append(told)
    return report


def _told(fields):
    kind = fields[0]
    if kind == "est":
        _, tick, station, peer, offset, trip, error, bound = fields
        return Estimate(int(tick), int(station), int(peer), int(offset), int(trip), int(error), None if bound == "-" else int(bound))
    if kind == "set":
        _, tick, station, number, letters = fields
        return SetJudged(int(tick), int(station), int(number), letters)
    if kind == "alarm":
        _, tick, station, peer, name, turn = fields
        return AlarmTurn(int(tick), int(station), int(peer), name, {"on": True, "off": False}[turn])
    return {"total": Total, "forged": Forged, "end": End}[kind](*map(int, fields[1:]))
