"""What a report comes to: trips, gaps, errors and alarms, for each station."""
from collections import Counter, defaultdict
from dataclasses import dataclass, field

from .faults import fault_before
from .records import PHASES
from .report import ALARMS, HALF_MILLIONTHS, LETTERS, AlarmTurn, End, Estimate, Forged, SetJudged, Total


@dataclass(slots=True)
class Gap:
    """Sets between which nothing was judged: the set before and the set behind."""

    before: SetJudged
    behind: SetJudged

    @property
    def skipped(self):
        return self.behind.number - self.before.number - 1

    @property
    def ticks(self):
        return self.behind.tick - self.before.tick


@dataclass(slots=True)
class AlarmTime:
    """How often an alarm turned on, for how many ticks it was on before, and since when it is on."""

    times: int = 0
    ticks: int = 0
    since: int | None = None

    def turn(self, tick, is_on):
        if is_on:
            self.times += 1
            self.since = tick
        elif self.since is not None:
            self.ticks += tick - self.since
            self.since = None

    def ticks_by(self, end):
        """For how many ticks it was on until a tick."""
        return self.ticks + (end - self.since if self.since is not None else 0)


@dataclass(slots=True)
class Peer:
    """What a station's estimates of a peer's clock and its alarms come to."""

    estimates: int = 0
    unbounded: int = 0
    beyond: int = 0
    worst: Estimate | None = None
    alarms: dict[str, AlarmTime] = field(default_factory=lambda: {name: AlarmTime() for name in ALARMS})

    @property
    def greatest_error(self):
        """The greatest error of an estimate, in ticks."""
        return self.worst.error / HALF_MILLIONTHS if self.worst else None

    @property
    def its_bound(self):
        """The bound of the estimate that errs most, in ticks, where one is told."""
        return self.worst.bound / HALF_MILLIONTHS if self.worst and self.worst.bound is not None else None

    @property
    def share(self):
        """The greatest error divided by its bound."""
        return self.worst.error / self.worst.bound if self.worst and self.worst.bound else None

    def take(self, estimate):
        self.estimates += 1
        if self.worst is None or estimate.error > self.worst.error:
            self.worst = estimate
        if estimate.bound is None:
            self.unbounded += 1
        elif estimate.error > estimate.bound:
            self.beyond += 1


@dataclass(slots=True)
class Station:
    """What the lines of a station come to. `trips` has the set of each phase's first trip, by the phase's place."""

    first: SetJudged | None = None
    last: SetJudged | None = None
    gaps: list[Gap] = field(default_factory=list)
    letters: Counter = field(default_factory=Counter)
    trips: dict[int, SetJudged] = field(default_factory=dict)
    peers: defaultdict[int, Peer] = field(default_factory=lambda: defaultdict(Peer))
    total: Total | None = None

    @property
    def skipped(self):
        """The numbers that were skipped between the first and the last set."""
        return sum(gap.skipped for gap in self.gaps)

    def unjudged(self, end):
        """The ticks for which nothing was judged: before the first set, in gaps, and behind the last set."""
        if self.first is None:
            return end, 0, 0
        return self.first.tick, sum(gap.ticks for gap in self.gaps), end - self.last.tick

    def verdicts(self, place):
        """How many sets have each verdict, for the phase at a place."""
        counts = Counter()
        for letters, count in self.letters.items():
            counts[LETTERS[letters[place]]] += count
        return counts

    def take(self, judged):
        if self.first is None:
            self.first = judged
        elif judged.number != self.last.number + 1:
            self.gaps.append(Gap(self.last, judged))
        self.last = judged
        if "T" in judged.letters and judged.letters not in self.letters:
            self._note_trips(judged)
        self.letters[judged.letters] += 1

    def _note_trips(self, judged):
        for place, letter in enumerate(judged.letters):
            if letter == "T":
                self.trips.setdefault(place, judged)


@dataclass(slots=True)
class Summary:
    """What the lines of a report come to."""

    stations: defaultdict[int, Station] = field(default_factory=lambda: defaultdict(Station))
    forged: int = 0
    end: int = 0

    def take(self, told):
        """Takes in what a line of the report tells."""
        if isinstance(told, Estimate):
            self.stations[told.station].peers[told.peer].take(told)
        elif isinstance(told, SetJudged):
            self.stations[told.station].take(told)
        elif isinstance(told, AlarmTurn):
            self.stations[told.station].peers[told.peer].alarms[told.name].turn(told.tick, told.is_on)
        elif isinstance(told, Total):
            self.stations[told.station].total = told
        elif isinstance(told, Forged):
            self.forged = told.count
        elif isinstance(told, End):
            self.end = told.ticks


def summary_of(lines):
    """What these lines of a report come to."""
    summary = Summary()
    for told in lines:
        summary.take(told)
    return summary


def ticks_after_fault(faults, place, trip):
    """From the last fault of a phase to its first trip; None where none has begun by then."""
    fault = fault_before(faults, place, trip.tick)
    return trip.tick - fault.first if fault else None
