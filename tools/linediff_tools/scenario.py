"""A scenario that the program accepts: its settings and records, and what they say at a tick."""
from bisect import bisect_right
from dataclasses import dataclass, field

from .cosines import SCALE, cosines
from .records import NAMES, RECORDS
from .rows import NotReadable, number_of, readable, rows_of
from .settings import REQUIRED, complete

COSINES = cosines(20)
USUAL_DELAY = 1000


@dataclass(slots=True)
class Clock:
    """A record `clock`."""

    station: int
    start: int


@dataclass(slots=True)
class Rate:
    """A record `rate`, in millionths."""

    first: int
    station: int
    rate: int


@dataclass(slots=True)
class Hold:
    """A record `hold`: the values of the phases."""

    first: int
    station: int
    values: tuple[int, int, int]


@dataclass(slots=True)
class Wave:
    """A record `wave`: the amplitude and the step of each phase."""

    first: int
    station: int
    amplitudes: tuple[int, int, int]
    steps: tuple[int, int, int]


@dataclass(slots=True)
class Act:
    """A record of the script: what becomes of the frames that a line is sent in these ticks. `lose` and failures have no count."""

    kind: str
    first: int
    last: int
    sender: int
    receiver: int
    count: int | None


@dataclass(slots=True)
class Delay:
    """A record `delay`."""

    first: int
    sender: int
    receiver: int
    ticks: int


@dataclass(slots=True)
class Scenario:
    """The settings, `end` among them, and the records of each kind in the order of the file."""

    settings: dict[str, int]
    remarks: list[str] = field(default_factory=list)
    clocks: list[Clock] = field(default_factory=list)
    rates: list[Rate] = field(default_factory=list)
    shapes: list[Hold | Wave] = field(default_factory=list)
    delays: list[Delay] = field(default_factory=list)
    acts: list[Act] = field(default_factory=list)

    @property
    def end(self):
        return self.settings["end"]

    @property
    def stations(self):
        return range(1, self.settings["stations"] + 1)

    @property
    def lines(self):
        """The directed lines, as sender and receiver."""
        return [(sender, receiver) for sender in self.stations for receiver in self.stations if sender != receiver]

    @property
    def period(self):
        """The ticks of a cycle."""
        return self.settings["spacing"] * self.settings["cycle"]

    @property
    def title(self):
        """What the first remark says."""
        return self.remarks[0] if self.remarks else ""

    def shapes_of(self, station):
        return [shape for shape in self.shapes if shape.station == station]

    def delay(self, sender, receiver, tick):
        """The ticks after which a frame comes that is sent at a tick."""
        begun = [delay.ticks for delay in self.delays if (delay.sender, delay.receiver) == (sender, receiver) and delay.first <= tick]
        return begun[-1] if begun else USUAL_DELAY

    def values(self, shape, tick):
        """The values of the three phases that a shape gives at a tick."""
        if isinstance(shape, Hold):
            return shape.values
        turn = 20 * tick // self.period
        products = (amplitude * COSINES[(turn + step) % 20] for amplitude, step in zip(shape.amplitudes, shape.steps))
        return tuple(product // SCALE if product >= 0 else -(-product // SCALE) for product in products)


class Waveform:
    """What flows at a station."""

    def __init__(self, scenario, station):
        self._scenario = scenario
        self._shapes = scenario.shapes_of(station)
        self._firsts = [shape.first for shape in self._shapes]

    def values(self, tick):
        """The values of the three phases at a tick; zero where nothing has begun."""
        begun = bisect_right(self._firsts, tick)
        return self._scenario.values(self._shapes[begun - 1], tick) if begun else (0, 0, 0)


def read_scenario(data):
    """The scenario of a file's bytes. Raises NotReadable where it is none; what is wrong with one, `explain` says."""
    given, scenario = {}, Scenario({})
    for row in rows_of(data):
        name, *fields = row.fields
        if name not in NAMES:
            raise _unreadable(row)
        if name == "#":
            scenario.remarks.append(readable(",".join(fields)))
        elif name == "set":
            _set(given, row)
        else:
            _add(scenario, row)
    if any(key not in given for key in REQUIRED):
        raise NotReadable("no scenario: stations, channels and end have to be set")
    scenario.settings = complete(given)
    return scenario


def hold_to(scenario, stations, end):
    """Raises NotReadable where a report of these stations and this end is none of the scenario."""
    if (list(scenario.stations), scenario.end) != (sorted(stations), end):
        raise NotReadable("the report is none of this scenario: stations or end differ")


def _unreadable(row):
    return NotReadable("line %d is no record of a scenario: %.80s" % (row.line, ",".join(row.fields)))


def _set(given, row):
    value = number_of(row.fields[2]) if len(row.fields) == 3 else None
    if value is None:
        raise _unreadable(row)
    given[row.fields[1]] = value


def _add(scenario, row):
    name = row.fields[0]
    numbers = [number_of(field) for field in row.fields[1:]]
    if len(numbers) != len(RECORDS[name]) or None in numbers:
        raise _unreadable(row)
    if name == "clock":
        scenario.clocks.append(Clock(*numbers))
    elif name == "rate":
        scenario.rates.append(Rate(*numbers))
    elif name == "hold":
        scenario.shapes.append(Hold(*numbers[:2], tuple(numbers[2:])))
    elif name == "wave":
        scenario.shapes.append(Wave(*numbers[:2], tuple(numbers[2::2]), tuple(numbers[3::2])))
    elif name == "delay":
        scenario.delays.append(Delay(*numbers))
    else:
        scenario.acts.append(Act(name, *numbers[:4], numbers[4] if len(numbers) > 4 else None))
