"""The records of a scenario and the rows of `judge`: the fields of each, and the ranges in which their numbers lie."""
from dataclasses import dataclass

LARGEST_TICK = 20_000_000


@dataclass(frozen=True, slots=True)
class Column:
    """What a number of a row is called, the values that it may have, and the setting that says so, where it is one."""

    name: str
    values: range
    setting: str | None = None


def _column(name, least, most):
    return Column(name, range(least, most + 1))


FROM = _column("from", 0, LARGEST_TICK)
TO = _column("to", 0, LARGEST_TICK)
STATION = _column("station", 1, 3)
SENDER = _column("sender", 1, 3)
RECEIVER = _column("receiver", 1, 3)
RATE = _column("rate", -200, 200)
PHASES = ("a", "b", "c")

_LINE = (SENDER, RECEIVER)
_SPAN = (FROM, TO, *_LINE)
_VALUES = tuple(_column("value of phase " + phase, -32_768, 32_767) for phase in PHASES)
_WAVES = tuple(
    column
    for phase in PHASES
    for column in (_column("amplitude of phase " + phase, 0, 32_767), _column("step of phase " + phase, 0, 19))
)

# The fields behind the name. `#` has any, and those of `set` are a key and a value.
RECORDS = {
    "clock": (STATION, _column("start", 0, 1_000_000_000_000)),
    "rate": (FROM, STATION, RATE),
    "hold": (FROM, STATION, *_VALUES),
    "wave": (FROM, STATION, *_WAVES),
    "delay": (FROM, *_LINE, _column("ticks", 1, 100_000)),
    "lose": _SPAN,
    "flip": (*_SPAN, _column("bit", 0, 255)),
    "repeat": (*_SPAN, _column("extra ticks", 1, 1_000_000)),
    "cut": (*_SPAN, _column("bits", 1, 255)),
    "slip": (*_SPAN, _column("bits", 1, 255)),
    "failsend": _SPAN,
    "failtake": _SPAN,
}
NAMES = ("#", "set", *RECORDS)
SCRIPT = ("delay", "lose", "flip", "repeat", "cut", "slip", "failsend", "failtake")
SHAPES = ("hold", "wave")
FAILURES = ("failsend", "failtake")


def columns_of(name, drift):
    """The fields of a record's numbers, where clocks may drift so many millionths either way."""
    return tuple(Column("rate", range(-drift, drift + 1), "drift") if column is RATE else column for column in RECORDS[name])


# How many there may be: rates of a station, records of the script, and repeats among them.
MOST_RATES = 16
MOST_SCRIPT = 1000
MOST_REPEATS = 4
# A failure ends at most so many ticks after its `from`.
LONGEST_FAILURE = 1000

# A row of `judge`.
SET = (
    _column("number of the set", 0, 4_294_967_295),
    *(_column("%s (phase %s of terminal %d)" % (name, phase, terminal), -32_768, 32_767)
      for name, phase, terminal in zip("abcxyz", PHASES * 2, (1, 1, 1, 2, 2, 2))),
)
