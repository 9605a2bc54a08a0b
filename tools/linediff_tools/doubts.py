"""What is accepted in an input and hardly meant, in words."""
from dataclasses import dataclass

from .records import RECORDS, SCRIPT, SHAPES
from .rows import number_of, rows_of
from .scenario import read_scenario
from .scenario_rules import turn_of
from .settings import LONGEST_LIMIT, SLOT, message_ticks


@dataclass(slots=True)
class Doubt:
    """A doubt, and the line of the file that gives rise to it, where it is one."""

    why: str
    line: int | None = None


@dataclass(slots=True)
class Record:
    """A record behind the settings with its numbers by name."""

    name: str
    line: int
    said: dict[str, int]


def doubts_of_rows(data):
    """Doubts about the quotes of any input."""
    rows = list(rows_of(data))
    doubts = [Doubt("a quote makes one row of the lines %d to %d" % (row.line, row.last_line), row.line) for row in rows if row.last_line > row.line]
    # A row behind the text is one more only where the text doesn't end within quotes.
    if rows and len(list(rows_of(data + b"\n#"))) == len(rows):
        doubts.append(Doubt("a quote opens that nothing closes: all behind it is one field", rows[-1].line))
    return doubts


def doubts_of_scenario(data):
    """Doubts about a scenario that is accepted."""
    scenario = read_scenario(data)
    records = [
        Record(row.fields[0], row.line, {column.name: number_of(field) for column, field in zip(RECORDS[row.fields[0]], row.fields[1:])})
        for row in rows_of(data)
        if row.fields[0] in RECORDS
    ]
    doubts = [*doubts_of_rows(data), *_late(records, scenario.end), *_idle(records, scenario.end), *_replaced(records)]
    return doubts + [*_dead(records, scenario), *_far(scenario)]


def _late(records, end):
    for record in records:
        if record.said.get("from", 0) >= end:
            yield Doubt("this %s begins at tick %d, and the run ends before %d" % (record.name, record.said["from"], end), record.line)


def _idle(records, end):
    """Acts on frames that are sent, where none is."""
    for record in records:
        if record.name not in SCRIPT or record.name in ("delay", "failtake") or record.said["from"] >= end:
            continue
        next_slot = -(-record.said["from"] // SLOT) * SLOT
        if next_slot > min(record.said["to"], end - 1):
            why = "this %s covers no frame: they are sent at multiples of %d ticks, the next at %d"
            yield Doubt(why % (record.name, SLOT, next_slot), record.line)


def _replaced(records):
    """Records of which another with the same `from` takes the place."""
    newest = {}
    for record in records:
        turn = turn_of(record.name, record.said)
        before = newest.get(turn)
        if turn and before and before.said["from"] == record.said["from"]:
            yield Doubt("this %s never counts: line %d begins at the same tick" % (before.name, record.line), before.line)
        newest[turn] = record


def _dead(records, scenario):
    fed = {record.said["station"] for record in records if record.name in SHAPES}
    for station in scenario.stations:
        if station not in fed:
            yield Doubt("station %d has no wave and no hold: its currents are zero" % station)


def _far(scenario):
    """Delays with which two stations never judge a set, once the offset is estimated from them."""
    for one, other in [line for line in scenario.lines if line[0] < line[1]]:
        delays = [delay for delay in scenario.delays if {delay.sender, delay.receiver} == {one, other}]
        for tick in sorted({0} | {delay.first for delay in delays if delay.first < scenario.end}):
            there, back = scenario.delay(one, other, tick), scenario.delay(other, one, tick)
            why = _distance(scenario, there + back)
            if why:
                words = "with the delays of %d and %d ticks between stations %d and %d from tick %d on %s"
                yield Doubt(words % (there, back, one, other, tick, why))
                break


def _distance(scenario, delays):
    """Why these delays there and back are too long together, if they are."""
    settings = scenario.settings
    trip = delays + 2 * (message_ticks(settings["channels"]) - SLOT)
    # By how much stamps and clocks that drift may shift an age or a round trip.
    fastest = max((abs(rate.rate) for rate in scenario.rates), default=0)
    margin = 2 + 2 * fastest * (settings["age"] + trip) // 1_000_000
    if trip - margin > settings["slow"]:
        return "a round trip takes %d ticks, and slow is %d: no offset is estimated" % (trip, settings["slow"])
    # Half the round trip is the age at which a peer's value seems to come, and alignment takes at most half a spacing off.
    youngest = (trip - settings["spacing"]) // 2 - margin
    if youngest < settings["limit"]:
        return None
    longest = LONGEST_LIMIT * settings["spacing"]
    hope = "and may be at most %d" % longest if youngest < longest else "and no limit would do"
    return "a value is at least %d ticks old when it comes, and limit is %d, %s: no set is judged" % (youngest, settings["limit"], hope)
