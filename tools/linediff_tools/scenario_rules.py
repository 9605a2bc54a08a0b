"""The first rule that the rows of a scenario break."""
from collections import Counter

from .records import FAILURES, LONGEST_FAILURE, MOST_RATES, MOST_REPEATS, MOST_SCRIPT, NAMES, RECORDS, SCRIPT, SHAPES, columns_of
from .rows import number_of, rows_of
from .rules import Broken, Rule, count_fault, nearest, number_fault, numbers_fault, quoted, span_of
from .settings import LONGEST_LIMIT, REQUIRED, SETTINGS, complete, message_ticks


def first_broken(data):
    """The first rule that a scenario of these bytes breaks, or None."""
    head, body = Head(), None
    for row in rows_of(data):
        if body is None and row.fields[0] not in ("set", "#"):
            fault = settings_fault(head.given, "before line %d" % row.line)
            if fault:
                return fault
            body = Body(head, row.line)
        fault = body.take(row) if body else head.take(row)
        if fault:
            fault.row = row
            return fault
    return None if body else settings_fault(head.given, "by the end of the file")


class Head:
    """The settings that are set so far, and the lines on which they are."""

    def __init__(self):
        self.given = {}
        self.lines = {}

    def take(self, row):
        """Takes in a `set` or a remark, or tells which rule it breaks."""
        if row.fields[0] == "#":
            return None
        fault = self.fault(row.fields)
        if fault is None:
            key = row.fields[1]
            self.given[key], self.lines[key] = number_of(row.fields[2]), row.line
        return fault

    def fault(self, fields):
        """The least rule that a `set` breaks beside these settings."""
        fault = count_fault(fields, ("set", "key", "value")) or number_fault(fields[2], 3, "value of %s" % quoted(fields[1]))
        if fault:
            return fault
        key, value = fields[1], number_of(fields[2])
        if key not in SETTINGS:
            why = "%s is no key of a setting%s. The keys are %s" % (quoted(key), nearest(key, SETTINGS), ", ".join(SETTINGS))
            return Broken(Rule.Key, why, 2)
        setting = SETTINGS[key]
        if value not in setting.values:
            return Broken(Rule.Range, "%s is %d: it may be %s" % (key, value, span_of(setting.values, setting.unit)), 3)
        if key in self.given:
            return Broken(Rule.Key, "%s was set before, on line %d" % (key, self.lines[key]), 2)
        return None


def settings_fault(given, where):
    """Which setting is missing, or which two don't fit, as the program finds them at some place."""
    missing = [key for key in REQUIRED if key not in given]
    if missing:
        return Broken(Rule.Settings, "%s set %s" % (" and ".join(missing) + (" aren't" if len(missing) > 1 else " isn't"), where))
    settings = complete(given)
    why = _misfit(settings)
    return Broken(Rule.Settings, why) if why else None


def _misfit(settings):
    spacing, limit, ticks = settings["spacing"], settings["limit"], message_ticks(settings["channels"])
    if settings["rd"] > settings["rn"]:
        return "rd is %d and rn is %d: rd may be at most rn" % (settings["rd"], settings["rn"])
    if ticks > spacing:
        return "the channel carries a message in %d ticks and the spacing is %d" % (ticks, spacing)
    if limit > LONGEST_LIMIT * spacing:
        return "limit is %d ticks, and may be at most %d spacings, which are %d ticks" % (limit, LONGEST_LIMIT, LONGEST_LIMIT * spacing)
    if settings["worda"] == settings["wordb"]:
        return "worda and wordb are both %d, and have to differ" % settings["worda"]
    return None


class Body:
    """The records behind the settings so far, as far as later ones are held against them."""

    def __init__(self, head, line):
        self.head = head
        self.line = line
        self.settings = complete(head.given)
        self.clocks = {}
        self.rates = Counter()
        self.script = self.repeats = 0
        # The greatest `from` of records that stand in order, and its line of the file.
        self.newest = {}

    def take(self, row):
        """Takes in a record, or tells which rule it breaks."""
        name = row.fields[0]
        if name == "#":
            return None
        fault = self._own_fault(row.fields)
        if fault:
            return fault
        said = {column.name: number_of(field) for column, field in zip(RECORDS[name], row.fields[1:])}
        fault = self._crowd_fault(name, said) or self._station_fault(name, said) or self._order_fault(name, said)
        if fault is None:
            self._keep(name, said, row.line)
        return fault

    def _own_fault(self, fields):
        name = fields[0]
        if name == "set":
            late = Broken(Rule.Late, "a set stands in front of all records but #, the first of which is on line %d" % self.line, 1)
            return self.head.fault(fields) or late
        if name not in RECORDS:
            why = "%s is no record%s. The records are %s" % (quoted(name), nearest(name, NAMES), ", ".join(NAMES))
            return Broken(Rule.Kind, why, 1)
        columns = columns_of(name, self.settings["drift"])
        return count_fault(fields, (name, *(column.name for column in columns))) or numbers_fault(fields[1:], columns, 2)

    def _crowd_fault(self, name, said):
        if name == "rate" and self.rates[said["station"]] >= MOST_RATES:
            return Broken(Rule.Range, "it is the %dth rate of station %d: a station has at most %d" % (MOST_RATES + 1, said["station"], MOST_RATES))
        if name in SCRIPT and self.script >= MOST_SCRIPT:
            return Broken(Rule.Range, "it is one record more than the %d that there may be of %s together" % (MOST_SCRIPT, ", ".join(SCRIPT)))
        if name == "repeat" and self.repeats >= MOST_REPEATS:
            return Broken(Rule.Range, "it is the %dth repeat: there are at most %d" % (MOST_REPEATS + 1, MOST_REPEATS))
        if name in FAILURES and said["to"] > said["from"] + LONGEST_FAILURE:
            why = "to is %d and from is %d: a %s ends at most %d ticks after its from" % (said["to"], said["from"], name, LONGEST_FAILURE)
            return Broken(Rule.Range, why, _place(name, "to"))
        return None

    def _station_fault(self, name, said):
        stations = self.settings["stations"]
        for role in ("station", "sender", "receiver"):
            if said.get(role, 0) > stations:
                why = "the %s is %d: by the setting stations the line has those from 1 to %d" % (role, said[role], stations)
                return Broken(Rule.Station, why, _place(name, role))
        if name in SCRIPT and said["sender"] == said["receiver"]:
            why = "sender and receiver are both %d: a line goes from one station to another" % said["sender"]
            return Broken(Rule.Station, why, _place(name, "receiver"))
        return None

    def _order_fault(self, name, said):
        if name == "clock":
            line = self.clocks.get(said["station"])
            return Broken(Rule.Order, "station %d has its clock already, on line %d" % (said["station"], line), 2) if line else None
        if said.get("to", said["from"]) < said["from"]:
            return Broken(Rule.Order, "to is %d: it may not be below from, which is %d" % (said["to"], said["from"]), _place(name, "to"))
        first, line = self.newest.get(turn_of(name, said), (0, None))
        if said["from"] < first:
            why = "from is %d, and what stands on line %d begins at %d: of one %s they stand in the order of their from"
            return Broken(Rule.Order, why % (said["from"], line, first, "line" if name == "delay" else "station"), _place(name, "from"))
        return None

    def _keep(self, name, said, line):
        if name == "clock":
            self.clocks[said["station"]] = line
        elif turn_of(name, said):
            self.newest[turn_of(name, said)] = said["from"], line
        self.rates[said.get("station")] += name == "rate"
        self.script += name in SCRIPT
        self.repeats += name == "repeat"


def turn_of(name, said):
    """With which records a record stands in the order of `from`: those of the same answer. None where with none."""
    if name in SHAPES:
        return "shape", said["station"]
    if name == "rate":
        return "rate", said["station"]
    if name == "delay":
        return "delay", said["sender"], said["receiver"]
    return None


def _place(name, column):
    """The field of a record in which a number stands."""
    return 2 + [each.name for each in RECORDS[name]].index(column)
