"""The CSV of a sweep: a row a scenario, with what was drawn for it behind."""
import csv
from dataclasses import fields

from ..report import ALARMS
from ..rows import NotReadable
from .outcome import Outcome

PLAIN = [one.name for one in fields(Outcome) if one.name not in ("alarms", "times", "share", "violation")]


def header(names):
    """The columns: those of an outcome, the alarms by their names, and the names of the template."""
    columns = []
    for one in fields(Outcome):
        columns += ALARMS if one.name == "alarms" else [one.name]
    return columns + ["{%s}" % name for name in names]


def row_of(outcome, drawn, names):
    """The fields of an outcome, and what was drawn for these names."""
    values = []
    for one in fields(Outcome):
        value = getattr(outcome, one.name)
        if one.name == "alarms":
            values += value.values()
        elif one.name == "times":
            values.append(" ".join(map(str, value)))
        elif one.name == "share":
            values.append("%.6f" % value)
        else:
            values.append(value)
    return values + [drawn.get(name, "") for name in names]


def write_rows(file, names, found):
    """Writes the columns' names and the rows of these outcomes, in the order of their numbers."""
    writer = csv.writer(file, lineterminator="\n")
    writer.writerow(header(names))
    for number in sorted(found):
        outcome, drawn = found[number]
        writer.writerow(row_of(outcome, drawn, names))


def read_rows(path, names):
    """The outcome of each number in a file, with what was drawn for it. A number that was run twice counts once."""
    with open(path, newline="") as file:
        found = [_outcome(path, columns, names) for columns in csv.DictReader(file, header(names)) if columns["number"] != "number"]
    return {outcome.number: (outcome, drawn) for outcome, drawn in found}


def _outcome(path, columns, names):
    try:
        outcome = Outcome(**{name: int(columns[name]) for name in PLAIN})
        outcome.violation, outcome.share = columns["violation"], float(columns["share"])
        outcome.times = [int(text) for text in columns["times"].split()]
        outcome.alarms = {name: int(columns[name]) for name in ALARMS}
        return outcome, _drawn(columns, names)
    except (TypeError, ValueError, AttributeError):
        raise NotReadable("%s has a row that is none of a sweep: %.80s" % (path, columns)) from None


def _drawn(columns, names):
    """What was drawn for each name: nothing, where no scenario could be drawn."""
    return {name: int(columns["{%s}" % name]) for name in names if columns["{%s}" % name]}
