"""The rules of inputs by their numbers, and what is told of one that is broken."""
import difflib
from dataclasses import dataclass
from enum import IntEnum

from .rows import Row, number_of, readable


class Rule(IntEnum):
    """The numbers of the rules, in the order in which the least is told."""

    Kind = 1
    Fields = 2
    Number = 3
    Range = 4
    Key = 5
    Late = 6
    Station = 7
    Order = 8
    Settings = 9


@dataclass(slots=True)
class Broken:
    """A rule that a row breaks, why in words, and its field, counted from 1, where it is one field's. No row breaks `Settings`."""

    rule: Rule
    why: str
    field: int | None = None
    row: Row | None = None

    @property
    def answer(self):
        """What the program says of it."""
        return (self.row.number if self.row else 0), int(self.rule)


def quoted(field):
    """A field as it is shown, cut where it is long."""
    text = readable(field)
    return '"%s"' % (text if len(text) <= 40 else text[:40] + " ..")


def span_of(values, unit=""):
    """The values that a number may have, in words."""
    unit = " " + unit if unit else ""
    if values.step > 1:
        return "%s or %d%s" % (", ".join(map(str, values[:-1])), values[-1], unit)
    return "from %d to %d%s" % (values[0], values[-1], unit)


def nearest(name, names):
    """A hint at the name that was probably meant."""
    near = difflib.get_close_matches(readable(name).strip().lower(), names, 1)
    return " (perhaps %s)" % near[0] if near else ""


def count_fault(fields, names):
    """What is wrong with the count of fields, whose names are these."""
    if len(fields) == len(names):
        return None
    return Broken(Rule.Fields, "there are %d fields, and there have to be %d: %s" % (len(fields), len(names), ", ".join(names)))


def number_fault(field, place, name):
    """What is wrong with a field that has to be a number."""
    if number_of(field) is not None:
        return None
    return Broken(Rule.Number, "the %s is %s: a number is an optional minus and then 1 to 18 digits, and nothing else" % (name, quoted(field)), place)


def numbers_fault(fields, columns, place):
    """What is wrong with the fields of columns, the first of which has a place: the first that is no number, or else out of range."""
    for at, (field, column) in enumerate(zip(fields, columns), place):
        fault = number_fault(field, at, column.name)
        if fault:
            return fault
    for at, (field, column) in enumerate(zip(fields, columns), place):
        if number_of(field) not in column.values:
            why = "the %s is %d: it may be %s" % (column.name, number_of(field), span_of(column.values))
            return Broken(Rule.Range, why + (", by the setting %s" % column.setting if column.setting else ""), at)
    return None
