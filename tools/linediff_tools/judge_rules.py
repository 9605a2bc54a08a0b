"""The first rule that the rows of `judge` break."""
from .records import SET
from .rows import number_of, rows_of
from .rules import Broken, Rule, count_fault, numbers_fault


def first_broken(data):
    """The first rule that a row of these bytes breaks, or None."""
    before = None
    for row in rows_of(data):
        fault = _fault(row, before)
        if fault:
            fault.row = row
            return fault
        before = row
    return None


def _fault(row, before):
    fault = count_fault(row.fields, "nabcxyz") or numbers_fault(row.fields, SET, 1)
    if fault or before is None:
        return fault
    number, last = number_of(row.fields[0]), number_of(before.fields[0])
    if number > last:
        return None
    why = "the number of the set is %d: it has to be above that of the row before, on line %d, which is %d" % (number, before.line, last)
    return Broken(Rule.Order, why, 1)
