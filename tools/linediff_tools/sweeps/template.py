"""A template: a scenario whose numbers may be ranges, from which scenarios are drawn by a seed.

In a template `{100..5000}` is a number drawn anew, `{delay:100..5000}` one that has a name, and `{delay}`, `{delay+250}` and
`{delay-250}` are that number again. A row that begins with `10*` or `{0..20}*` is written so many times, each with names of its own.
"""
import random
import re

from ..rows import NotReadable, readable, rows_of

FIELD = re.compile(r"\{(?:(?P<name>[a-z_]+):)?(?P<least>-?[0-9]{1,18})\.\.(?P<greatest>-?[0-9]{1,18})\}")
AGAIN = re.compile(r"\{(?P<name>[a-z_]+)(?P<more>[+-][0-9]{1,18})?\}")
TIMES = re.compile(r"(?P<times>[0-9]{1,4}|\{.*\})\*(?P<record>.*)")


class Template:
    """The rows of a template."""

    def __init__(self, data):
        self.rows = list(rows_of(data))
        # What can't be drawn is told here, also of a row that may be written no times.
        trial = _Drawing(random.Random(0), least_times=1)
        for row in self.rows:
            trial.rows(row)
        self.names = list(trial.drawn)

    def draw(self, seed, number):
        """The scenario of a number: its bytes, and what was drawn for each name."""
        drawing = _Drawing(random.Random("%d,%d" % (seed, number)))
        lines = [",".join(fields) for row in self.rows for fields in drawing.rows(row)]
        return "".join(line + "\n" for line in lines).encode(), drawing.drawn


class _Drawing:
    """The numbers that are drawn for a scenario."""

    def __init__(self, source, least_times=0):
        self.source = source
        self.least_times = least_times
        self.drawn = {}

    def rows(self, row):
        """The fields of each row that a row of the template stands for."""
        if row.fields[0] == "#":
            return [[readable(field) for field in row.fields]]
        found = TIMES.fullmatch(row.fields[0])
        if not found:
            return [[self._field(row, field, self.drawn) for field in row.fields]]
        times = max(self.least_times, int(self._field(row, found["times"], self.drawn)))
        return [self._repeated(row, [found["record"], *row.fields[1:]]) for _ in range(times)]

    def _repeated(self, row, fields):
        own = dict(self.drawn)
        return [self._field(row, field, own) for field in fields]

    def _field(self, row, field, drawn):
        """A field as it is, or the number that it stands for."""
        if "{" not in field:
            return field
        found = FIELD.fullmatch(field)
        if found:
            return str(self._draw(row, found, drawn))
        found = AGAIN.fullmatch(field)
        if not found or found["name"] not in drawn:
            raise NotReadable("line %d of the template: %s is no range, and no name that was drawn before" % (row.line, field))
        return str(drawn[found["name"]] + int(found["more"] or 0))

    def _draw(self, row, found, drawn):
        least, greatest = int(found["least"]), int(found["greatest"])
        if least > greatest or found["name"] in drawn:
            raise NotReadable("line %d of the template: %s is an empty range, or its name was drawn before" % (row.line, found[0]))
        number = self.source.randint(least, greatest)
        if found["name"]:
            drawn[found["name"]] = number
        return number
