"""The rows that `judge` reads, and the verdicts that it writes of them."""
from dataclasses import dataclass

from .records import SET
from .report import Refused, refusal_of
from .rows import NotReadable, number_of, rows_of


@dataclass(slots=True)
class SampleSet:
    """An aligned set: its number, and the phases of the first and of the second terminal."""

    number: int
    first: tuple[int, int, int]
    second: tuple[int, int, int]


@dataclass(slots=True)
class Verdict:
    """The letters of a set, one for each phase."""

    number: int
    letters: str


def read_sets(data):
    """The sets of a file's bytes. Raises NotReadable where a row is none."""
    sets = []
    for row in rows_of(data):
        numbers = [number_of(field) for field in row.fields]
        if len(numbers) != len(SET) or None in numbers:
            raise NotReadable("line %d is no set of seven numbers: %.80s" % (row.line, ",".join(row.fields)))
        sets.append(SampleSet(numbers[0], tuple(numbers[1:4]), tuple(numbers[4:7])))
    return sets


def read_verdicts(text):
    """The verdicts of an output of `judge`. Raises Refused where it tells of a refused input, and NotReadable where it is none."""
    refused = refusal_of(text)
    if refused:
        raise Refused(*refused)
    verdicts = []
    for place, line in enumerate(text.splitlines(), 1):
        number, _, letters = line.partition(",")
        if not number.isdecimal() or len(letters) != 3 or letters.strip("WROT"):
            raise NotReadable("line %d is no verdict of judge: %.80s" % (place, line))
        verdicts.append(Verdict(int(number), letters))
    return verdicts
