"""The rows of `judge` from the currents of stations."""
import datetime
from dataclasses import dataclass
from decimal import Decimal

import numpy

from .scales import plain, round_scale
from .stations import Unusable

LEAST, GREATEST = -32_768, 32_767
PICKUP = 500


@dataclass(frozen=True)
class JudgeRows:
    """Rows `n,a,b,c,x,y,z` in counts of `scale` amperes."""

    rows: numpy.ndarray
    scale: Decimal


def judge_rows(sets, first, scale=None):
    """The rows of one station, counted from 1, against the sum of the others. Without a scale, the finest round one that fits."""
    currents = sets.currents.reshape(len(sets.numbers), -1, 3)
    own = currents[:, first - 1]
    pairs = numpy.concatenate([own, currents.sum(axis=1) - own], axis=1)
    greatest = float(numpy.abs(pairs).max(initial=0))
    scale = scale or (round_scale(Decimal(greatest) / GREATEST) if greatest else Decimal(1))
    counts = numpy.rint(pairs / float(scale)).astype(numpy.int64)
    beyond = ((counts < LEAST) | (counts > GREATEST)).any(axis=1)
    if beyond.any():
        number = sets.numbers[int(beyond.argmax())]
        raise Unusable("in set %d a current is beyond the 16 bits of a value: the greatest one, %g A, wants at least %s A a count"
                       % (number, greatest, round_scale(Decimal(greatest) / GREATEST)))
    return JudgeRows(numpy.concatenate([sets.numbers[:, None], counts], axis=1), scale)


def remarks(sets, made, spacing, first, stations):
    """What a reader has to know of the rows, a line each."""
    begins = datetime.datetime(1970, 1, 1) + datetime.timedelta(seconds=sets.begins // 1_000_000_000)
    yield "set n was taken n * %s us after %s UTC, linearly between samples" % (spacing, begins.strftime("%d/%m/%Y %H:%M:%S"))
    yield "a count is %s A of the primary side: the pickup of %d counts is %s A" % (plain(made.scale), PICKUP, plain(made.scale * PICKUP))
    if len(stations) > 2:
        yield "first station %d, then the sum of the other %d" % (first, len(stations) - 1)
    for station in stations:
        if station.configuration.clock.quality:
            yield "%s was recorded by a clock that wasn't locked: its time quality code is %X" % (station.path, station.configuration.clock.quality)
    if sets.left_out:
        yield "sets left out, since a value beside them is missing: %d" % sets.left_out
