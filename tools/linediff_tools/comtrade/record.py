"""What a record of IEEE C37.111 says: its configuration, and the samples of its channels."""
from dataclasses import dataclass
from decimal import Decimal

import numpy

from ..rows import NotReadable

REVISIONS = (1999, 2013)
# The encodings of data. The revision of 1999 has the first two.
ENCODINGS = ("ASCII", "BINARY", "BINARY32", "FLOAT32")


class Malformed(NotReadable):
    """A record that breaks the standard, or that can't be used: the file, the line or sample, the field, and what is wrong with it."""

    def __init__(self, path, place, field, why):
        super().__init__("%s:%s: %s: %s" % (path, place, field, why))


@dataclass(frozen=True)
class AnalogChannel:
    """A channel of values: each is `multiplier * x + offset` of its sample x, in `unit`, on the side of the transformer named."""

    name: str
    phase: str
    circuit: str
    unit: str
    multiplier: Decimal
    offset: Decimal
    skew: Decimal
    least: Decimal
    greatest: Decimal
    primary: Decimal
    secondary: Decimal
    is_primary: bool

    def value(self, sample):
        """The value of a sample, in the channel's unit."""
        return float(self.multiplier) * sample + float(self.offset)


@dataclass(frozen=True)
class StatusChannel:
    """A channel of 0 and 1, and which of them is its normal state."""

    name: str
    phase: str
    circuit: str
    normal: int


@dataclass(frozen=True)
class Rate:
    """Samples a second, up to and with the sample of this number. 0 Hz: the time stamps alone say when samples were taken."""

    hertz: Decimal
    last: int


@dataclass(frozen=True)
class Clock:
    """What the revision of 2013 adds: minutes ahead of universal time of the stamps and of the place, quality, leap second."""

    minutes_ahead: int = 0
    local_minutes_ahead: int | None = None
    quality: int = 0
    leap_second: int = 0


@dataclass(frozen=True)
class Configuration:
    """A `.cfg`. `first` and `trigger` count nanoseconds from 1970 by the record's own clock."""

    station: str
    device: str
    revision: int
    analogs: tuple[AnalogChannel, ...]
    statuses: tuple[StatusChannel, ...]
    frequency: Decimal
    rates: tuple[Rate, ...]
    first: int
    trigger: int
    encoding: str
    time_multiplier: Decimal
    clock: Clock = Clock()
    counts_nanoseconds: bool = False

    @property
    def samples(self):
        return self.rates[-1].last

    @property
    def stamp_unit(self):
        """The microseconds that a time stamp counts."""
        return float(self.time_multiplier) / (1000 if self.counts_nanoseconds else 1)

    def line_of_rate(self, number):
        """The line on which a rate stands, counted from 1: behind names, counts, channels, line frequency and the count of rates."""
        return 4 + len(self.analogs) + len(self.statuses) + number

    @property
    def begins(self):
        """The nanoseconds of universal time from 1970 at which the first sample was taken. The revision of 1999 names no zone: it counts as universal time."""
        return self.first - self.clock.minutes_ahead * 60_000_000_000


@dataclass(frozen=True)
class Record:
    """A configuration with its samples, one a row: microseconds from the first stamp, values as they stand (NaN: missing), states."""

    configuration: Configuration
    times: numpy.ndarray
    analogs: numpy.ndarray
    statuses: numpy.ndarray
