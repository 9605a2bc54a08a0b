"""The currents of two or three stations, each from a record of its own, brought to the same instants."""
import math
from dataclasses import dataclass
from decimal import Decimal
from fractions import Fraction

import numpy

from ..rows import NotReadable
from .data import periods
from .record import Malformed, Record

SECOND = 1_000_000_000
# Amperes of the units in which currents are recorded.
UNITS = {"A": 1, "a": 1, "kA": 1000, "KA": 1000, "mA": Decimal("0.001")}
SAMPLES_A_CYCLE = 20


class Unusable(NotReadable):
    """Records that can't be brought together, and why."""


@dataclass(frozen=True)
class Station:
    """A record, where it stands, the places of its three currents, and whether their direction is turned round."""

    path: str
    record: Record
    channels: tuple[int, int, int]
    is_reversed: bool = False

    @property
    def configuration(self):
        return self.record.configuration


def places_of(path, configuration, names):
    """The places of channels that are named, or told by their numbers where none has that name."""
    known = [channel.name for channel in configuration.analogs]
    places = []
    for name in names:
        if known.count(name) > 1:
            raise Unusable("%s: %d channels are named %r: tell one by its number" % (path, known.count(name), name))
        if name in known:
            places.append(known.index(name))
        elif name.isdecimal() and 1 <= int(name) <= len(known):
            places.append(int(name) - 1)
        else:
            raise Unusable("%s: no analog channel is named %r; there are %s" % (path, name, ", ".join(known) or "none"))
    return tuple(places)


def spacing_of(stations):
    """The microseconds between sets where a cycle of the line has 20."""
    frequencies = {station.configuration.frequency for station in stations}
    if len(frequencies) > 1:
        raise Unusable("the records name different line frequencies: say the spacing of the sets")
    return Fraction(1_000_000) / (Fraction(frequencies.pop()) * SAMPLES_A_CYCLE)


@dataclass(frozen=True)
class CommonSets:
    """Sets by their numbers, which count spacings from `begins` (nanoseconds of universal time), and their amperes of the primary side."""

    begins: int
    numbers: numpy.ndarray
    currents: numpy.ndarray
    left_out: int


def common_sets(stations, spacing):
    """The sets of all instants at which each station has its currents: numbers count from the whole second in which the first record begins."""
    begins = min(station.configuration.begins for station in stations) // SECOND * SECOND
    first, last = _common_span(stations, begins)
    numbers = numpy.arange(math.ceil(Fraction(first) / spacing), math.floor(Fraction(last) / spacing) + 1)
    if not len(numbers):
        raise Unusable("the records have no time in common")
    instants = (numbers * spacing.numerator) / spacing.denominator
    for station in stations:
        _check_rate(station, begins, float(spacing), instants)
    columns = [_currents_at(station, place, begins, instants) for station in stations for place in station.channels]
    currents = numpy.stack(columns, axis=1)
    whole = ~numpy.isnan(currents).any(axis=1)
    return CommonSets(begins, numbers[whole], currents[whole], int((~whole).sum()))


def _channel_times(station, place, begins):
    """The microseconds from `begins` at which a channel was sampled: its skew is from the stamp of the sample."""
    configuration = station.configuration
    return station.record.times + ((configuration.begins - begins) / 1000 + float(configuration.analogs[place].skew))


def _common_span(stations, begins):
    times = [_channel_times(station, place, begins) for station in stations for place in station.channels]
    return max(time[0] for time in times), min(time[-1] for time in times)


def _check_rate(station, begins, spacing, instants):
    """Refuses a record that is slower than the sets where they are."""
    configuration = station.configuration
    times = _channel_times(station, station.channels[0], begins)
    used = (times[1:] > instants[0]) & (times[:-1] < instants[-1])
    if configuration.rates[0].hertz > 0:
        steps, tolerance = periods(configuration)[1:], spacing * 1e-6
    else:
        steps, tolerance = numpy.diff(times), configuration.stamp_unit
    slow = used & (steps > spacing + tolerance)
    if slow.any():
        at = int(slow.argmax()) + 1
        number = next(number for number, rate in enumerate(configuration.rates, 1) if at < rate.last)
        why = "%g us from sample to sample, slower than the sets, of which one comes each %g us" % (steps[at - 1], spacing)
        raise Malformed(station.path, configuration.line_of_rate(number), "samp", why)


def _currents_at(station, place, begins, instants):
    """A channel's amperes at these instants, linearly between its samples: NaN beside one that is missing."""
    values = station.record.analogs[:, place]
    there = numpy.flatnonzero(~numpy.isnan(values))
    if not len(there):
        return numpy.full(len(instants), numpy.nan)
    times = _channel_times(station, place, begins)[there]
    result = numpy.interp(instants, times, values[there], left=numpy.nan, right=numpy.nan)
    before = numpy.clip(numpy.searchsorted(times, instants, side="right") - 1, 0, len(there) - 1)
    behind = numpy.minimum(before + 1, len(there) - 1)
    result[(times[before] != instants) & (there[behind] - there[before] > 1)] = numpy.nan
    return _amperes(station, place, result)


def _amperes(station, place, samples):
    """Samples as amperes of the primary side."""
    channel = station.configuration.analogs[place]
    unit = UNITS.get(channel.unit)
    if unit is None:
        raise Malformed(station.path, 3 + place, "uu", "%r is no unit of a current: A, kA or mA" % channel.unit)
    ratio = 1 if channel.is_primary else Fraction(channel.primary) / Fraction(channel.secondary)
    factor = Fraction(unit) * ratio * (-1 if station.is_reversed else 1)
    return channel.value(samples) * float(factor)
