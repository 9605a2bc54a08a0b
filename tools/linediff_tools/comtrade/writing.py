"""Writes a record: its configuration, and the data beside it."""
import datetime
import os

import numpy

from .binary_data import bytes_of
from .samples import Samples
from .scales import plain
from .text_data import LINE_END, text_of


def write_record(path, record):
    """Writes the configuration at a path that ends with .cfg, and the data beside it."""
    configuration = record.configuration
    stamps = numpy.rint(record.times / float(configuration.time_multiplier)).astype(numpy.int64)
    samples = Samples(numpy.arange(1, len(stamps) + 1), stamps, record.analogs, record.statuses)
    data = text_of(samples, configuration.revision) if configuration.encoding == "ASCII" else bytes_of(samples)
    with open(path, "w", encoding="utf-8", newline="") as file:
        file.write(configuration_text(configuration))
    with open(os.path.splitext(path)[0] + ".dat", "wb") as file:
        file.write(data)


def configuration_text(configuration):
    """The text of a `.cfg`."""
    analogs, statuses = configuration.analogs, configuration.statuses
    rows = [(configuration.station, configuration.device, configuration.revision)]
    rows.append((len(analogs) + len(statuses), "%dA" % len(analogs), "%dD" % len(statuses)))
    rows += [_analog_row(place, channel) for place, channel in enumerate(analogs, 1)]
    rows += [(place, channel.name, channel.phase, channel.circuit, channel.normal) for place, channel in enumerate(statuses, 1)]
    rows.append((plain(configuration.frequency),))
    rows.append((len(configuration.rates),))
    rows += [(plain(rate.hertz), rate.last) for rate in configuration.rates]
    rows += [_moment_row(configuration.first), _moment_row(configuration.trigger)]
    rows += [(configuration.encoding,), (plain(configuration.time_multiplier),)]
    if configuration.revision == 2013:
        clock = configuration.clock
        local = "x" if clock.local_minutes_ahead is None else _zone(clock.local_minutes_ahead)
        rows += [(_zone(clock.minutes_ahead), local), ("%X" % clock.quality, clock.leap_second)]
    return "".join(",".join(map(str, row)) + LINE_END for row in rows)


def _analog_row(place, channel):
    numbers = (channel.multiplier, channel.offset, channel.skew, channel.least, channel.greatest, channel.primary, channel.secondary)
    side = "P" if channel.is_primary else "S"
    return (place, channel.name, channel.phase, channel.circuit, channel.unit, *map(plain, numbers), side)


def _moment_row(nanoseconds):
    moment = datetime.datetime(1970, 1, 1) + datetime.timedelta(microseconds=nanoseconds // 1000)
    return moment.strftime("%d/%m/%Y"), moment.strftime("%H:%M:%S.%f")


def _zone(minutes):
    hours, rest = divmod(abs(minutes), 60)
    return "%s%d%s" % ("-" if minutes < 0 else "", hours, "h%02d" % rest if rest else "")
