"""Reads a record: its configuration, and the data beside it."""
import os

import numpy

from .binary_data import read_binary
from .configuration import read_configuration
from .record import Malformed, Record
from .samples import NO_STAMP
from .text_data import read_text


def read_record(path):
    """The record whose configuration stands at a path, with the data beside it. Raises Malformed."""
    configuration = read_configuration(path)
    data_path = _data_path(path)
    with open(data_path, "rb") as file:
        data = file.read()
    read = read_text if configuration.encoding == "ASCII" else read_binary
    samples = read(data_path, data, configuration)
    _check_numbers(data_path, samples.numbers, configuration)
    times = _times(data_path, samples.stamps, configuration)
    return Record(configuration, times, samples.analogs, samples.statuses)


def _data_path(path):
    """The file beside a configuration that has its name and the ending .dat, in letters of either case."""
    folder, name = os.path.split(path)
    wanted = os.path.splitext(name)[0] + ".dat"
    for found in sorted(os.listdir(folder or ".")):
        if found.lower() == wanted.lower():
            return os.path.join(folder, found)
    raise Malformed(path, "-", "data", "there is no %s beside it" % wanted)


def _place(configuration, at):
    """Where a sample stands: a line of text, or the sample of binary data."""
    return at + 1 if configuration.encoding == "ASCII" else "sample %d" % (at + 1)


def _check_numbers(path, numbers, configuration):
    """The samples are numbered from 1 up to the last one that the configuration names."""
    wrong = numpy.flatnonzero(numbers != numpy.arange(1, len(numbers) + 1))
    if len(wrong):
        at = int(wrong[0])
        raise Malformed(path, _place(configuration, at), "n", "sample %d stands in the place of sample %d" % (numbers[at], at + 1))
    if len(numbers) != configuration.samples:
        at = min(len(numbers), configuration.samples)
        why = "the data has %d samples, and endsamp is %d" % (len(numbers), configuration.samples)
        raise Malformed(path, _place(configuration, at), "n", why)


def _times(path, stamps, configuration):
    """Microseconds from the start: those of the time stamps where they stand, and else by the rates."""
    missing = stamps == NO_STAMP
    times = stamps * configuration.stamp_unit
    has_rates = configuration.rates[0].hertz > 0
    if missing.any():
        if not has_rates:
            why = "missing, and without a rate nothing else says when the sample was taken"
            raise Malformed(path, _place(configuration, int(missing.argmax())), "timestamp", why)
        times[missing] = _times_by_rates(configuration)[missing]
    steps = numpy.diff(times)
    if (steps <= 0).any():
        at = int((steps <= 0).argmax()) + 1
        raise Malformed(path, _place(configuration, at), "timestamp", "it isn't after that of the sample before")
    if has_rates:
        _check_against_rates(path, steps, configuration)
    return times


def periods(configuration):
    """For each sample, the microseconds of a period of its rate."""
    lasts = [0] + [rate.last for rate in configuration.rates]
    return numpy.concatenate([numpy.full(rate.last - before, 1e6 / float(rate.hertz)) for rate, before in zip(configuration.rates, lasts)])


def _times_by_rates(configuration):
    """Each sample comes after the one before by a period of its own rate."""
    return numpy.concatenate([[0.0], numpy.cumsum(periods(configuration)[1:])])


def _check_against_rates(path, steps, configuration):
    """Stamps that are two periods of the slower rate apart, or more, contradict the rates: their unit is wrong, or samples are missing."""
    period = periods(configuration)
    apart = steps >= 2 * numpy.maximum(period[1:], period[:-1]) + configuration.stamp_unit
    if apart.any():
        at = int(apart.argmax()) + 1
        why = "%g us behind the sample before, where the rate says %g us" % (steps[at - 1], period[at])
        raise Malformed(path, _place(configuration, at), "timestamp", why)
