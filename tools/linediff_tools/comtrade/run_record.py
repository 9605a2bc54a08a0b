"""The record of a run of `bench`: a scenario and its report as channels over true time."""
from decimal import Decimal

import numpy

from ..report import ALARMS, HALF_MILLIONTHS
from ..scenario import Waveform
from .record import AnalogChannel, Configuration, Rate, Record, StatusChannel
from .scales import round_scale

# Samples of both encodings stay within these, so that none is taken for a missing one.
LEAST, GREATEST = -32_767, 32_767
PHASES = "ABC"
TICKS_A_SECOND = 1_000_000
MICROSECOND = Decimal(1)


class CurrentScale:
    """What a count of the converter is in amperes, the transformer's ratio, and the side on which values are told."""

    def __init__(self, amperes=Decimal(1), primary=Decimal(1), secondary=Decimal(1), is_primary=True):
        self.primary, self.secondary, self.is_primary = primary, secondary, is_primary
        self.unit = amperes if is_primary else amperes * secondary / primary


def run_record(scenario, report, every, revision, encoding, start, scale):
    """The record with a sample each `every` ticks from tick 0. Its trigger is the first trip, or its start where nothing trips."""
    ticks = numpy.arange(0, scenario.end, every)
    analogs, columns = _analogs(scenario, report, ticks, scale)
    statuses, states = _statuses(scenario, report, ticks)
    trips = [judged.tick for judged in report.sets if "T" in judged.letters]
    trigger = start + (min(trips) if trips else 0) * 1000
    rates = (Rate(Decimal(TICKS_A_SECOND) / every, len(ticks)),)
    frequency = Decimal(TICKS_A_SECOND) / scenario.period
    configuration = Configuration(
        "linediff", "bench", revision, analogs, statuses, frequency, rates, start, trigger, encoding, Decimal(1)
    )
    return Record(configuration, ticks.astype(float), numpy.stack(columns, axis=1), numpy.stack(states, axis=1))


def _analogs(scenario, report, ticks, scale):
    """The channels of each station's currents, then of each peer's estimate, error and bound, with their samples."""
    made = []
    for station in scenario.stations:
        currents = _currents(scenario, station, ticks)
        for phase, counts in zip(PHASES, currents.T):
            made.append(_analog("S%d I%s" % (station, phase), phase, "S%d" % station, "A", scale.unit, counts, scale))
    for station, peer in scenario.lines:
        for name, unit, values in _clock_columns(report, station, peer, ticks):
            made.append(_analog("S%d %s of S%d" % (station, name, peer), "", "S%d-S%d" % (station, peer), "us", unit, values))
    return tuple(channel for channel, _ in made), [samples for _, samples in made]


def _currents(scenario, station, ticks):
    """A station's values at these ticks, a row each."""
    waveform = Waveform(scenario, station)
    return numpy.array([waveform.values(int(tick)) for tick in ticks], dtype=float)


def _clock_columns(report, station, peer, ticks):
    """What is estimated of a peer's clock at these ticks: name, microseconds of a unit, and values (NaN: there is none)."""
    told = [line for line in report.estimates if (line.station, line.peer) == (station, peer)]
    last = numpy.searchsorted([line.tick for line in told], ticks, side="right")
    half, fine = Decimal("0.5"), MICROSECOND / HALF_MILLIONTHS
    bounds = [numpy.nan if line.bound is None else line.bound for line in told]
    columns = ("offset", half, [line.twice_offset for line in told]), ("error", fine, [line.error for line in told]), ("bound", fine, bounds)
    for name, unit, values in columns:
        yield name, unit, numpy.array([numpy.nan, *values], dtype=float)[last]


def _analog(name, phase, circuit, unit_name, unit, values, scale=None):
    """A channel, and its samples: values in whole units, or in the finest round scale by which they are samples."""
    there = values[~numpy.isnan(values)]
    least, greatest = (int(there.min()), int(there.max())) if len(there) else (0, 0)
    step, middle = 1, 0
    if min(least, -greatest) < LEAST:
        middle = (least + greatest) // 2
        step = int(round_scale(max(Decimal(greatest - least) / (GREATEST - LEAST), Decimal(1))))
    primary, secondary, is_primary = (scale.primary, scale.secondary, scale.is_primary) if scale else (Decimal(1), Decimal(1), True)
    channel = AnalogChannel(
        name, phase, circuit, unit_name, unit * step, unit * middle, Decimal(0), Decimal(LEAST), Decimal(GREATEST), primary, secondary, is_primary
    )
    return channel, numpy.rint((values - middle) / step)


def _statuses(scenario, report, ticks):
    """The channels of each station's phases, outside and trip, then of each peer's alarms, with their states."""
    made = []
    for station in scenario.stations:
        told = [line for line in report.sets if line.station == station]
        for at, phase in enumerate(PHASES):
            for name, letters in ("outside", "OT"), ("trip", "T"):
                turns = [(line.tick, line.letters[at] in letters) for line in told]
                made.append((StatusChannel("S%d %s %s" % (station, phase, name), phase, "S%d" % station, 0), _states(turns, ticks)))
    for station, peer in scenario.lines:
        for name in ALARMS:
            turns = [(line.tick, line.is_on) for line in report.alarms if (line.station, line.peer, line.name) == (station, peer, name)]
            made.append((StatusChannel("S%d %s of S%d" % (station, name, peer), "", "S%d-S%d" % (station, peer), 0), _states(turns, ticks)))
    return tuple(channel for channel, _ in made), [states for _, states in made]


def _states(turns, ticks):
    """The state at these ticks: that of the last turn by then, and 0 before the first."""
    last = numpy.searchsorted([tick for tick, _ in turns], ticks, side="right")
    return numpy.array([False, *(state for _, state in turns)], dtype=numpy.uint8)[last]
