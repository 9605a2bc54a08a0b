"""The values of the sets of a run, which the report doesn't tell: those of the scenario at the times at which they were taken."""
from bisect import bisect_right
from collections import defaultdict
from operator import attrgetter

from .clocks import RunningClock
from .scenario import Waveform


def sets_of(scenario, report, station):
    """For each set that a station judged, by its number: the phases of each station, the own ones first."""
    samples = {number: _Samples(scenario, number) for number in scenario.stations}
    estimates = defaultdict(list)
    for estimate in report.estimates:
        if estimate.station == station:
            estimates[estimate.peer].append(estimate)
    sets = {}
    for judged in report.sets:
        if judged.station == station:
            own = samples[station].values(judged.number)
            sets[judged.number] = [own] + [
                samples[peer].values(_number_of_peer(scenario.settings["spacing"], judged, estimates[peer]))
                for peer in scenario.stations
                if peer != station
            ]
    return sets


def _number_of_peer(spacing, judged, estimates):
    """The number that a peer gave to the sample in a set, by the last estimate told until the set was judged."""
    told = bisect_right(estimates, judged.tick, key=attrgetter("tick"))
    twice_offset = estimates[told - 1].twice_offset if told else 0
    return -((spacing - 2 * judged.number * spacing - twice_offset) // (2 * spacing))


class _Samples:
    """The samples of a station."""

    def __init__(self, scenario, station):
        self._spacing = scenario.settings["spacing"]
        self._clock = RunningClock(scenario, station)
        self._waveform = Waveform(scenario, station)

    def values(self, number):
        """The values of the sample that has a number."""
        return self._waveform.values(self._clock.tick_of(number * self._spacing))
