"""What the clocks of a scenario show in true time."""
MILLION = 1_000_000


class RunningClock:
    """The clock of a station in true time."""

    def __init__(self, scenario, station):
        self._start = next((clock.start for clock in scenario.clocks if clock.station == station), 0)
        # Each rate's first tick, the phase there, and the rate.
        self._paces = [(0, self._start * MILLION, 0)]
        for rate in scenario.rates:
            if rate.station == station:
                self._paces.append((rate.first, self.phase(rate.first), rate.rate))

    def phase(self, tick):
        """The phase at a tick, in millionths of a tick."""
        first, phase, rate = self._pace(lambda pace: pace[0] <= tick)
        return phase + (MILLION + rate) * (tick - first)

    def tick_of(self, stamp):
        """The least tick at which the clock shows a stamp or more."""
        wanted = stamp * MILLION
        first, phase, rate = self._pace(lambda pace: pace[1] < wanted)
        return max(0, first - (phase - wanted) // (MILLION + rate))

    def _pace(self, has_begun):
        """The last pace that has begun; the first where none has."""
        return next((pace for pace in reversed(self._paces) if has_begun(pace)), self._paces[0])


def offset(own, other, tick):
    """By how many ticks another clock is ahead of the own one at a tick."""
    return (other.phase(tick) - own.phase(tick)) / MILLION
