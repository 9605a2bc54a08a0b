"""What a scenario of a sweep came to: a row, worked out of the scenario's own faults and the report of its run."""
from dataclasses import dataclass, field

from ..faults import faults_of
from ..report import ALARMS
from .trips import due_ticks, events_of, is_false, trace_ticks, trips_of, trips_on


@dataclass(slots=True)
class Outcome:
    """The columns of a row. Times are in ticks; `times` has one for each terminal that tripped on a fault.

    `violation` is empty, or says what must never be. `share` is the greatest error divided by its bound.
    """

    number: int
    violation: str = ""
    stations: int = 0
    ticks: int = 0
    delay: int = 0
    sets: int = 0
    trips: int = 0
    faults: int = 0
    tripped: int = 0
    missed: int = 0
    short: int = 0
    false: int = 0
    times: list[int] = field(default_factory=list)
    share: float = 0.0
    alarms: dict[str, int] = field(default_factory=lambda: dict.fromkeys(ALARMS, 0))
    forged: int = 0


def outcome_of(number, scenario, report):
    """The row of a scenario by its report."""
    settings, faults = scenario.settings, faults_of(scenario)
    events, trips, trace = events_of(faults, scenario.end), trips_of(report.sets), trace_ticks(settings)
    outcome = Outcome(number, stations=settings["stations"], ticks=scenario.end, faults=len(events), forged=report.forged)
    outcome.delay = max(scenario.delay(*line, events[0].first if events else 0) for line in scenario.lines)
    outcome.sets = sum(total.sets for total in report.totals)
    outcome.trips = sum(total.trips for total in report.totals)
    outcome.false = sum(is_false(trip, faults, trace) for trip in trips)
    for event in events:
        for station in scenario.stations:
            _take_event(outcome, event, trips_on(event, trips, station, trace), due_ticks(settings))
    _take_estimates(outcome, report.estimates)
    for turn in report.alarms:
        outcome.alarms[turn.name] += turn.is_on
    return outcome


def _take_event(outcome, event, trips, due):
    """Counts a fault at a terminal, with the time to its first trip. One that was tripping before the fault has no time."""
    if not trips and event.end - event.first < due:
        outcome.short += 1
    elif not trips:
        outcome.missed += 1
    else:
        outcome.tripped += 1
        outcome.times += [trip.first - event.first for trip in trips if trip.first >= event.first][:1]


def _take_estimates(outcome, estimates):
    """Finds the greatest share of an error in its bound, and the first error that is above it."""
    for estimate in estimates:
        if estimate.bound is None:
            continue
        outcome.share = max(outcome.share, estimate.error / estimate.bound)
        if estimate.error > estimate.bound and not outcome.violation:
            outcome.violation = "error %d above bound %d at tick %d" % (estimate.error, estimate.bound, estimate.tick)
