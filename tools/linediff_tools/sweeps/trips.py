"""The trips of a run, held against the faults of its scenario."""
from dataclasses import dataclass
from itertools import groupby

from ..faults import fault_before


@dataclass(slots=True)
class Trip:
    """A phase that a station trips with one set after the other: the ticks of the first and of the last one."""

    station: int
    phase: int
    first: int
    last: int


@dataclass(frozen=True, slots=True)
class Event:
    """Faults that begin at one tick: their phases, and the tick at which the last of them ends (that of the run where they last)."""

    first: int
    end: int
    phases: tuple[int, ...]


def trips_of(sets):
    """The trips of a report's sets, in the order in which they begin."""
    trips, running = [], {}
    for judged in sets:
        if "T" not in judged.letters and not running:
            continue
        for phase, letter in enumerate(judged.letters):
            place = judged.station, phase
            if letter != "T":
                running.pop(place, None)
            elif place in running:
                running[place].last = judged.tick
            else:
                running[place] = Trip(*place, judged.tick, judged.tick)
                trips.append(running[place])
    return trips


def events_of(faults, run_end):
    """The faults of all phases by the tick at which they begin."""
    events = []
    for first, begun in groupby(sorted(faults, key=lambda fault: fault.first), key=lambda fault: fault.first):
        begun = list(begun)
        end = max(run_end if fault.end is None else fault.end for fault in begun)
        events.append(Event(first, end, tuple(fault.phase for fault in begun)))
    return events


def due_ticks(settings):
    """The ticks within which a terminal trips whose sets all come: a cycle and the count of sets, judged before they reach the limit."""
    return (settings["cycle"] + settings["count"]) * settings["spacing"] + settings["limit"]


def trace_ticks(settings):
    """The ticks behind a fault for which a set may still hold values of it: a cycle, judged before it reaches the limit."""
    return (settings["cycle"] + 1) * settings["spacing"] + settings["limit"]


def is_false(trip, faults, trace):
    """Whether a phase trips without a fault: none has begun, or the last one ended so long before that no set holds values of it."""
    fault = fault_before(faults, trip.phase, trip.first)
    return fault is None or (fault.end is not None and trip.first >= fault.end + trace)


def trips_on(event, trips, station, trace):
    """A station's trips on a fault: of one of its phases, and running while the fault is there or a set holds values of it."""
    return [
        trip for trip in trips
        if trip.station == station and trip.phase in event.phases and trip.last >= event.first and trip.first < event.end + trace
    ]
