"""The faults that the currents of a scenario are: when what enters the line at its stations doesn't leave it."""
import cmath
from dataclasses import dataclass
from itertools import groupby
from operator import attrgetter

from .scenario import Hold


@dataclass(slots=True)
class Fault:
    """A phase's fault from a tick on, up to and without the tick of its end; None where it lasts."""

    phase: int
    first: int
    end: int | None


def faults_of(scenario):
    """The faults of a scenario, by phase and then in turn.

    A phase has a fault while its currents, added up over the stations, have an amplitude above `pickup`. Pauses of less than a
    cycle belong to it, since values that are held one after the other pass through zero.
    """
    return [fault for phase in range(3) for fault in _faults_of_phase(scenario, phase)]


def fault_before(faults, phase, tick):
    """The last fault of a phase that has begun by a tick, or None."""
    begun = [fault for fault in faults if fault.phase == phase and fault.first <= tick]
    return begun[-1] if begun else None


def _faults_of_phase(scenario, phase):
    faults = []
    for tick, shapes in _shapes_in_turn(scenario):
        is_fault = _amplitude(shapes, phase) > scenario.settings["pickup"]
        is_open = bool(faults) and faults[-1].end is None
        if is_fault and faults and not is_open and tick - faults[-1].end < scenario.period:
            faults[-1].end = None
        elif is_fault and not is_open:
            faults.append(Fault(phase, tick, None))
        elif is_open and not is_fault:
            faults[-1].end = tick
    return faults


def _shapes_in_turn(scenario):
    """Each tick before the end at which a shape begins, and the shapes of the stations from then on."""
    now = {}
    begun = sorted((shape for shape in scenario.shapes if shape.first < scenario.end), key=attrgetter("first"))
    for tick, shapes in groupby(begun, key=attrgetter("first")):
        now.update((shape.station, shape) for shape in shapes)
        yield tick, now.values()


def _amplitude(shapes, phase):
    """The amplitude of a phase's currents added up, with what is held as a constant."""
    constant, turning = 0, 0
    for shape in shapes:
        if isinstance(shape, Hold):
            constant += shape.values[phase]
        else:
            turning += cmath.rect(shape.amplitudes[phase], shape.steps[phase] * cmath.pi / 10)
    return round(abs(constant) + abs(turning), 6)
