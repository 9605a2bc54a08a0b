"""The currents of sets over a full cycle, and where their ratio lies in the alpha plane."""
from collections import deque
from dataclasses import dataclass

from .cosines import SCALE, cosines, sines


@dataclass(slots=True)
class Currents:
    """A phase's sums of a set: the own current, the remote one of all others together, and those of each station."""

    number: int
    own: complex
    remote: complex
    stations: list[complex]

    @property
    def ratio(self):
        """The remote current divided by the own one. None where the own one is zero."""
        return self.remote / self.own if self.own else None


def currents_of(sets, place, cycle):
    """The currents of a phase at each set behind a full cycle of consecutive ones, for sets by their numbers."""
    factors = [complex(*factor) for factor in zip(cosines(cycle), sines(cycle))]
    told, window, before = [], deque(maxlen=cycle), None
    for number, stations in sets.items():
        if before is not None and number != before + 1:
            window.clear()
        window.append([values[place] * factors[number % cycle] for values in stations])
        before = number
        if len(window) == cycle:
            sums = [sum(parts) for parts in zip(*window)]
            told.append(Currents(number, sums[0], sum(sums[1:]), sums))
    return told


def is_outside(currents, settings):
    """Whether a phase is outside the restraint region: the pickup is passed, and each station against the others is outside."""
    total = sum(currents.stations)
    if 4 * _square(total) <= (settings["pickup"] * settings["cycle"] * SCALE) ** 2:
        return False
    return not any(_is_inside(own, total - own, settings) for own in currents.stations)


def _is_inside(own, others, settings):
    u = -_whole(own.real) * _whole(others.real) - _whole(own.imag) * _whole(others.imag)
    v = abs(_whole(own.real) * _whole(others.imag) - _whole(own.imag) * _whole(others.real))
    rn, rd = settings["rn"] ** 2, settings["rd"] ** 2
    within = rd * _square(others) <= rn * _square(own) and rd * _square(own) <= rn * _square(others)
    return within and settings["p"] * v <= settings["q"] * u


def _square(current):
    return _whole(current.real) ** 2 + _whole(current.imag) ** 2


def _whole(part):
    # Sums of a cycle have less than 53 bits, so floating point keeps them whole.
    return int(part)


def verdicts_of(currents, settings):
    """The letters that these currents of a phase give, by number: what a picture's points are held to."""
    letters, outside, before = {}, 0, None
    for each in currents:
        if before is None or each.number != before + 1:
            outside = 0
        outside = outside + 1 if is_outside(each, settings) else 0
        before = each.number
        letters[each.number] = "R" if not outside else "T" if outside >= settings["count"] else "O"
    return letters
