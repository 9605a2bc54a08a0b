"""The cosines by which the program goes: whole numbers, 16384 for one."""
from math import cos, tau

SCALE = 16384


def cosines(samples):
    """The cosine of each place in a cycle of so many samples."""
    return tuple(round(SCALE * cos(tau * place / samples)) for place in range(samples))


def sines(samples):
    """The sine of each place: the cosine a quarter of a cycle before."""
    table = cosines(samples)
    return table[-(samples // 4):] + table[:-(samples // 4)]
