"""Scales that people read with ease, 1, 2 or 5 times a power of ten, and how a decimal number is written."""
from decimal import Decimal


def round_scale(least):
    """The least scale of that kind that isn't below a number above zero."""
    power = Decimal(1).scaleb(Decimal(least).adjusted())
    return next(factor * power for factor in (1, 2, 5, 10) if factor * power >= least)


def plain(number):
    """A decimal number without zeros at its end, and without an exponent where it isn't far from 1."""
    number = number.normalize()
    return format(number, "f") if abs(number.adjusted()) < 12 else str(number)
