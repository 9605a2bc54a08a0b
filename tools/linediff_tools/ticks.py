"""Ticks as people read them: a tick is a microsecond."""


def milliseconds(ticks):
    """A time in milliseconds with the ticks beside it."""
    return "%s ms (tick %d)" % (thousandths(ticks), ticks)


def span(ticks):
    """A span of time in milliseconds, or in seconds where it is long."""
    return "%s ms" % thousandths(ticks) if abs(ticks) < 10_000_000 else "%s s" % thousandths(round(ticks / 1000))


def thousandths(number):
    """A whole number divided by a thousand, written without zeros at its end."""
    return ("%.3f" % (number / 1000)).rstrip("0").rstrip(".")
