"""The picture of a sweep: over what was varied, the times from faults to trips, the greatest share of an error in its bound, false trips."""
from matplotlib.lines import Line2D
from matplotlib.ticker import MaxNLocator

from ..layout import Panel, stacked
from ..rows import NotReadable
from ..style import BLACK, BLUE, FAULT_LINE, GREEN, VERMILLION
from .rows import PLAIN

# So many ticks are a millisecond.
TICKS = 1000
# Above so many points an SVG has them as an image.
MOST_DRAWN = 2000
POINT = {"linestyle": "", "marker": "o", "markersize": 2.5, "markeredgewidth": 0, "alpha": 0.6}
MISSED = {"linestyle": "", "marker": "x", "markersize": 5, "color": VERMILLION}
FALSE = {"linestyle": "", "marker": "^", "markersize": 4, "color": GREEN}


def draw(sweep, found, over="delay"):
    """The picture of a sweep's outcomes over a column, a name of the template, or the difference of two as in `there-back`."""
    sound = [(outcome, drawn) for outcome, drawn in found.values() if not outcome.violation]
    outcomes = [outcome for outcome, _ in sound]
    xs = [_value(outcome, drawn, over) for outcome, drawn in sound]
    scale, label = (TICKS, "greatest one-way delay of the channel in ms") if over == "delay" else (1, over)
    xs = [x / scale for x in xs]
    panels = [Panel(2.8, 0.1, lambda axis: _draw_times(axis, xs, outcomes))] if any(outcome.faults for outcome in outcomes) else []
    panels += [Panel(1.0, 0.25, lambda axis: _draw_shares(axis, xs, outcomes)), Panel(0.8, 0.25, lambda axis: _draw_false(axis, xs, outcomes))]
    source = "of gen" if sweep.template is None else "of a template, seed %d" % sweep.seed
    figure, axes = stacked(panels, "%d scenarios %s" % (len(outcomes), source), [*_keys()])
    axes[-1].set_xlabel(label)
    return figure


def _value(outcome, drawn, over):
    """What was varied, by its name."""
    plus, _, minus = over.partition("-")
    if minus:
        return _value(outcome, drawn, plus) - _value(outcome, drawn, minus)
    if over in drawn:
        return drawn[over]
    if over in PLAIN:
        return getattr(outcome, over)
    raise NotReadable("%s is no column of the sweep; there are %s" % (over, ", ".join([*drawn, *PLAIN])))


def _draw_times(axis, xs, outcomes):
    points = [(x, time / TICKS) for x, outcome in zip(xs, outcomes) for time in outcome.times]
    _plot(axis, points, color=BLUE, label="trip", **POINT)
    top = 1.08 * max((time for _, time in points), default=1)
    _plot(axis, [(x, top) for x, outcome in zip(xs, outcomes) if outcome.missed], label="missed", **MISSED)
    axis.set_ylabel("from fault to trip, ms")
    axis.set_ylim(bottom=0, top=1.04 * top)


def _draw_shares(axis, xs, outcomes):
    _plot(axis, [(x, 100 * outcome.share) for x, outcome in zip(xs, outcomes)], color=BLACK, label="share", **POINT)
    axis.axhline(100, label="bound", **FAULT_LINE)
    axis.set_ylabel("greatest error,\n% of its bound")
    axis.set_ylim(bottom=0, top=110)


def _draw_false(axis, xs, outcomes):
    _plot(axis, [(x, outcome.false) for x, outcome in zip(xs, outcomes) if outcome.false], label="false", **FALSE)
    axis.set_ylabel("false trips")
    axis.yaxis.set_major_locator(MaxNLocator(nbins=4, integer=True))
    axis.set_ylim(bottom=0, top=1.2 * max((outcome.false for outcome in outcomes), default=0) or 1)


def _plot(axis, points, **looks):
    if points:
        axis.plot(*zip(*points), rasterized=len(points) > MOST_DRAWN, **looks)


def _keys():
    yield Line2D([], [], color=BLUE, label="a terminal's time to its trip", **POINT)
    yield Line2D([], [], label="a scenario with a missed trip", **MISSED)
    yield Line2D([], [], color=BLACK, label="a scenario's greatest error", **POINT)
    yield Line2D([], [], label="its bound", **FAULT_LINE)
    yield Line2D([], [], label="a scenario with false trips", **FALSE)
