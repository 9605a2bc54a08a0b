"""Curves, verdicts and bars over time or over the numbers of sets."""
from matplotlib.lines import Line2D
from matplotlib.patches import Patch

from .records import PHASES
from .series import segments_of, thinned
from .style import BLACK, GREY, PHASE_LOOKS, VERDICT_LOOKS

# The share of the span that is shown above which a piece of a strip has its letter.
WIDE = 0.03
BOX = {"boxstyle": "round,pad=0.15", "facecolor": "white", "edgecolor": "none", "alpha": 0.8}


def draw_curves(axis, places, curves):
    """Draws a curve for each phase, and of long ones what lies between the extremes."""
    for phase, values in zip(PHASES, curves):
        colour, line, _ = PHASE_LOOKS[phase]
        columns, lows, highs = thinned(places, values, values)
        looks = {"color": colour, "linestyle": line, "linewidth": 0.9, "drawstyle": "steps-post"}
        axis.plot(columns, highs, label="phase " + phase, **looks)
        if len(columns) < len(places):
            axis.plot(columns, lows, **looks)
            axis.fill_between(columns, lows, highs, color=colour, alpha=0.12, linewidth=0)
    low, high = axis.get_ylim()
    axis.set_ylim(min(low, -1), max(high, 1))
    axis.set_ylabel("current\ncounts")


def name_rows(axis, names):
    """Makes room for a row of each name, the first one above."""
    axis.set_ylim(max(len(names), 1) - 0.5, -0.5)
    axis.set_yticks(range(len(names)), names, fontsize=7)
    axis.tick_params(axis="y", length=0)


def draw_verdicts(axis, told, spacing, first, last, unit):
    """Draws a strip of each phase, of whose sets place, number and letters are told, and names the place of its first trip."""
    name_rows(axis, PHASES)
    axis.set_ylabel("verdict")
    for row in range(len(PHASES)):
        segments = segments_of([(place, number, letters[row]) for place, number, letters in told], spacing)
        shown = [(each.letter, max(each.first, first), min(each.last, last)) for each in segments if each.first < last and each.last > first]
        _draw_strip(axis, row, shown, WIDE * (last - first))
        trip = next((place for place, _, letters in told if letters[row] == "T"), None)
        if trip is not None and first <= trip <= last:
            axis.plot([trip], [row - 0.5], marker="v", color=BLACK, markersize=5, clip_on=False, linestyle="", label="first trip")
            # (to the left of it where it is near the end)
            aside = {"xytext": (6, 0), "ha": "left"} if trip < last - (last - first) / 8 else {"xytext": (-6, 0), "ha": "right"}
            axis.annotate("%.10g%s" % (trip, unit), (trip, row), textcoords="offset points", va="center", fontsize=7, bbox=BOX, **aside)


def _draw_strip(axis, row, pieces, wide):
    for letter, (_, colour, hatch) in VERDICT_LOOKS.items():
        bars = [(first, last - first) for told, first, last in pieces if told == letter]
        if bars:
            axis.broken_barh(bars, (row - 0.42, 0.84), facecolor=colour, edgecolor=GREY, hatch=hatch, linewidth=0, label=letter)
        for start, width in bars:
            if width > wide:
                axis.text(start + width / 2, row, letter, ha="center", va="center", fontsize=7, bbox=BOX, clip_on=True)


def keys():
    """The legend of curves and verdicts."""
    for phase, (colour, line, _) in PHASE_LOOKS.items():
        yield Line2D([], [], color=colour, linestyle=line, label="phase " + phase)
    for name, colour, hatch in VERDICT_LOOKS.values():
        yield Patch(facecolor=colour, edgecolor=GREY, hatch=hatch, linewidth=0.3, label=name)
    yield Patch(facecolor="white", edgecolor=GREY, linewidth=0.3, label="not judged")
    yield Line2D([], [], color=BLACK, marker="v", linestyle="", label="first trip")
