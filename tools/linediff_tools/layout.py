"""Where the panels of a picture stand: one below the other over one axis, or squares side by side."""
from dataclasses import dataclass
from typing import Callable

from matplotlib.figure import Figure
from matplotlib.ticker import FuncFormatter

from . import style  # noqa: F401  (how all that follows looks)

LEGEND_COLUMNS = 8


@dataclass(slots=True)
class Panel:
    """A panel of a picture: its height and the gap above it, in inches, and what draws into its axes."""

    height: float
    gap: float
    draw: Callable


def stacked(panels, title, keys):
    """A picture of panels one below the other over one axis, with a title above them and a legend below, and its axes."""
    width, top, left, right = 10, 0.35, 1.2, 0.35
    foot = 0.6 + 0.18 * -(-len(keys) // LEGEND_COLUMNS)
    height = top + sum(panel.gap + panel.height for panel in panels) + foot
    figure = Figure(figsize=(width, height))
    figure.text(left / width, 1 - 0.1 / height, title, ha="left", va="top", fontsize=10, parse_math=False)
    below, axes = height - top, []
    for panel in panels:
        below -= panel.gap + panel.height
        place = left / width, below / height, (width - left - right) / width, panel.height / height
        axes.append(figure.add_axes(place, sharex=axes[0] if axes else None))
        axes[-1].tick_params(labelbottom=panel is panels[-1])
        panel.draw(axes[-1])
    figure.align_ylabels(axes)
    figure.legend(handles=keys, loc="lower center", ncols=LEGEND_COLUMNS, fontsize=7)
    return figure, axes


def time_axis(axes, first, last):
    """Shows a time in milliseconds below the panels, and in ticks above them."""
    axes[0].set_xlim(first, last)
    axes[-1].set_xlabel("true time in ms")
    above = axes[0].secondary_xaxis("top", functions=(lambda time: time * 1000, lambda ticks: ticks / 1000))
    above.set_xlabel("ticks (microseconds)", loc="left", labelpad=3, fontsize=7)
    above.tick_params(labelsize=7)
    above.xaxis.set_major_formatter(FuncFormatter(lambda ticks, _: "%d" % ticks))


def squares(columns, rows, title, keys):
    """A picture of square panels, which come row by row, with a title above them and a legend below, and its axes."""
    side, gap, top, foot = 3.6, 0.75, 0.75, 1.45
    width, height = columns * (side + gap) + 0.15, top + rows * (side + gap) - gap + foot
    figure = Figure(figsize=(width, height))
    axes = [
        figure.add_axes(((gap + column * (side + gap)) / width, (height - top - side - row * (side + gap)) / height, side / width, side / height))
        for row in range(rows)
        for column in range(columns)
    ]
    figure.text(0.15 / width, 1 - 0.15 / height, title, ha="left", va="top", fontsize=10, parse_math=False)
    figure.legend(handles=keys, loc="lower center", ncols=4, fontsize=7)
    return figure, axes
