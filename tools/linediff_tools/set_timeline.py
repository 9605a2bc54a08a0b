"""The picture of what `judge` was given and told, over the numbers of the sets."""
from . import tracks
from .layout import Panel, stacked


def draw(sets, verdicts):
    """The picture of some sets and their verdicts."""
    panels = [
        Panel(1.3, 0.3, lambda axis: _draw_terminal(axis, sets, "terminal 1", [each.first for each in sets])),
        Panel(1.3, 0.4, lambda axis: _draw_terminal(axis, sets, "terminal 2", [each.second for each in sets])),
        Panel(0.6, 0.25, lambda axis: _draw_verdicts(axis, verdicts)),
    ]
    figure, axes = stacked(panels, "%d sets of judge" % len(sets), [*tracks.keys()])
    axes[0].set_xlim(sets[0].number, sets[-1].number + 1)
    axes[-1].set_xlabel("number of the set")
    return figure


def _draw_terminal(axis, sets, name, values):
    axis.set_title(name, fontweight="bold")
    tracks.draw_curves(axis, [each.number for each in sets], list(zip(*values)))


def _draw_verdicts(axis, verdicts):
    told = [(verdict.number, verdict.number, verdict.letters) for verdict in verdicts]
    tracks.draw_verdicts(axis, told, 1, verdicts[0].number, verdicts[-1].number + 1, "")
