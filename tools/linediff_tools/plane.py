"""The alpha plane: the restraint region of the settings, and the way of each phase's ratio of remote to local current."""
from dataclasses import dataclass
from math import atan2, degrees

from matplotlib.lines import Line2D
from matplotlib.patches import Patch, Wedge

from .aligned import sets_of
from .layout import squares
from .phasors import currents_of, verdicts_of
from .records import PHASES
from .style import BLACK, GREY, LIGHT, PHASE_LOOKS, YELLOW

# The picture of the whole reaches so far beyond the outer radius of the region. What lies further out is drawn at its rim.
REACH = 1.5
NEAR = 1.5
RIM = 0.97
SIZES = (7, 5, 2.5)


@dataclass(slots=True)
class View:
    """What a terminal sees: its name, the letters of its sets by number, and the currents of each phase at these sets."""

    name: str
    letters: dict
    currents: list


def views_of_run(scenario, report):
    """The view of each station of a run."""
    for station in scenario.stations:
        others = " and ".join(str(peer) for peer in scenario.stations if peer != station)
        told = [judged for judged in report.sets if judged.station == station]
        yield _view("station %d, local; %s, remote" % (station, others), sets_of(scenario, report, station), told, scenario.settings)


def view_of_sets(sets, verdicts, settings):
    """The view of what `judge` was given and told."""
    return _view("terminal 1, local; terminal 2, remote", {each.number: [each.first, each.second] for each in sets}, verdicts, settings)


def _view(name, sets, told, settings):
    letters = {each.number: each.letters for each in told}
    return View(name, letters, [currents_of(sets, place, settings["cycle"]) for place in range(len(PHASES))])


def draw(views, settings, title):
    """The picture of some views side by side: each as a whole, and below that, or beside a single one, what lies near zero."""
    views = list(views)
    figure, axes = squares(max(2, len(views)), min(2, len(views)), title, [*_keys()])
    for view, whole, near in zip(views, axes, axes[len(views):]):
        _draw_view(whole, view, settings, _reach(settings))
        _draw_view(near, view, settings, min(NEAR, _reach(settings)))
        whole.set_title(view.name)
        near.set_title("the same, near zero")
        whole.text(0.01, 0.01, "\n".join(_notes(view, settings)), transform=whole.transAxes, fontsize=7, va="bottom")
    return figure


def _reach(settings):
    return REACH * settings["rn"] / settings["rd"]


def _draw_view(axis, view, settings, limit):
    _draw_region(axis, settings)
    for place in range(len(PHASES)):
        _draw_way(axis, view, place, settings, limit)
    axis.set(xlim=(-limit, limit), ylim=(-limit, limit), aspect="equal")
    axis.set_xlabel("real part of remote / local", labelpad=2)
    axis.set_ylabel("imaginary part", labelpad=2)


def _notes(view, settings):
    """What the picture can't show: sets without a ratio, and sets whose verdict is another than that of the currents drawn."""
    differing = set()
    for place, (phase, currents) in enumerate(zip(PHASES, view.currents)):
        alone = sum(each.ratio is None and each.remote != 0 for each in currents)
        if alone:
            yield "phase %s: %d sets without a local current, an infinite ratio" % (phase, alone)
        told = verdicts_of(currents, settings)
        differing |= {number for number, letters in view.letters.items() if letters[place] != told.get(number, "W")}
    if differing:
        yield "%d sets were judged otherwise than by these currents" % len(differing)


def _draw_region(axis, settings):
    outer, inner = settings["rn"] / settings["rd"], settings["rd"] / settings["rn"]
    half = degrees(atan2(settings["q"], settings["p"]))
    axis.add_patch(Wedge((0, 0), outer, 180 - half, 180 + half, width=outer - inner, facecolor=LIGHT, edgecolor=BLACK, linewidth=0.8, label="region"))
    axis.axhline(0, color=GREY, linewidth=0.4, zorder=0)
    axis.axvline(0, color=GREY, linewidth=0.4, zorder=0)
    axis.plot([-1], [0], "+", color=BLACK, markersize=9, label="-1")


def _draw_way(axis, view, place, settings, limit):
    """Draws a phase's way set by set, with the mark of each set's verdict."""
    phase = PHASES[place]
    colour, line, _ = PHASE_LOOKS[phase]
    currents = [each for each in view.currents[place] if each.ratio is not None]
    way = [(within(each.ratio, RIM * _reach(settings)), view.letters[each.number][place]) for each in currents]
    axis.plot([at.real for at, _ in way], [at.imag for at, _ in way], color=colour, linestyle=line, linewidth=0.6, label="phase " + phase)
    for letter, fill in (("R", "none"), ("O", YELLOW), ("T", colour)):
        at = _apart([at for at, told in way if told == letter], limit)
        axis.plot([each.real for each in at], [each.imag for each in at], linestyle="", label="%s %s" % (phase, letter), **_mark(place, fill))


def _mark(place, fill):
    """The mark of a phase. Those of the phases that come first are larger, so that of marks at one place each is seen."""
    colour, _, marker = PHASE_LOOKS[PHASES[place]]
    return {"marker": marker, "markersize": SIZES[place], "markeredgecolor": colour, "markerfacecolor": fill, "markeredgewidth": 0.7}


def within(ratio, limit):
    """A ratio as it is drawn: one beyond the limits at the rim, in its direction."""
    beyond = max(abs(ratio.real), abs(ratio.imag)) / limit
    return ratio / beyond if beyond > 1 else ratio


def _apart(points, limit):
    """Points of which each differs visibly from the one before."""
    kept = []
    for point in points:
        if not kept or abs(point - kept[-1]) > limit / 500:
            kept.append(point)
    return kept


def _keys():
    for name, fill in (("restrain", "none"), ("outside", YELLOW), ("trip", None)):
        for place, phase in enumerate(PHASES):
            colour = PHASE_LOOKS[phase][0]
            yield Line2D([], [], linestyle="", label="phase %s, %s" % (phase, name), **_mark(place, fill or colour))
    yield Patch(facecolor=LIGHT, edgecolor=BLACK, label="restraint region")
    yield Line2D([], [], linestyle="", marker="+", color=BLACK, markersize=9, label="-1: what enters leaves")
    yield Line2D([], [], linestyle="", label="(at the rim of a whole: further out)")
