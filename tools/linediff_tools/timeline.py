"""The picture of a run over time: for each station its currents and verdicts, and for each peer estimates, alarms and harmed frames."""
from dataclasses import dataclass

from matplotlib.lines import Line2D
from matplotlib.patches import Patch

from . import tracks
from .clocks import RunningClock, offset
from .faults import faults_of
from .layout import Panel, stacked, time_axis
from .report import HALF_MILLIONTHS, Report
from .rows import NotReadable
from .scenario import Scenario, Waveform
from .series import alarm_spans, runs_of, thinned
from .style import ACT_LOOKS, BLACK, BLUE, FAULT_LINE, GREY, PURPLE, SKY, VERMILLION

# So many ticks are a millisecond.
TICKS = 1000
# A run that is so short is drawn at so many ticks.
SHORT = 800
# Above so many estimates each is no longer marked.
MOST_MARKS = 100


@dataclass(slots=True)
class Run:
    """What is drawn: a scenario, its report, and the ticks from which and to which it is shown."""

    scenario: Scenario
    report: Report
    first: int
    last: int


def draw(scenario, report, first=0, last=None):
    """The picture of a run, from a tick on and up to one. Raises NotReadable where nothing of the run lies there."""
    last = report.end if last is None else min(last, report.end)
    if not 0 <= first < last:
        raise NotReadable("from tick %d to tick %d there is nothing of the run, which ends at tick %d" % (first, last, report.end))
    run = Run(scenario, report, first, last)
    panels = [panel for station in scenario.stations for panel in _panels_of(run, station)]
    figure, axes = stacked(panels, scenario.title, [*_keys()])
    for fault in faults_of(scenario):
        for axis in axes:
            axis.axvline(fault.first / TICKS, zorder=0, label="fault", **FAULT_LINE)
    time_axis(axes, run.first / TICKS, run.last / TICKS)
    return figure


def _panels_of(run, station):
    yield Panel(1.0, 0.6 if station == 1 else 0.35, lambda axis: _draw_currents(axis, run, station))
    yield Panel(0.5, 0.15, lambda axis: _draw_verdicts(axis, run, station))
    for peer in run.scenario.stations:
        if peer != station:
            # (each panel has its own peer, whenever it is drawn)
            yield Panel(0.8, 0.25, lambda axis, peer=peer: _draw_estimates(axis, run, station, peer))
            rows = _rows_of(run, station, peer)
            yield Panel(0.13 * max(3, len(rows)), 0.12, lambda axis, peer=peer, rows=rows: _draw_rows(axis, rows, peer))


def _draw_currents(axis, run, station):
    axis.set_title("station %d" % station, fontweight="bold")
    ticks = range(run.first, run.last, max(1, min(run.scenario.period // 40, (run.last - run.first) // SHORT)))
    waveform = Waveform(run.scenario, station)
    tracks.draw_curves(axis, [tick / TICKS for tick in ticks], list(zip(*map(waveform.values, ticks))))


def _draw_verdicts(axis, run, station):
    told = [(judged.tick / TICKS, judged.number, judged.letters) for judged in run.report.sets if judged.station == station]
    tracks.draw_verdicts(axis, told, run.scenario.settings["spacing"] / TICKS, run.first / TICKS, run.last / TICKS, " ms")


def _draw_estimates(axis, run, station, peer):
    """Draws by how much each estimate is off the true offset, which is the dotted line at zero, and its bound."""
    own, other = RunningClock(run.scenario, station), RunningClock(run.scenario, peer)
    estimates = [line for line in run.report.estimates if (line.station, line.peer) == (station, peer) and run.first <= line.tick <= run.last]
    mark = "o" if len(estimates) <= MOST_MARKS else ""
    for estimated in runs_of(estimates, run.scenario.settings["spacing"]):
        times = [line.tick / TICKS for line in estimated]
        values = [line.twice_offset / 2 - offset(own, other, line.tick) for line in estimated]
        _draw_band(axis, times, values, [(line.bound or 0) / HALF_MILLIONTHS for line in estimated])
        columns, lows, highs = thinned(times, values, values)
        axis.plot(columns, highs, color=BLUE, linewidth=1, marker=mark, markersize=2, label="estimate")
        if len(columns) < len(times):
            axis.plot(columns, lows, color=BLUE, linewidth=1)
        unbounded = [(time, value) for time, value, line in zip(times, values, estimated) if line.bound is None]
        axis.plot(*zip(*unbounded), marker="x", linestyle="", color=VERMILLION, markersize=4, label="no bound") if unbounded else None
    axis.axhline(0, color=BLACK, linestyle=":", linewidth=1.2, label="true offset")
    axis.set_ylabel("clock of %d\noff, ticks" % peer)
    axis.margins(y=0.15)
    axis.text(1.0, 1.02, _estimate_words(estimates), transform=axis.transAxes, ha="right", va="bottom", fontsize=7)


def _draw_band(axis, times, values, bounds):
    lows, highs = zip(*((value - bound, value + bound) for value, bound in zip(values, bounds)))
    columns, lows, highs = thinned(times, lows, highs)
    axis.fill_between(columns, lows, highs, color=SKY, alpha=0.45, linewidth=0, label="bound")


def _estimate_words(estimates):
    if not estimates:
        return "no estimate"
    offsets = sorted(line.twice_offset / 2 for line in estimates)
    worst = max(estimates, key=lambda line: line.error)
    words = "offset estimated as %.15g" % offsets[0] + (" to %.15g" % offsets[-1] if offsets[-1] > offsets[0] else "")
    words += " ticks, greatest error %.6g ticks" % (worst.error / HALF_MILLIONTHS)
    return words + (", %.2f %% of its bound" % (100 * worst.error / worst.bound) if worst.bound else ", without a bound")


@dataclass(slots=True)
class Row:
    """A row of bars: its name, its spans in ticks, their colour, and the marker at which each begins, if it has one."""

    name: str
    spans: list
    colour: str
    marker: str | None = None


def _rows_of(run, station, peer):
    """The alarms of a peer that were on, and what became of frames on the line from it, as far as they are shown."""
    turns = [turn for turn in run.report.alarms if (turn.station, turn.peer) == (station, peer)]
    rows = [Row(name, spans, GREY) for name, spans in alarm_spans(turns, run.report.end).items()]
    acts = [act for act in run.scenario.acts if (act.sender, act.receiver) == (peer, station) and act.first < run.report.end]
    for kind, (name, marker) in ACT_LOOKS.items():
        rows.append(Row(name, [(act.first, min(act.last + 1, run.report.end)) for act in acts if act.kind == kind], PURPLE, marker))
    return [row for row in rows if any(first < run.last and last > run.first for first, last in row.spans)]


def _draw_rows(axis, rows, peer):
    axis.set_ylabel("from %d" % peer)
    tracks.name_rows(axis, [row.name for row in rows])
    for place, row in enumerate(rows):
        bars = [(first / TICKS, (last - first) / TICKS) for first, last in row.spans]
        axis.broken_barh(bars, (place - 0.35, 0.7), facecolor=row.colour, edgecolor=row.colour, linewidth=0.6, label=row.name)
        if row.marker:
            axis.plot([start for start, _ in bars], [place] * len(bars), row.marker, color=BLACK, markersize=4, linestyle="")


def _keys():
    yield from tracks.keys()
    yield Line2D([], [], color=BLUE, label="estimate")
    yield Patch(facecolor=SKY, alpha=0.45, label="its bound")
    yield Line2D([], [], color=BLACK, linestyle=":", label="true offset")
    yield Line2D([], [], label="a fault begins", **FAULT_LINE)
    yield Patch(facecolor=GREY, label="alarm on")
    yield Patch(facecolor=PURPLE, label="frames harmed")
