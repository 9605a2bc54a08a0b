"""Looks at what `tools/picture` draws: the series against the numbers of reports, the limits, and the labels."""
import importlib.util
import os
import subprocess
import sys
import tempfile

from answers import EXAMPLES, ROOT, bytes_of, run

sys.path.insert(0, os.path.join(ROOT, "tools"))

PICTURE = os.path.join(ROOT, "tools", "picture")
PHASES = "abc"


def lacks():
    """What these cases need and isn't there."""
    return None if importlib.util.find_spec("matplotlib") else "the package python3-matplotlib, which tools/install installs"


def example(name):
    """The bytes of an example's scenario, and the text of its report."""
    data = bytes_of("examples", "scenarios", name + ".csv")
    return data, run(["bench"], data)[0].decode()


def lines(text, *start):
    """The fields of a report's lines that begin so."""
    told = [line.split(",") for line in text.splitlines()]
    return [fields for fields in told if fields[: len(start)] == list(start)]


def drawn(axis, label):
    """The points of the lines with a label, one after the other."""
    return [tuple(point) for line in axis.lines if line.get_label() == label for point in line.get_xydata()]


def outlines(axis, label):
    """The outlines of the bars or bands with a label."""
    return [path for collection in axis.collections if collection.get_label() == label for path in collection.get_paths()]


def bars(axis, label):
    """The bars with a label: the start and the end of each, to a thousandth."""
    edges = [path.vertices[:, 0] for path in outlines(axis, label)]
    return [(round(edge.min(), 3), round(edge.max(), 3)) for edge in edges]


def heights(axis, label):
    """The least and the greatest height of the bands with a label."""
    found = [height for path in outlines(axis, label) for height in path.vertices[:, 1]]
    return min(found), max(found)


def named(figure, label):
    return [axis for axis in figure.axes if axis.get_ylabel().startswith(label)]


def of_a_run(pictures):
    """A fault on phase a: what stands in the panels of both stations."""
    data, report = example("internal_fault")
    figure = pictures.over_time(data, report)
    yield "the title", figure.texts[0].get_text(), "a fault on phase a of the line from tick 100000 on"
    yield "the stations", [axis.get_title("left") for axis in named(figure, "current")], ["station 1", "station 2"]
    yield "the axis", (figure.axes[0].get_xlim(), figure.axes[-1].get_xlabel()), ((0, 200), "true time in ms")
    above = [child for child in figure.axes[0].child_axes]
    yield "the ticks above", [axis.get_xlabel() for axis in above], ["ticks (microseconds)"]
    yield "the fault", {drawn(axis, "fault")[0][0] for axis in figure.axes}, {100.0}
    for station, axis in enumerate(named(figure, "clock"), 1):
        told = [fields for fields in lines(report, "est") if fields[2] == str(station)]
        ahead = 4200 if station == 1 else -4200
        yield "the estimates of %d" % station, drawn(axis, "estimate"), [(int(fields[1]) / 1000, int(fields[4]) / 2 - ahead) for fields in told]
        words = "offset estimated as %d ticks, greatest error 0 ticks, 0.00 %% of its bound" % ahead
        yield "the errors of %d in words" % station, axis.texts[0].get_text(), words
        low, high = heights(axis, "bound")
        bound = max(int(fields[7]) for fields in told) / 2e6
        yield "the bound of %d" % station, (round(high - low, 3)), round(2 * bound, 3)
    for station, axis in enumerate(named(figure, "verdict"), 1):
        told = [fields for fields in lines(report, "set") if fields[2] == str(station)]
        trip = 107.75 if station == 1 else 107.875
        yield "the first trip of %d" % station, drawn(axis, "first trip"), [(trip, -0.5)]
        yield "trips of %d" % station, bars(axis, "T"), [(trip, 200.0)]
        yield "the time of the first trip of %d" % station, "%s ms" % trip in [text.get_text() for text in axis.texts], True
        starts = [next(int(fields[1]) for fields in told if fields[4][at] == "R") / 1000 for at in range(3)]
        yield "restraint of %d" % station, sorted(first for first, _ in bars(axis, "R")), starts
        yield "the rows of %d" % station, [label.get_text() for label in axis.get_yticklabels()], list(PHASES)
    rows = named(figure, "from")[0]
    yield "the alarms", [bars(rows, name) for name in ("Unlocked", "Yellow", "Unaligned")], [[(0, 3.125)], [(3.125, 6.125)], [(0, 8.75)]]
    yield "the names of the alarms", [label.get_text() for label in rows.get_yticklabels()], ["Unlocked", "Yellow", "Unaligned"]
    currents = drawn(named(figure, "current")[0], "phase a")
    yield "the currents", ({value for time, value in currents if time < 1}, max(value for _, value in currents)), ({1000.0}, 12000.0)


def of_errors(pictures):
    """The distance of estimate and truth is the error of the report, in each example, and the bound holds it."""
    for name in sorted(name.removesuffix(".csv") for name in os.listdir(os.path.join(EXAMPLES, "scenarios"))):
        data, report = example(name)
        apart, within = [], True
        for axis in named(pictures.over_time(data, report), "clock"):
            apart += [(time, round(abs(error), 6)) for time, error in drawn(axis, "estimate")]
            low, high = heights(axis, "bound")
            within = within and low <= 0 <= high and {height for _, height in drawn(axis, "true offset")} == {0}
        told = [(int(fields[1]) / 1000, round(int(fields[6]) / 2e6, 6)) for fields in lines(report, "est")]
        yield "the errors of %s" % name, (sorted(apart), within), (sorted(told), True)


def of_harm(pictures):
    """A channel that is lost, and a frame that is damaged."""
    data, report = example("lost_channel")
    figure = pictures.over_time(data, report)
    verdicts, rows = named(figure, "verdict")[1], named(figure, "from")[1]
    yield "nothing judged", bars(verdicts, "R")[:2], [(27.875, 63.875), (133.875, 200.0)]
    yield "lost frames", (bars(rows, "lost"), bars(named(figure, "from")[0], "lost")), ([(60, 110.001)], [])
    yield "silence", bars(rows, "Silent"), [(83, 114.875)]
    clock = named(figure, "clock")[1]
    yield "estimates with a pause", len([line for line in clock.lines if line.get_label() == "estimate"]), 2
    figure = pictures.over_time(*example("damaged_frame"))
    yield "a damaged frame", bars(named(figure, "from")[1], "a bit flipped"), [(100, 100.001)]
    figure = pictures.over_time(data, report, 50000, 120000)
    yield "a part of a run", figure.axes[0].get_xlim(), (50, 120)
    names = [[label.get_text() for label in axis.get_yticklabels()] for axis in named(figure, "from")]
    yield "alarms of a part of a run", names, [["Yellow"], ["Unlocked", "Silent", "lost"]]
    yield "verdicts of a part of a run", [bars(named(figure, "verdict")[1], letter) for letter in "WR"], [[(114.875, 120)] * 3, [(50, 63.875)] * 3]


def of_length(pictures):
    """A run of any length has no more points than a picture has columns, and keeps the extremes."""
    from linediff_tools.series import MOST_POINTS, thinned

    values = [(at * 7919) % 1000 for at in range(40_000)]
    places, lows, highs = thinned(range(40_000), values, values)
    yield "a long curve", (len(places) <= MOST_POINTS, min(lows), max(highs), places[0]), (True, 0, 999, 0)
    yield "a short curve", thinned([1, 2], [3, 4], [5, 6]), ([1, 2], [3, 4], [5, 6])
    head = b"set,stations,2\nset,channels,5\nset,end,%d\nwave,0,1,1000,0,1000,13,1000,7\n"
    ends = "total,1,0,0,0,0,0,0,0,0\ntotal,2,0,0,0,0,0,0,0,0\nforged,0\nend,%d\n"
    for end in (1, 20_000, 20_000_000):
        figure = pictures.over_time(head % end, ends % end)
        count = len(drawn(figure.axes[0], "phase a"))
        yield "the currents of %d ticks" % end, (0 < count <= MOST_POINTS, figure.axes[0].get_xlim()), (True, (0, end / 1000))


def of_the_plane(pictures):
    """The region of the settings, and the ways of the phases."""
    from linediff_tools.plane import within

    figure = pictures.in_alpha_plane(*example("internal_fault"))
    region = figure.axes[0].patches[0]
    yield "the region", (region.r, round(region.width, 6), round(region.theta1, 1), round(region.theta2, 1)), (6, round(6 - 1 / 6, 6), 82.5, 277.5)
    names = ["station 1, local; 2, remote", "station 2, local; 1, remote", "the same, near zero", "the same, near zero"]
    yield "the views", [axis.get_title("left") for axis in figure.axes], names
    yield "the limits", [axis.get_xlim() for axis in figure.axes], [(-9, 9), (-9, 9), (-1.5, 1.5), (-1.5, 1.5)]
    # At last the currents of phase a are 12000 at step 2 and 9000 at step 3, of which the terminals see samples at one time.
    ends = [complex(*drawn(axis, "phase a")[-1]) for axis in figure.axes[:2]]
    yield "the sizes of a fault's ratio", [round(abs(ratio), 2) for ratio in ends], [0.75, 1.33]
    yield "one ratio and its inverse", round(abs(ends[0] * ends[1] - 1), 1), 0.0
    yield "sets that trip", [len(drawn(figure.axes[0], "%s T" % phase)) > 5 for phase in PHASES], [True, False, False]
    yield "no doubts", [text.get_text() for axis in figure.axes for text in axis.texts], [""] * 2
    figure = pictures.in_alpha_plane(*example("load"))
    points = {round(abs(complex(*point)), 2) for phase in PHASES for point in drawn(figure.axes[0], "phase " + phase)}
    yield "load lies at the ratio of one", points, {1.0}
    figure = pictures.in_alpha_plane(*example("trip_on_load"))
    yield "load that looks like a fault", [len(drawn(figure.axes[0], "%s T" % phase)) > 0 for phase in PHASES], [True] * 3
    data, report = example("load")
    figure = pictures.in_alpha_plane(data, report.replace(",RRR", ",RRT"))
    yield "verdicts that don't fit", [text.get_text() for text in figure.axes[0].texts], ["173 sets were judged otherwise than by these currents"]
    figure = pictures.in_alpha_plane(*example("three_terminals"))
    words = ["phase %s: 173 sets without a local current, an infinite ratio" % phase for phase in PHASES]
    yield "a station that feeds nothing", figure.axes[2].texts[0].get_text().splitlines(), words
    yield "what is far out", [within(ratio, 2) for ratio in (1 - 1j, 8 + 4j, -2j, -20 + 1j)], [1 - 1j, 2 + 1j, -2j, -2 + 0.1j]


def of_judge(pictures):
    rows = bytes_of("examples", "gap.csv")
    verdicts = run(["judge", "4"], rows)[0].decode()
    figure = pictures.over_time(rows, verdicts)
    names = [axis.get_title("left") for axis in named(figure, "current")]
    yield "sets", (figure.axes[-1].get_xlabel(), names), ("number of the set", ["terminal 1", "terminal 2"])
    told = [row.split(",") for row in rows.decode().splitlines()]
    yield "values of a terminal", drawn(figure.axes[1], "phase c"), [(float(row[0]), float(row[6])) for row in told]
    yield "trips of phase b", bars(figure.axes[2], "T"), [(23, 25), (48, int(told[-1][0]) + 1)]
    yield "a set that isn't there", 25 in [int(row[0]) for row in told], False
    figure = pictures.in_alpha_plane(rows, verdicts)
    yield "the plane of sets", (len(drawn(figure.axes[0], "b T")) > 0, len(drawn(figure.axes[0], "a T"))), (True, 0)


def as_a_command():
    """What is written, and what is refused."""
    data, report = example("internal_fault")
    with tempfile.TemporaryDirectory() as folder:
        paths = [os.path.join(folder, name) for name in ("scenario", "report", "run.svg", "plane.png", "run.pdf")]
        scenario, output, svg, png, pdf = paths
        for path, content in ((scenario, data), (output, report.encode())):
            with open(path, "wb") as file:
                file.write(content)

        def picture(*words, environment=None):
            done = subprocess.run([PICTURE, *words], stdout=subprocess.PIPE, stderr=subprocess.PIPE, env=environment)
            return done.stderr.decode(), done.returncode

        yield "an SVG", picture("time", scenario, output, svg), ("", 0)
        first = read(svg)
        picture("time", scenario, output, svg)
        yield "the same SVG", (first[:5], b"a fault on phase a" in first, first == read(svg)), (b"<?xml", True, True)
        yield "a PNG", (picture("plane", scenario, output, png), read(png)[:4]), (("", 0), b"\x89PNG")
        told, status = picture("time", scenario, output, pdf)
        yield "another form", ("ends neither in .svg nor in .png" in told, status, os.path.exists(pdf)), (True, 2, False)
        other = os.path.join(EXAMPLES, "scenarios", "three_terminals.csv")
        yield "another scenario", picture("time", other, output, svg), ("picture: the report is none of this scenario: stations or end differ\n", 3)
        yield "no report", picture("time", scenario, scenario, svg)[1], 3
        told = "picture: from tick 5 to tick 5 there is nothing of the run, which ends at tick 200000\n"
        yield "no part of the run", picture("time", scenario, output, svg, "--from", "5", "--to", "5"), (told, 3)
        os.mkdir(os.path.join(folder, "matplotlib"))
        with open(os.path.join(folder, "matplotlib", "__init__.py"), "w") as file:
            file.write("raise ModuleNotFoundError(\"No module named 'matplotlib'\", name='matplotlib')\n")
        told = picture("time", scenario, output, svg, environment=dict(os.environ, PYTHONPATH=folder))
        yield "a missing package", told, ("picture: needs the package python3-matplotlib, which tools/install installs\n", 125)


def of_all():
    with tempfile.TemporaryDirectory() as folder:
        subprocess.run([PICTURE, "all", folder], check=True)
        names = [name.removesuffix(".csv") for name in os.listdir(os.path.join(EXAMPLES, "scenarios"))] + ["judge_step", "judge_load", "judge_gap"]
        yield "all examples", sorted(os.listdir(folder)), sorted("%s_%s.svg" % (name, view) for name in names for view in ("time", "plane"))


def read(path):
    with open(path, "rb") as file:
        return file.read()


def cases():
    from linediff_tools import pictures

    yield from of_a_run(pictures)
    yield from of_errors(pictures)
    yield from of_harm(pictures)
    yield from of_length(pictures)
    yield from of_the_plane(pictures)
    yield from of_judge(pictures)
    yield from as_a_command()
    yield from of_all()
