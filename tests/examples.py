"""Runs each example, and looks up what the documents quote of its output: every line, in its order."""
import os
import re

from answers import bytes_of, run
from documents import ROOT, text_of

LINE = re.compile(r"(?:est|set|alarm|total|forged|end|frame|bad|message|refused|lock|lost),[\w,.-]+")


def output_of(words, path):
    """The lines that a command writes of an example, and how it ends beside them."""
    output, said, status = run(words, bytes_of(path))
    return output.decode().splitlines(), said, status


def missing(quoted, lines):
    """The quoted lines that don't follow each other among these."""
    rest = iter(lines)
    return [line for line in quoted if line not in rest]


def words_for(path):
    """The command that an example is run with: a scenario with bench, another as examples/README.md has it."""
    if path.startswith("examples/scenarios/"):
        return ["bench"]
    return re.search(r"`\./linediff ([^`<]*) < %s`" % re.escape(path), text_of("examples/README.md"))[1].split()


def quoted():
    """What each document quotes of each example: in examples/README.md the row of the example, else what stands behind its command."""
    inputs, scenarios = text_of("examples/README.md").split("\n## Scenarios\n")
    for folder, text in (("examples/", inputs), ("examples/scenarios/", scenarios)):
        for name, row in re.findall(r"(?m)^\| `([\w.]+)` \| (.*)", text):
            yield "examples/README.md", words_for(folder + name), folder + name, re.findall("`(%s)`" % LINE.pattern, row)
    for document in ("README.md", "docs/FORMATS.md", "docs/WHAT_YOU_MAY_SEE.md"):
        parts = re.split(r"\./linediff ([\w ]+) < (examples/[\w/.]+)", text_of(document))
        for words, path, behind in zip(parts[1::3], parts[2::3], (part.split("| ./linediff ")[0] for part in parts[3::3])):
            lines = [line for block in re.findall(r"(?ms)^```\n(.*?)^```", behind) for line in block.splitlines()]
            lines += re.findall(r"(?m)^\| `(.*?)` \|", behind)
            yield document, words.split(), path, [line for line in lines if LINE.fullmatch(line)]


def sets(lines, station):
    """The letters of each set of a station, by its number."""
    told = [line.split(",") for line in lines if line.startswith("set,")]
    return {int(number): letters for _, _, at, number, letters in told if int(at) == station}


def told_in_words(outputs):
    """What examples/README.md says of an output without a line of it."""
    lines = outputs["examples/scenarios/load.csv"][0]
    yield "load restrains from set 24 on", {letters for number, letters in sets(lines, 1).items() if number >= 24}, {"RRR"}
    lines = outputs["examples/scenarios/external_fault.csv"][0]
    yield "an external fault has W and R alone", {letter for at in (1, 2) for letters in sets(lines, at).values() for letter in letters}, {"W", "R"}
    letters = sets(outputs["examples/scenarios/damaged_frame.csv"][0], 2)
    yield "a damaged frame costs set 104", (104 in letters, [n for n in letters if n > 100 and letters[n] == "WWW"]), (False, list(range(105, 124)))
    lines = outputs["examples/scenarios/trip_on_load.csv"][0]
    yield "load trips from tick 39750 on", next(line for line in lines if line.endswith(",TTT")).split(",")[1], "39750"
    trips = [any("T" in letters for letters in sets(outputs["examples/scenarios/three_terminals.csv"][0], at).values()) for at in (1, 2, 3)]
    yield "all three terminals trip", trips, [True] * 3


def cases():
    outputs = {}
    for folder in ("examples", "examples/scenarios"):
        for name in sorted(name for name in os.listdir(os.path.join(ROOT, folder)) if name.endswith((".csv", ".bin"))):
            path = folder + "/" + name
            outputs[path] = output_of(words_for(path), path)
            yield "%s runs" % path, (bool(outputs[path][0]), *outputs[path][1:]), (True, b"", 0)
    yield from told_in_words(outputs)
    counts = {}
    for document, words, path, lines in quoted():
        counts[document] = counts.get(document, 0) + len(lines)
        yield "%s names %s as it is run" % (document, path), words, words_for(path)
        yield "%s quotes %s" % (document, path), missing(lines, outputs[path][0]), []
    yield "lines are quoted", [counts["README.md"], counts["docs/FORMATS.md"], counts["examples/README.md"] > 20, counts["docs/WHAT_YOU_MAY_SEE.md"] > 20], [8, 1, True, True]
