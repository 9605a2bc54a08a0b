"""Runs the wrong rows that docs/FORMATS.md gives as examples: each breaks the rule beside which it stands."""
import re

from answers import run
from documents import rows, text_of

SCENARIO = re.search(r"(?s)## Scenario\n.*?```\n(.*?)```", text_of("docs/FORMATS.md"))[1].splitlines()


def told(words, lines):
    return run(words, "".join(line + "\n" for line in lines).encode())


def with_setting(row):
    """The scenario with a row of `set` in the place of the one of its key, or behind the other settings."""
    kept = [line for line in SCENARIO if not line.startswith(row.rpartition(",")[0] + ",")]
    at = max(place for place, line in enumerate(kept) if line.startswith("set,")) + 1
    return kept[:at] + [row] + kept[at:]


def bad(row, rule):
    return b"bad,%d,%d\n" % (row, int(rule)), b"bad input\n", 3


def cases():
    yield "the scenario runs", told(["bench"], SCENARIO)[1:], (b"", 0)
    for rule, name, _, example, _ in rows("docs/FORMATS.md", "Rules of a scenario"):
        row, _, where = example.strip("`").partition("`")
        if "settings" in where:
            yield "%s breaks %s" % (row, name), told(["bench"], with_setting(row)), bad(0, rule)
        else:
            before = SCENARIO + [row] * (4 * ("four others" in where))
            yield "%s breaks %s" % (row, name), told(["bench"], before + [row]), bad(len(before) + 1, rule)
    for settings, where, example in rows("docs/FORMATS.md", "Row 0"):
        row = re.search("`(set,.*?)`", example)[1]
        lines = [line for line in SCENARIO if line != row] if "without" in example else with_setting(row)
        yield "%s is told as row 0" % example, told(["bench"], lines), bad(0, 9)
    for rule, name, _, example, _ in rows("docs/FORMATS.md", "Judge"):
        row = example.strip("`").partition("`")[0]
        yield "%s breaks %s" % (row, name), told(["judge", "2"], ["2,0,0,0,0,0,0", row]), bad(2, rule)
