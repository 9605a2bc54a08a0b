"""Runs a part of a sweep: some scenarios one after the other, each told in a row."""
import csv
import subprocess

from ..report import read_report
from ..rows import NotReadable
from ..scenario import read_scenario
from .outcome import Outcome, outcome_of
from .rows import row_of


def run_part(program, source, numbers, output):
    """Writes the row of each scenario. Returns whether all ended as they must; it stops behind the first that didn't."""
    writer = csv.writer(output, lineterminator="\n")
    for number in numbers:
        outcome, drawn = run_scenario(program, source, number)
        writer.writerow(row_of(outcome, drawn, source.names))
        if outcome.violation:
            return False
    return True


def run_scenario(program, source, number):
    """The outcome of a number, and what was drawn for it."""
    try:
        data, drawn = source.scenario(program, number)
    except NotReadable as told:
        return Outcome(number, str(told)), {}
    done = subprocess.run([program, "bench"], input=data, capture_output=True)
    if done.returncode != 0:
        return Outcome(number, "status %d: %s" % (done.returncode, _said(done))), drawn
    try:
        scenario, report = read_scenario(data), read_report(done.stdout.decode("ascii", "replace"))
    except NotReadable as told:
        return Outcome(number, str(told)), drawn
    outcome = outcome_of(number, scenario, report)
    outcome.violation = outcome.violation or source.difference(scenario, report)
    return outcome, drawn


def _said(done):
    return " ".join((done.stdout[:80] + b" " + done.stderr[:80]).decode("ascii", "replace").split())
