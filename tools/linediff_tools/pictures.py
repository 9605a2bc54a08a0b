"""The pictures of an input and of what the program wrote of it."""
from . import plane, set_timeline, timeline
from .judged import read_sets, read_verdicts
from .report import read_report
from .rows import NotReadable
from .scenario import hold_to, read_scenario
from .settings import JUDGE, complete


def over_time(data, text, first=0, last=None):
    """The picture over time of a scenario and its report, or over the sets of rows and their verdicts."""
    if _is_of_judge(text):
        return set_timeline.draw(*_sets_and_verdicts(data, text))
    return timeline.draw(*_scenario_and_report(data, text), first, last)


def in_alpha_plane(data, text):
    """The alpha plane of a scenario and its report, or of rows and their verdicts."""
    if _is_of_judge(text):
        settings = complete(JUDGE)
        return plane.draw([plane.view_of_sets(*_sets_and_verdicts(data, text), settings)], settings, "sets of judge")
    scenario, report = _scenario_and_report(data, text)
    return plane.draw(plane.views_of_run(scenario, report), scenario.settings, scenario.title)


def _is_of_judge(text):
    return text[:1].isdecimal()


def _scenario_and_report(data, text):
    report, scenario = read_report(text), read_scenario(data)
    hold_to(scenario, [total.station for total in report.totals], report.end)
    return scenario, report


def _sets_and_verdicts(data, text):
    verdicts, sets = read_verdicts(text), read_sets(data)
    if not sets or [each.number for each in sets] != [each.number for each in verdicts]:
        raise NotReadable("the verdicts are none of these rows: the numbers differ")
    return sets, verdicts
