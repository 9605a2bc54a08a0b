"""The summary of a sweep: what its rows come to, in lines of text."""
from ..report import ALARMS
from ..ticks import span

# So many numbers are told of those that are worth a look.
MOST_TOLD = 10


def least_above(ordered, percent):
    """The least of some ordered values at or below which so many per cent of them lie."""
    return ordered[-(-len(ordered) * percent // 100) - 1]


def summary_lines(sweep, found):
    """The lines of a sweep's summary."""
    outcomes = [found[number][0] for number in sorted(found)]
    source = "gen, %d ticks each" % sweep.ticks if sweep.template is None else "a template, seed %d" % sweep.seed
    yield "%d of %d scenarios, numbers %d to %d, from %s" % (len(outcomes), sweep.count, sweep.first, sweep.numbers[-1], source)
    if not outcomes:
        return

    def total(name):
        return sum(getattr(outcome, name) for outcome in outcomes)

    yield "sets: %d judged, %d with a trip" % (total("sets"), total("trips"))
    yield "faults: %d; at their terminals %d tripped, %d missed, %d too short to be due" % tuple(map(total, ("faults", "tripped", "missed", "short")))
    yield "false trips: %d" % total("false")
    yield "from fault to trip: %s" % _times(sorted(time for outcome in outcomes for time in outcome.times))
    worst = max(outcomes, key=lambda outcome: outcome.share)
    yield "error in bound: at most %.2f %% (number %d)" % (100 * worst.share, worst.number)
    yield "alarms: %s" % ", ".join("%s %d" % (name, sum(outcome.alarms[name] for outcome in outcomes)) for name in ALARMS)
    yield "forged messages: %d" % total("forged")
    for name, told in ("missed", "missed trips"), ("false", "false trips"):
        numbers = [outcome.number for outcome in outcomes if getattr(outcome, name)]
        if numbers:
            more = "" if len(numbers) <= MOST_TOLD else " and %d more" % (len(numbers) - MOST_TOLD)
            yield "%s in the numbers %s%s" % (told, ", ".join(map(str, numbers[:MOST_TOLD])), more)


def _times(ordered):
    if not ordered:
        return "nothing tripped"
    told = ("least", ordered[0]), ("median", least_above(ordered, 50)), ("99 %", least_above(ordered, 99)), ("greatest", ordered[-1])
    return ", ".join("%s %s" % (name, span(time)) for name, time in told)
