"""The text and the JSON of a summary. `faults` are those of the scenario, and None where there is none."""
from .faults import fault_before
from .records import PHASES
from .report import LETTERS
from .summarizing import ticks_after_fault
from .ticks import milliseconds, span

# What the counts of a total are of, one and several.
COUNTED = {
    "accepted": ("message accepted", "messages accepted"),
    "sets": ("set judged", "sets judged"),
    "trips": ("set with a trip", "sets with a trip"),
    "refused": ("place refused", "places refused"),
    "strange": ("message with another address", "messages with another address"),
    "repeats": ("message repeated", "messages repeated"),
    "slow": ("slow exchange", "slow exchanges"),
    "bad": ("bad frame", "bad frames"),
}
MOST_GAPS = 5


def text_of(summary, stations, faults):
    """What people read of some stations of a summary."""
    lines = ["A run of %s. %s" % (span(summary.end), _headline(stations))]
    if summary.forged:
        lines.append("FORGED: %s accepted otherwise than sent." % _counted(summary.forged, ("message was", "messages were")))
    for number, station in stations.items():
        lines += ["", "station %d" % number, *_station_lines(station, summary.end, faults)]
    return "".join(line + "\n" for line in lines)


def _headline(stations):
    tripped = [str(number) for number, station in stations.items() if station.trips]
    if not tripped:
        return "No station trips."
    return "Station %s trips." % tripped[0] if len(tripped) == 1 else "Stations %s and %s trip." % (", ".join(tripped[:-1]), tripped[-1])


def _counted(count, names):
    return "%s %s" % ("no" if count == 0 else count, names[count != 1])


def _station_lines(station, end, faults):
    for place, phase in enumerate(PHASES):
        yield _line("phase %s" % phase, _trip_words(station, place, end, faults))
        counts = station.verdicts(place)
        if counts:
            yield _line("", ", ".join("%d %s" % (counts[name], name) for name in LETTERS.values() if counts[name]))
    yield _line("not judged", "%s before the first set, %s in gaps, %s behind the last set" % tuple(map(span, station.unjudged(end))))
    for gap in station.gaps[:MOST_GAPS]:
        skipped = _counted(gap.skipped, ("number", "numbers"))
        yield _line("", "gap of %s from %s on: %s skipped" % (span(gap.ticks), milliseconds(gap.before.tick), skipped))
    if len(station.gaps) > MOST_GAPS:
        yield _line("", "and %s, %d numbers skipped in all" % (_counted(len(station.gaps) - MOST_GAPS, ("gap more", "gaps more")), station.skipped))
    for number, peer in sorted(station.peers.items()):
        yield _line("peer %d" % number, _estimate_words(peer))
        yield _line("", _alarm_words(peer, end))
    for row in _total_rows(station.total):
        yield row


def _line(name, words):
    return ("  %-12s%s" % (name, words)).rstrip()


def _total_rows(total):
    words = [_counted(getattr(total, count), names) for count, names in COUNTED.items()]
    yield _line("in all", ", ".join(words[:3]))
    yield _line("", ", ".join(words[3:]))


def _trip_words(station, place, end, faults):
    trip = station.trips.get(place)
    if trip is None:
        fault = fault_before(faults or (), place, end)
        return "no trip, with a fault from %s on" % milliseconds(fault.first) if fault else "no trip"
    words = "first trip at %s with set %d" % (milliseconds(trip.tick), trip.number)
    if faults is None:
        return words
    after = ticks_after_fault(faults, place, trip)
    return words + (", %s after the fault" % span(after) if after is not None else ", WITHOUT A FAULT in the scenario")


def _estimate_words(peer):
    words = _counted(peer.estimates, ("estimate", "estimates"))
    if peer.worst:
        words += ", the greatest error %.6g ticks at %s" % (peer.greatest_error, milliseconds(peer.worst.tick))
        words += ", %.2f %% of its bound of %.6g ticks" % (100 * peer.share, peer.its_bound) if peer.share is not None else ", without a bound"
    if peer.unbounded:
        words += "; %d without a bound" % peer.unbounded
    if peer.beyond:
        words += "; %d BEYOND THE BOUND" % peer.beyond
    return words


def _alarm_words(peer, end):
    on = ["%s %s%s" % (name, span(alarm.ticks_by(end)), _times(alarm)) for name, alarm in peer.alarms.items() if alarm.times]
    return "alarms on: %s" % ", ".join(on) if on else "no alarm on"


def _times(alarm):
    words = [] if alarm.times == 1 else ["%d times" % alarm.times]
    words += ["still on at the end"] if alarm.since is not None else []
    return " (%s)" % ", ".join(words) if words else ""


def data_of(summary, stations, faults):
    """Some stations of a summary as JSON has them, with all times in ticks."""
    data = {"end": summary.end, "forged": summary.forged}
    if faults is not None:
        data["faults"] = [{"phase": PHASES[fault.phase], "first": fault.first, "end": fault.end} for fault in faults]
    data["stations"] = {str(number): _station_data(station, summary.end, faults) for number, station in stations.items()}
    return data


def _station_data(station, end, faults):
    before, within, behind = station.unjudged(end)
    return {
        "first_trips": {phase: _trip_data(station.trips.get(place), place, faults) for place, phase in enumerate(PHASES)},
        "verdicts": {phase: {name: station.verdicts(place)[name] for name in LETTERS.values()} for place, phase in enumerate(PHASES)},
        "not_judged": {"before_first_set": before, "in_gaps": within, "behind_last_set": behind},
        "skipped": station.skipped,
        "gaps": [{"first": gap.before.tick, "last": gap.behind.tick, "skipped": gap.skipped} for gap in station.gaps],
        "peers": {str(number): _peer_data(peer, end) for number, peer in sorted(station.peers.items())},
        "totals": {count: getattr(station.total, count) for count in COUNTED},
    }


def _trip_data(trip, place, faults):
    if trip is None:
        return None
    return {"tick": trip.tick, "set": trip.number, "after_fault": ticks_after_fault(faults or (), place, trip)}


def _peer_data(peer, end):
    return {
        "estimates": peer.estimates,
        "without_bound": peer.unbounded,
        "beyond_bound": peer.beyond,
        "greatest_error": peer.greatest_error,
        "its_bound": peer.its_bound,
        "share_of_bound": peer.share,
        "alarms": {
            name: {"times": alarm.times, "ticks": alarm.ticks_by(end), "on_at_end": alarm.since is not None}
            for name, alarm in peer.alarms.items()
        },
    }
