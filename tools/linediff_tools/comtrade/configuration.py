"""Reads a configuration `.cfg`, line by line."""
import datetime
import re
from decimal import Decimal

from .record import ENCODINGS, REVISIONS, AnalogChannel, Clock, Configuration, Malformed, Rate, StatusChannel

REAL = re.compile(r"[+-]?([0-9]+\.?[0-9]*|\.[0-9]+)([eE][+-]?[0-9]{1,3})?")
WHOLE = re.compile(r"[0-9]{1,10}")
DATE = re.compile(r"([0-9]{1,2})/([0-9]{1,2})/([0-9]{4})")
TIME = re.compile(r"([0-9]{1,2}):([0-9]{2}):([0-9]{2})(?:\.([0-9]{1,9}))?")
ZONE = re.compile(r"([+-]?)([0-9]{1,2})(?:h([0-5][0-9]))?")
EPOCH = datetime.datetime(1970, 1, 1)

ANALOG_FIELDS = ("An", "ch_id", "ph", "ccbm", "uu", "a", "b", "skew", "min", "max", "primary", "secondary", "PS")
STATUS_FIELDS = ("Dn", "ch_id", "ph", "ccbm", "y")


class Lines:
    """The lines of a configuration in turn, each cut into its fields."""

    def __init__(self, path, text):
        self.path = path
        self.lines = re.split("\r\n|\n|\r", text.rstrip("\r\n"))
        self.number = 0

    def refuse(self, field, why):
        raise Malformed(self.path, self.number, field, why)

    def fields(self, *names):
        """The fields of the next line by their names."""
        self.number += 1
        if self.number > len(self.lines):
            self.refuse(names[0], "the file ends before it")
        fields = [field.strip() for field in self.lines[self.number - 1].split(",")]
        if len(fields) < len(names):
            self.refuse(names[len(fields)], "missing: the line has %d of %d fields" % (len(fields), len(names)))
        if len(fields) > len(names):
            self.refuse(names[-1], "the line has %d fields behind it" % (len(fields) - len(names)))
        return dict(zip(names, fields))

    def real(self, field, text):
        if not REAL.fullmatch(text):
            self.refuse(field, "%r is no number" % text)
        return Decimal(text)

    def whole(self, field, text):
        if not WHOLE.fullmatch(text):
            self.refuse(field, "%r is no whole number" % text)
        return int(text)

    def one_of(self, field, text, values):
        if text not in values:
            self.refuse(field, "%r is none of %s" % (text, ", ".join(values)))
        return text

    def end(self):
        for text in self.lines[self.number:]:
            self.number += 1
            if text.strip():
                self.refuse("end", "a line behind the last one of the configuration")


def read_configuration(path):
    """The configuration of a file. Raises Malformed."""
    with open(path, "rb") as file:
        data = file.read()
    try:
        text = data.decode("utf-8-sig")
    except UnicodeDecodeError:
        text = data.decode("latin-1")
    return _configuration(Lines(path, text))


def _configuration(lines):
    station, device, revision = _origin(lines)
    analogs, statuses = _channels(lines)
    frequency = lines.real("lf", lines.fields("lf")["lf"])
    if frequency <= 0:
        lines.refuse("lf", "%s is no line frequency" % frequency)
    rates = _rates(lines)
    first, fine = _moment(lines, "start", revision)
    trigger, trigger_fine = _moment(lines, "trigger", revision)
    encoding = _encoding(lines, revision)
    multiplier = lines.real("timemult", lines.fields("timemult")["timemult"])
    if multiplier <= 0:
        lines.refuse("timemult", "%s can't multiply a time stamp" % multiplier)
    clock = _clock(lines) if revision == 2013 else Clock()
    lines.end()
    return Configuration(
        station, device, revision, analogs, statuses, frequency, rates, first, trigger, encoding, multiplier, clock, fine or trigger_fine
    )


def _origin(lines):
    names = ("station_name", "rec_dev_id", "rev_year")
    if lines.lines and lines.lines[0].count(",") == 1:
        lines.number = 1
        lines.refuse("rev_year", "missing: a record of 1991 isn't read, only those of 1999 and 2013")
    station, device, revision = lines.fields(*names).values()
    lines.one_of("rev_year", revision, [str(year) for year in REVISIONS])
    return station, device, int(revision)


def _channels(lines):
    total, *counts = lines.fields("TT", "##A", "##D").items()
    numbers = []
    for (field, text), letter in zip(counts, "AD"):
        if text[-1:].upper() != letter:
            lines.refuse(field, "%r doesn't end with %s" % (text, letter))
        numbers.append(lines.whole(field, text[:-1]))
    if lines.whole("TT", total[1]) != sum(numbers):
        lines.refuse("TT", "%s isn't %d analog and %d status channels" % (total[1], *numbers))
    analogs = tuple(_analog(lines, place) for place in range(1, numbers[0] + 1))
    return analogs, tuple(_status(lines, place) for place in range(1, numbers[1] + 1))


def _analog(lines, place):
    given = lines.fields(*ANALOG_FIELDS)
    _placed(lines, "An", given, place)
    numbers = {name: lines.real(name, given[name]) for name in ANALOG_FIELDS[5:12]}
    if numbers["min"] > numbers["max"]:
        lines.refuse("min", "%s is above max %s" % (given["min"], given["max"]))
    is_primary = lines.one_of("PS", given["PS"].upper(), "PS") == "P"
    for name in ("primary", "secondary"):
        if not is_primary and numbers[name] <= 0:
            lines.refuse(name, "%s can't be part of a transformer's ratio" % given[name])
    return AnalogChannel(given["ch_id"], given["ph"], given["ccbm"], given["uu"], *numbers.values(), is_primary)


def _status(lines, place):
    given = lines.fields(*STATUS_FIELDS)
    _placed(lines, "Dn", given, place)
    return StatusChannel(given["ch_id"], given["ph"], given["ccbm"], int(lines.one_of("y", given["y"], "01")))


def _placed(lines, field, given, place):
    if lines.whole(field, given[field]) != place:
        lines.refuse(field, "channel %s stands in the place of channel %d" % (given[field], place))


def _rates(lines):
    count = lines.whole("nrates", lines.fields("nrates")["nrates"])
    rates = []
    for _ in range(max(count, 1)):
        given = lines.fields("samp", "endsamp")
        hertz, last = lines.real("samp", given["samp"]), lines.whole("endsamp", given["endsamp"])
        if (hertz != 0) if count == 0 else (hertz <= 0):
            lines.refuse("samp", "%s with nrates %d" % (given["samp"], count))
        if last <= (rates[-1].last if rates else 0):
            lines.refuse("endsamp", "%d isn't above the last sample before it" % last)
        rates.append(Rate(hertz, last))
    return tuple(rates)


def _moment(lines, what, revision):
    """The nanoseconds of a date and time, and whether the time is written finer than in microseconds."""
    date_field, time_field = "%s date" % what, "%s time" % what
    date, time = lines.fields(date_field, time_field).values()
    if not DATE.fullmatch(date):
        lines.refuse(date_field, "%r isn't dd/mm/yyyy" % date)
    if not TIME.fullmatch(time):
        lines.refuse(time_field, "%r isn't hh:mm:ss.ssssss" % time)
    day, month, year = (int(part) for part in DATE.fullmatch(date).groups())
    *clock, fraction = TIME.fullmatch(time).groups(default="")
    if revision == 1999 and len(fraction) > 6:
        lines.refuse(time_field, "%r is finer than a microsecond, which revision 1999 doesn't have" % time)
    try:
        days = datetime.datetime(year, month, day) - EPOCH
    except ValueError as error:
        lines.refuse(date_field, "%r: %s" % (date, error))
    try:
        datetime.time(*map(int, clock))
    except ValueError as error:
        lines.refuse(time_field, "%r: %s" % (time, error))
    hours, minutes, seconds = map(int, clock)
    whole = days.days * 86_400 + hours * 3600 + minutes * 60 + seconds
    return whole * 1_000_000_000 + int(fraction.ljust(9, "0")), len(fraction) > 6


def _encoding(lines, revision):
    known = ENCODINGS if revision == 2013 else ENCODINGS[:2]
    return lines.one_of("ft", lines.fields("ft")["ft"].upper(), known)


def _clock(lines):
    given = lines.fields("time_code", "local_code")
    ahead = _minutes(lines, "time_code", given["time_code"])
    local = given["local_code"]
    local_ahead = None if local.lower() == "x" else _minutes(lines, "local_code", local)
    given = lines.fields("tmq_code", "leapsec")
    quality = lines.one_of("tmq_code", given["tmq_code"].upper(), "0123456789ABCDEF")
    return Clock(ahead, local_ahead, int(quality, 16), int(lines.one_of("leapsec", given["leapsec"], "0123")))


def _minutes(lines, field, text):
    found = ZONE.fullmatch(text)
    if not found:
        lines.refuse(field, "%r isn't hours as in -5h30" % text)
    sign, hours, minutes = found.groups(default="0")
    return (int(hours) * 60 + int(minutes)) * (-1 if sign == "-" else 1)
