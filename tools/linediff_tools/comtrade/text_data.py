"""Data as text: a line a sample."""
import re

import numpy

from .configuration import REAL
from .record import Malformed
from .samples import NO_STAMP, Samples

STAMP = re.compile(r"[0-9]{1,13}")
LINE_END = "\r\n"
END_OF_FILE = b"\x1a"
# A missing value is written so by its revision. Either is read in both.
MISSING = {1999: "99999", 2013: ""}


def read_text(path, data, configuration):
    """The samples of lines of text. Raises Malformed."""
    lines = [line.decode("latin-1") for line in data.rstrip(END_OF_FILE).splitlines()]
    names = ["n", "timestamp"] + ["A%d %s" % (at, channel.name) for at, channel in enumerate(configuration.analogs, 1)]
    names += ["D%d %s" % (at, channel.name) for at, channel in enumerate(configuration.statuses, 1)]
    first_status = 2 + len(configuration.analogs)
    rows = [_row(path, number, line, names, first_status) for number, line in enumerate(lines, 1)]
    numbers, stamps = (numpy.array([row[at] for row in rows], dtype=numpy.int64) for at in (0, 1))
    analogs = numpy.array([row[2] for row in rows], dtype=float).reshape(len(rows), len(configuration.analogs))
    statuses = numpy.array([row[3] for row in rows], dtype=numpy.uint8).reshape(len(rows), len(configuration.statuses))
    return Samples(numbers, stamps, analogs, statuses)


def _row(path, number, line, names, first_status):
    """The number, the stamp, the values and the states of a line."""
    fields = [field.strip() for field in line.split(",")]
    if len(fields) != len(names):
        name = names[min(len(fields), len(names) - 1)]
        raise Malformed(path, number, name, "the line has %d fields instead of %d" % (len(fields), len(names)))
    for at, text in enumerate(fields):
        if not _is_right(text, at, first_status):
            raise Malformed(path, number, names[at], "%r is no %s" % (text, _kind(at, first_status)))
    stamp = int(fields[1]) if fields[1] else NO_STAMP
    values = [float("nan") if text in MISSING.values() else float(text) for text in fields[2:first_status]]
    return int(fields[0]), stamp, values, [int(text) for text in fields[first_status:]]


def _is_right(text, at, first_status):
    if at >= first_status:
        return text in ("0", "1")
    if at >= 2:
        return text == "" or bool(REAL.fullmatch(text))
    return bool(STAMP.fullmatch(text)) or (at == 1 and text == "")


def _kind(at, first_status):
    return "state" if at >= first_status else "value" if at >= 2 else "whole number"


def text_of(samples, revision):
    """The bytes of samples as text. Values are whole numbers, and no stamp is missing."""
    lines = []
    for number, stamp, values, states in zip(samples.numbers, samples.stamps, samples.analogs, samples.statuses):
        values = [MISSING[revision] if value != value else int(value) for value in values]
        lines.append(",".join(map(str, (number, stamp, *values, *states))))
    return "".join(line + LINE_END for line in lines).encode() + END_OF_FILE
