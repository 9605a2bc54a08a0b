"""Data as bytes, the lowest byte of a number first."""
import numpy

from .record import Malformed
from .samples import NO_STAMP, Samples

# How a value is written, and how one that is missing. Of FLOAT32 a value that isn't finite is missing.
VALUES = {"BINARY": ("<i2", -0x8000), "BINARY32": ("<i4", -0x80000000), "FLOAT32": ("<f4", None)}
MISSING_STAMP = 0xFFFFFFFF
STATES_A_WORD = 16


def layout(encoding, analogs, statuses):
    """A sample's bytes: number, time stamp, values, and words of states, of which the first is the lowest bit."""
    words = -(-statuses // STATES_A_WORD)
    return numpy.dtype([("number", "<u4"), ("stamp", "<u4"), ("values", VALUES[encoding][0], (analogs,)), ("words", "<u2", (words,))])


def read_binary(path, data, configuration):
    """The samples of bytes. Raises Malformed."""
    statuses = len(configuration.statuses)
    sample = layout(configuration.encoding, len(configuration.analogs), statuses)
    whole, rest = divmod(len(data), sample.itemsize)
    if rest:
        raise Malformed(path, "sample %d" % (whole + 1), "n", "the file ends within it: %d of %d bytes" % (rest, sample.itemsize))
    rows, missing = numpy.frombuffer(data, dtype=sample), VALUES[configuration.encoding][1]
    values = rows["values"].astype(float)
    values[~numpy.isfinite(values) if missing is None else rows["values"] == missing] = numpy.nan
    stamps = rows["stamp"].astype(numpy.int64)
    stamps[stamps == MISSING_STAMP] = NO_STAMP
    states = numpy.unpackbits(rows["words"].copy().view(numpy.uint8), axis=1, bitorder="little")
    return Samples(rows["number"].astype(numpy.int64), stamps, values, states[:, :statuses])


def bytes_of(samples):
    """The bytes of samples in `BINARY`. Values are whole numbers of 16 bits, and no stamp is missing."""
    count, statuses = samples.statuses.shape
    rows = numpy.zeros(count, dtype=layout("BINARY", samples.analogs.shape[1], statuses))
    rows["number"], rows["stamp"] = samples.numbers, samples.stamps
    rows["values"] = numpy.where(numpy.isnan(samples.analogs), VALUES["BINARY"][1], samples.analogs)
    padded = numpy.zeros((count, STATES_A_WORD * rows["words"].shape[1]), dtype=numpy.uint8)
    padded[:, :statuses] = samples.statuses
    rows["words"] = numpy.packbits(padded, axis=1, bitorder="little").view("<u2")
    return rows.tobytes()
