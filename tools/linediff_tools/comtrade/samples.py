"""The samples of a record as its data has them."""
from dataclasses import dataclass

import numpy

# In the place of a time stamp that is missing.
NO_STAMP = -1


@dataclass(frozen=True)
class Samples:
    """One a row: their numbers and time stamps, the values of the analog channels (NaN: missing), the states of the status channels."""

    numbers: numpy.ndarray
    stamps: numpy.ndarray
    analogs: numpy.ndarray
    statuses: numpy.ndarray
