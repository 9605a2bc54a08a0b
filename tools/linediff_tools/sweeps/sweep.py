"""A sweep and its folder: what is swept in `sweep.json`, the job log of GNU parallel, and the rows of the scenarios."""
import base64
import contextlib
import fcntl
import json
import os
import re
import zlib
from dataclasses import asdict, dataclass

from ..rows import NotReadable
from .rows import read_rows, write_rows
from .source import Drawn, Generated

# The variable of the environment that tells a job what is swept.
PACKED = "LINEDIFF_SWEEP"
# A whole line of GNU parallel's job log: the number of the job, from 1 on, and eight columns more.
LOGGED = re.compile(r"[0-9]+(\t[^\t\n]*){8}\n")


@dataclass(frozen=True)
class Sweep:
    """Which scenarios: `count` numbers from `first` on, in parts of `part`; drawn from a template by a seed, or of `ticks` by `gen`."""

    first: int
    count: int
    part: int
    template: str | None = None
    seed: int | None = None
    ticks: int | None = None

    def source(self):
        return Generated(self.ticks) if self.template is None else Drawn(self.template, self.seed)

    @property
    def numbers(self):
        return range(self.first, self.first + self.count)

    def parts(self):
        return range(-(-self.count // self.part))

    def numbers_of(self, part):
        """The numbers of a part, counted from 0."""
        return self.numbers[part * self.part:][: self.part]


def packed(sweep):
    """A sweep as a word for the environment of its jobs, so that a host needs no file of it."""
    return base64.b64encode(zlib.compress(json.dumps(asdict(sweep)).encode())).decode()


def unpacked(word):
    """The sweep that a word of `packed` tells."""
    return Sweep(**json.loads(zlib.decompress(base64.b64decode(word))))


def read_sweep(path):
    """The sweep that a file tells."""
    with open(path, encoding="utf-8") as file:
        return Sweep(**json.load(file))


class Folder:
    """The folder of a sweep."""

    def __init__(self, path):
        self.path = path
        self.told, self.jobs, self.rows = (os.path.join(path, name) for name in ("sweep.json", "jobs.log", "rows.csv"))

    @contextlib.contextmanager
    def held(self):
        """Holds the folder, which is made where it isn't there, against a second call."""
        os.makedirs(self.path, exist_ok=True)
        with open(os.path.join(self.path, "lock"), "w") as lock:
            try:
                fcntl.flock(lock, fcntl.LOCK_EX | fcntl.LOCK_NB)
            except BlockingIOError:
                raise NotReadable("another call runs the sweep in %s" % self.path) from None
            yield

    def begin(self, sweep):
        """Begins the sweep, or goes on with it where it was begun."""
        if os.path.exists(self.told):
            if read_sweep(self.told) != sweep:
                raise NotReadable("%s has another sweep: take another folder, or the words of that one" % self.path)
            self._drop_torn_row()
            self._forget_parts_without_rows(sweep)
            return
        with open(self.rows, "w", newline="") as file:
            write_rows(file, sweep.source().names, {})
        open(self.jobs, "w").close()
        with open(self.told, "w", encoding="utf-8") as file:
            json.dump(asdict(sweep), file, indent=1)

    def _drop_torn_row(self):
        """Where the machine went down, the last row may have been written by half. Its part isn't in the job log, and is run again."""
        with open(self.rows, "r+b") as file:
            data = file.read()
            file.truncate(data.rfind(b"\n") + 1)

    def _forget_parts_without_rows(self, sweep):
        """Keeps in the job log the parts of which each row is there, so that the others are run again whatever became of them."""
        found = read_rows(self.rows, sweep.source().names)
        with open(self.jobs) as file:
            heading, *lines = file.readlines() or [""]
        kept = [line for line in lines if LOGGED.match(line) and all(number in found for number in sweep.numbers_of(int(line.split("\t")[0]) - 1))]
        with open(self.jobs, "w") as file:
            file.writelines([heading, *kept])

    def read(self):
        """The sweep, and the outcome with what was drawn for each number that was run."""
        if not os.path.exists(self.told):
            raise NotReadable("%s has no sweep" % self.path)
        sweep = read_sweep(self.told)
        return sweep, read_rows(self.rows, sweep.source().names)

    def put_in_order(self, sweep, found):
        """Writes the rows once each, in the order of their numbers."""
        with open(self.rows + ".new", "w", newline="") as file:
            write_rows(file, sweep.source().names, found)
        os.replace(self.rows + ".new", self.rows)
