"""Where the scenarios of a sweep come from: a template and a seed, or the program's `gen`."""
import subprocess

from ..rows import NotReadable
from .template import Template


def usage_of(program):
    """The usage line of the program, which names its commands."""
    return subprocess.run([program], stdin=subprocess.DEVNULL, capture_output=True, text=True).stderr.strip()


class Drawn:
    """Scenarios that are drawn from a template by a seed, and the names of what is drawn."""

    def __init__(self, text, seed):
        self._template = Template(text.encode())
        self._seed = seed
        self.names = self._template.names

    def scenario(self, program, number):
        """The bytes of a number's scenario, and what was drawn for each name. Raises NotReadable where it can't be had."""
        return self._template.draw(self._seed, number)

    def difference(self, scenario, report):
        """What the source told otherwise than the run did: a template tells nothing of it."""
        return ""


class Generated:
    """Scenarios that `gen` makes of their numbers, each of so many ticks. Nothing of them has a name."""

    names = ()

    def __init__(self, ticks):
        self._ticks = ticks

    def scenario(self, program, number):
        """The bytes of a number's scenario. Raises NotReadable where it can't be had."""
        made = subprocess.run([program, "gen", str(number), str(self._ticks)], stdin=subprocess.DEVNULL, capture_output=True)
        if made.returncode != 0:
            raise NotReadable("gen %d %d ended with status %d: %s" % (number, self._ticks, made.returncode, made.stderr.decode().strip()))
        return made.stdout, {}

    def difference(self, scenario, report):
        """The last line of `gen` has the sums of the run's totals."""
        sums = [sum(getattr(total, name) for total in report.totals) for name in ("accepted", "sets", "trips")]
        ran = ",".join(map(str, sums + [report.forged]))
        told = scenario.remarks[-1] if scenario.remarks else "nothing"
        return "" if told == ran else "gen tells the sums %s, and bench %s" % (told, ran)


def check_gen(program):
    """Raises NotReadable where the program has no command `gen`."""
    usage = usage_of(program)
    if "gen NUMBER TICKS" not in usage:
        raise NotReadable("this program has no command gen, so its scenarios can't be had by number; it says: %s" % usage)
