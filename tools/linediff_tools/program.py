"""The program, as the launcher runs it, and the examples."""
import os
import re
import subprocess

ROOT = os.path.dirname(os.path.dirname(os.path.dirname(os.path.realpath(__file__))))
LINEDIFF = os.path.join(ROOT, "linediff")
EXAMPLES = os.path.join(ROOT, "examples")


def run(words, data):
    """What the program writes of an input, and its status."""
    done = subprocess.run([LINEDIFF, *words], input=data, stdout=subprocess.PIPE)
    return done.stdout.decode("ascii", "replace"), done.returncode


def examples():
    """The examples of `bench` and `judge`: the name of each, its words and its file."""
    folder = os.path.join(EXAMPLES, "scenarios")
    for name in sorted(os.listdir(folder)):
        yield name.removesuffix(".csv"), ["bench"], os.path.join(folder, name)
    with open(os.path.join(EXAMPLES, "README.md"), encoding="utf-8") as file:
        for count, name in re.findall(r"`\./linediff judge (\d+) < examples/(\w+)\.csv`", file.read()):
            yield "judge_" + name, ["judge", count], os.path.join(EXAMPLES, name + ".csv")
