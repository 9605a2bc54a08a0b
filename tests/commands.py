"""The commands of the program, each with words and an input that its tests run it on, in the order of the usage line."""
from answers import USAGE, bytes_of
from bench import FAULT, changed

SHORT = "".join(row + "\n" for row in changed(FAULT, end=60000)).encode()


def commands():
    """Name, words and input of each command."""
    yield "judge", ["judge", "2"], bytes_of("crates", "linediff", "stdin")
    yield "frames", ["frames", "5"], bytes_of("examples", "line.bin")
    yield "bench", ["bench"], SHORT
    yield "gen", ["gen", "7", "5000"], b""
    yield "record", ["record", "2"], SHORT


def names():
    """The names of the usage line, in its order."""
    return [words.split()[0] for words in USAGE.decode().strip().removeprefix("usage: linediff ").split(" | ")]
