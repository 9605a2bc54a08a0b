"""Runs `linediff gen`: its scenarios against those of a generator written here from the papers, and its sums against `bench`.

The words are those of PCG with 64 bits of state and 32-bit words, XSH RR (O'Neill, "PCG: a family of simple fast space-efficient
statistically good algorithms for random number generation").
"""
from answers import run

MULTIPLIER, MASK = 6364136223846793005, (1 << 64) - 1
# The first words of the paper's demonstration: from 42 on, stream 54.
DEMONSTRATION = [0xA15C02B7, 0x7B47F409, 0xBA1D3330, 0x83D2F293, 0xBFA4784B, 0xCBED606E]
# Twenty numbers: the first ones, the last one, and some between.
NUMBERS = list(range(1, 15)) + [99, 4711, 65_536, 4_294_967_296, 123_456_789_012_345_678, 999_999_999_999_999_999]
TICKS = 200_000


def words(number, stream=1):
    increment = (stream << 1 | 1) & MASK
    state = ((number + increment) * MULTIPLIER + increment) & MASK
    while True:
        mixed, turn = ((state >> 18 ^ state) >> 27) & 0xFFFFFFFF, state >> 59
        yield (mixed >> turn | mixed << (-turn & 31)) & 0xFFFFFFFF
        state = (state * MULTIPLIER + increment) & MASK


def scenario(number, ticks):
    """The rows of a number's scenario."""
    source = words(number)

    def drawn(count):
        return next(source) % count

    stations = 2 + drawn(2)
    yield "set,stations,%d" % stations
    yield "set,channels,%d" % (5 + drawn(8))
    yield from ("set,drift,50", "set,end,%d" % ticks)
    for station in range(1, stations + 1):
        yield "clock,%d,%d" % (station, drawn(1_000_000))
        yield "rate,0,%d,%d" % (station, drawn(101) - 50)
    lines = [(one, other) for one in range(1, stations + 1) for other in range(1, stations + 1) if one != other]
    for one, other in lines:
        yield "delay,0,%d,%d,%d" % (one, other, 1 + drawn(8000))
    amplitude, step = 500 + drawn(4500), drawn(20)
    for tick, station, size, ahead in (0, 1, 1, 0), (0, 2, 1, 10), (ticks // 2, 1, 3, 0), (ticks // 2, 2, 3, 0):
        phases = ",".join("%d,%d" % (size * amplitude, (step + turn + ahead) % 20) for turn in (0, 13, 7))
        yield "wave,%d,%d,%s" % (tick, station, phases)
    for _ in range(10):
        tick, line, bit = 125 * drawn(ticks // 125), drawn(len(lines)), drawn(256)
        yield "flip,%d,%d,%d,%d,%d" % (tick, tick, *lines[line], bit)


def sums(report):
    """The sums of the totals of a report: messages accepted, sets, trips; and the messages that are forged."""
    totals = [list(map(int, line.split(",")[2:5])) for line in report if line.startswith("total,")]
    forged = next(line.split(",")[1] for line in report if line.startswith("forged,"))
    return "#,%d,%d,%d,%s" % (*(sum(part) for part in zip(*totals)), forged)


def cases():
    source = words(42, 54)
    yield "the words of the paper", [next(source) for _ in DEMONSTRATION], DEMONSTRATION
    kinds = set()
    for number in NUMBERS:
        text, said, status = run(["gen", str(number), str(TICKS)])
        *rows, last = text.decode().splitlines()
        yield "the scenario of %d" % number, (rows, said, status), (list(scenario(number, TICKS)), b"", 0)
        report, said, status = run(["bench"], text)
        yield "the sums of %d" % number, (last, said, status), (sums(report.decode().splitlines()), b"", 0)
        kinds.add((rows[0], last.split(",")[3] != "0"))
    yield "scenarios of two and three stations, which trip", kinds, {("set,stations,2", True), ("set,stations,3", True)}
    rows = "".join(row + "\n" for row in scenario(7, 1000)).encode()
    yield "the shortest scenario", run(["gen", "7", "1000"], b"input that isn't read"), (rows + b"#,0,0,0,0\n", b"", 0)
    yield "a closed input, which isn't read", run(["gen", "7", "1000"], close=0)[1:], (b"", 0)
    with open("/dev/full", "wb") as full:
        yield "a full output", run(["gen", "7", "1000"], stdout=full), (b"", b"write fault\n", 5)
