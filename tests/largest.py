"""Runs each command at the largest of everything that it allows: none may want for memory there, or take another answer than it should."""
import itertools

from answers import LARGEST, USAGE, run, the_program
from commands import names

DONE = (b"", 0)
LINES = [(1, 2), (1, 3), (2, 1), (2, 3), (3, 1), (3, 2)]
GREATEST = {
    "stations": 3, "channels": 12, "spacing": 10000, "cycle": 20, "drift": 200, "slow": 200000, "age": 10000000, "limit": 480000, "silent": 1000000, "count": 32,
    "pickup": 32767, "rn": 10000, "rd": 10000, "p": 10000, "q": 10000, "worda": 255, "wordb": 254, "misses": 10,
}
LEAST = {
    "stations": 3, "channels": 12, "spacing": 500, "cycle": 4, "drift": 200, "slow": 200000, "age": 10000000, "limit": 24000, "silent": 1, "count": 1,
    "pickup": 1, "rn": 1, "rd": 1, "p": -10000, "q": 1, "worda": 128, "wordb": 129, "misses": 1,
}


def head(settings, end):
    return ["set,%s,%d" % item for item in {**settings, "end": end}.items()]


def clocks():
    """Clocks that start as late as they may, with all their rates, from one end of the drift to the other."""
    yield from ("clock,%d,1000000000000" % station for station in (1, 2, 3))
    yield from ("rate,%d,%d,%d" % (1000 * at, station, 200 - 400 * (at % 2)) for station in (1, 2, 3) for at in range(16))


def rules(lines, count):
    """So many rules over these lines, of every kind, with the longest delay and the latest repeats."""
    first = ["delay,0,%d,%d,100000" % line for line in lines]
    first += ["repeat,%d,%d,%d,%d,1000000" % (5000 * at, 5000 * at, *lines[0]) for at in range(4)]
    kinds = ["flip,{0},{1},{2},{3},255", "lose,{0},{0},{2},{3}", "cut,{0},{1},{2},{3},255", "slip,{0},{0},{2},{3},255", "failsend,{0},{0},{2},{3}", "failtake,{0},{0},{2},{3}"]
    others = (kind.format(1000 * at, 1000 * at + 250, *line) for at, (kind, line) in enumerate(zip(itertools.cycle(kinds), itertools.cycle(lines))))
    return first + list(itertools.islice(others, count - len(first)))


def shapes(count):
    return ["wave,%d,%d,32767,19,32767,19,32767,19" % (100 * at, 1 + at % 3) for at in range(count)]


def text_of(rows):
    return "".join(row + "\n" for row in rows).encode()


def scenarios():
    everything = [*clocks(), *rules(LINES, 1000), *shapes(300)]
    yield "each setting at its greatest", text_of(head(GREATEST, 400000) + everything), 400000
    yield "each setting at its least", text_of(head(LEAST, 400000) + everything), 400000
    yield "all rules on one line", text_of(head(LEAST, 400000) + rules([(1, 2)], 1000)), 400000
    yield "the latest end", text_of(head(GREATEST, 20000000) + [*clocks(), *rules(LINES, 20)]), 20000000
    row = b"hold,0,1,32767,-32768,32767\n"
    front = text_of(head(LEAST, 1000))
    yield "as many shapes as a text has", front + row * ((LARGEST - len(front)) // len(row)), 1000


def of_a_scenario(program):
    """Cases for the commands that read a scenario: each is done, and the report goes on to the end."""
    for case, scenario, end in scenarios():
        output, said, status = run(["bench"], scenario, program=program)
        yield "bench: %s" % case, (output.splitlines()[-1:], said, status), ([b"end,%d" % end], *DONE)
        output, said, status = run(["record", "3"], scenario, program=program)
        yield "record: %s" % case, (output.count(b"\nslot,"), said, status), ((end + 124) // 125, *DONE)


def others(program):
    frames = b"\x9b\x0f" + b"\x55" * 30
    rows = b"".join(b"%d,-32768,32767,0,32767,-32768,0\n" % number for number in range(4294967296 - LARGEST // 42, 4294967296))
    yield "judge: the longest input", run(["judge", "32"], rows, program=program)[1:], DONE
    yield "frames: the longest input", run(["frames", "12"], frames * (LARGEST // 32), program=program)[1:], DONE
    yield "gen: the latest end", run(["gen", "9" * 18, "20000000"], program=program)[1:], DONE
    front = b"set,stations,2\nset,channels,5\nset,end,9\n"
    yield "bench: one row", run(["bench"], front + b"x" * (LARGEST - len(front)), program=program), (b"bad,4,1\n", b"bad input\n", 3)
    yield "bench: one row of many fields", run(["bench"], front + b"set" + b"," * (LARGEST - len(front) - 3), program=program), (b"bad,4,2\n", b"bad input\n", 3)
    yield "bench: more than it reads", run(["bench"], b"#\n" * (LARGEST // 2) + b"#", program=program), (b"", b"input too large\n", 7)
    yield "bench: a bad row behind two million", run(["bench"], front + b"#\n" * 2000000 + b"x\n", program=program), (b"bad,2000004,1\n", b"bad input\n", 3)
    for count in (9, 1000, 30000):
        yield "%d words" % count, run(["judge", "2"] * (count // 2) + ["judge"] * (count % 2), program=program), (b"", USAGE, 2)
    yield "a long word", run(["judge", "1" * 100000], program=program), (b"", USAGE, 2)


def cases():
    program = the_program()
    tried = set()
    for case, got, wanted in itertools.chain(of_a_scenario(program), others(program)):
        tried.add(case.split(":")[0])
        yield case, got, wanted
    yield "each command of the usage line was run", sorted(set(names()) - tried), []
