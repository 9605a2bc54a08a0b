"""Runs the program on inputs made of the examples by random changes, for the minutes of MINUTES (1), from the seed of SEED (1).

It looks for a crash, an answer that isn't one of the seven, an output that doesn't go with its answer, and a run of more than ten
times what a byte of the same command costs at most.
"""
import os
import random
import re
import subprocess
import sys
import time

sys.path.insert(0, os.path.join(os.path.dirname(os.path.abspath(__file__)), ".."))
from answers import USAGE, run, the_program
from commands import commands

COMPLAINTS = {0: b"", 2: USAGE, 3: b"bad input\n", 4: b"read fault\n", 5: b"write fault\n", 6: b"no memory\n", 7: b"input too large\n"}
# Seconds that a run may take: to start, and a byte of input. A run of a scenario goes by its ticks, of which a changed one may have more.
START, A_BYTE, A_TICK = 2.0, 1e-4, 5e-6
NUMBERS = [b"0", b"1", b"-1", b"3", b"255", b"256", b"32767", b"-32768", b"4294967295", b"4294967296", b"2000000000000", b"999999999999999999", b"9" * 40, b"", b"x", b"01"]


def changed(given, chance):
    """An input with up to four changes: a byte, a piece, a line, or a number of a row."""
    data = bytearray(given)
    for _ in range(chance.randint(1, 4)):
        at, other = chance.randint(0, len(data)), chance.randint(0, len(data))
        kind = chance.randrange(6)
        if kind == 0:
            data[at:at + 1] = bytes([chance.randrange(256)])
        elif kind == 1:
            del data[at:at + chance.randint(1, 40)]
        elif kind == 2:
            data[at:at] = data[other:other + chance.randint(1, 200)]
        elif kind == 3:
            lines = bytes(data).split(b"\n")
            chance.shuffle(lines[:chance.randint(0, len(lines))])
            lines[chance.randrange(len(lines))] = chance.choice(lines)
            data = bytearray(b"\n".join(lines))
        else:
            numbers = list(re.finditer(rb"-?\d+", data))
            if numbers:
                found = chance.choice(numbers)
                data[found.start():found.end()] = chance.choice(NUMBERS)
    return bytes(data)


def ticks_of(given):
    """The most ticks that a scenario may have, where it is one."""
    return max([min(int(end), 20000000) for end in re.findall(rb"set,end,(\d{1,18})", given)], default=0)


def wrong(told, seconds, given):
    output, said, status = told
    if said != COMPLAINTS.get(status):
        return "it ended with %r, and said %r" % (status, said[:80])
    if (status == 3) != bool(re.fullmatch(rb"bad,\d+,[1-9]\n", output)) and status != 0:
        return "with %d it wrote %r" % (status, output[:80])
    if seconds > START + A_BYTE * len(given) + A_TICK * ticks_of(given):
        return "it took %.1f seconds" % seconds
    return None


def cases():
    program, chance = the_program(), random.Random(int(os.environ.get("SEED", "1")))
    until, count, found, ends = time.monotonic() + 60 * float(os.environ.get("MINUTES", "1")), 0, [], {}
    standing = [(words, given) for _, words, given in commands() if given]
    while time.monotonic() < until:
        words, given = chance.choice(standing)
        given = changed(given, chance)
        begun = time.monotonic()
        told = run(words, given, program=program)
        fault = wrong(told, time.monotonic() - begun, given)
        count, ends[told[2]] = count + 1, ends.get(told[2], 0) + 1
        if fault:
            found.append((words, given, fault))
    print("fuzz: %d runs, by status %r" % (count, dict(sorted(ends.items()))), flush=True)
    yield "no run answers what it may not", found[:3], []
