#!/usr/bin/env python3
"""Makes west.cfg and east.cfg with their data: a fault on phase A of a 50 Hz line, as the recorders of its two ends saw it.

Both ends feed it. West's recorder writes secondary amperes as text by revision 1999, 4,000 samples a second; East's writes
primary ones in binary by revision 2013, 2,400 a second, began 7.3 ms later and names its times by a clock an hour ahead.
"""
import math
import os
import struct

FAULT = 0.1
LENGTH = 0.2
PHASES = "ABC"
LOAD, CHANGE = 400, {"west": 6000, "east": 3500}
TIME_CONSTANT = 0.045


def current(station, phase, time):
    """The primary amperes into the line: load that enters at West and leaves at East, and from FAULT on what feeds phase A."""
    turn = 2 * math.pi * (50 * time - phase / 3)
    value = LOAD * math.sqrt(2) * math.cos(turn) * (1 if station == "west" else -1)
    if phase == 0 and time >= FAULT:
        angle = 2 * math.pi * 50 * (time - FAULT) - math.radians(80)
        decay = math.exp((FAULT - time) / TIME_CONSTANT)
        value += CHANGE[station] * math.sqrt(2) * (math.cos(angle) - math.cos(math.radians(80)) * decay)
    return value


def sampled(station, begins, hertz, scale):
    """Each sample's number, its microseconds from the first, and the values of the phases."""
    for at in range(int((LENGTH - begins) * hertz)):
        time = begins + at / hertz
        yield at + 1, round(at / hertz * 1e6), [round(current(station, phase, time) / scale) for phase in range(3)]


def configuration(name, revision, channel, hertz, samples, times, encoding, rest=""):
    """`channel` has what follows a phase's name and circuit: unit, scale, offset, skew, range, transformer and side."""
    lines = ["%s,recorder,%d" % (name, revision), "3,3A,0D"]
    lines += ["%d,I%s,%s,line 7,%s" % (at, phase, phase, channel) for at, phase in enumerate(PHASES, 1)]
    lines += ["50", "1", "%d,%d" % (hertz, samples), *times, encoding, "1"]
    return ("".join(line + "\r\n" for line in lines) + rest).encode()


def main():
    os.chdir(os.path.dirname(os.path.abspath(__file__)))
    west = list(sampled("west", 0, 4000, 0.002 * 1200))
    east = list(sampled("east", 0.0073, 2400, 0.5))
    texts = {
        "west.dat": "".join("%d,%d,%d,%d,%d\r\n" % (at, time, *values) for at, time, values in west).encode() + b"\x1a",
        "east.dat": b"".join(struct.pack("<II3h", at, time, *values) for at, time, values in east),
    }
    texts["west.cfg"] = configuration("West", 1999, "A,0.002,0,0,-32767,32767,1200,1,S", 4000, len(west), ["14/05/2024,06:30:00.000000", "14/05/2024,06:30:00.100000"], "ASCII")
    texts["east.cfg"] = configuration("East", 2013, "A,0.5,0,0,-32767,32767,1200,1,P", 2400, len(east), ["14/05/2024,07:30:00.007300", "14/05/2024,07:30:00.100000"], "BINARY", "+1,+1\r\n0,0\r\n")
    for name, data in texts.items():
        with open(name, "wb") as file:
            file.write(data)


main()
