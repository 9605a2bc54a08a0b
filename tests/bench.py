"""Runs `linediff bench` on worked scenarios, whose expected lines were calculated by hand from the rules, and on the examples."""
import os
import subprocess
import tempfile

import answers
from answers import EXAMPLES, bytes_of, run

SCENARIOS = os.path.join(EXAMPLES, "scenarios")

# Load current through the line, with equal delays.
LOAD = """set,stations,2
set,channels,5
set,spacing,1000
set,cycle,20
set,drift,20
set,end,200000
clock,1,0
clock,2,4200
delay,0,1,2,3000
delay,0,2,1,3000
wave,0,1,1000,0,1000,13,1000,7
wave,0,2,1000,10,1000,3,1000,17
""".splitlines()

# No load, and from tick 100000 on a fault on phase a that both ends feed.
FAULT = LOAD[:10] + ["wave,100000,1,16384,5,0,0,0,0", "wave,100000,2,16384,6,0,0,0,0"]

# The same with a third station that feeds nothing.
THREE = ["set,stations,3"] + FAULT[1:]
THREE += ["clock,3,2000", "delay,0,1,3,3000", "delay,0,3,1,3000", "delay,0,2,3,3000", "delay,0,3,2,3000"]

# How the report of LOAD begins: the lock, the first frame without the yellow bit, and the first exchange of each station.
BEGINNING = """alarm,0,1,2,Unlocked,on
alarm,0,1,2,Unaligned,on
alarm,0,2,1,Unlocked,on
alarm,0,2,1,Unaligned,on
alarm,3125,1,2,Unlocked,off
alarm,3125,1,2,Yellow,on
alarm,3125,2,1,Unlocked,off
alarm,3125,2,1,Yellow,on
alarm,6125,1,2,Yellow,off
alarm,6125,2,1,Yellow,off
est,8750,1,2,8400,7750,0,2620000
set,8750,1,5,WWW
alarm,8750,1,2,Unaligned,off
est,8875,2,1,-8400,7750,0,2640000
set,8875,2,9,WWW
alarm,8875,2,1,Unaligned,off
""".splitlines()


def bench(rows):
    """The lines of a scenario's report, and all that isn't as it should be beside them."""
    output, said, status = run(["bench"], "".join(row + "\n" for row in rows).encode())
    return output.decode().splitlines(), (said, status)


def sets(report, station):
    """The letters of each set of a station, by its number."""
    told = [line.split(",") for line in report if line.startswith("set,")]
    return {int(number): letters for _, _, at, number, letters in told if int(at) == station}


def first_trip(report, station):
    return next((line for line in report if line.startswith("set,") and line.split(",")[2] == str(station) and "T" in line), None)


def changed(rows, **given):
    """A scenario with some settings changed, or added behind the others."""
    kept = [row for row in rows if not any(row.startswith("set,%s," % key) for key in given)]
    return kept[:1] + ["set,%s,%s" % item for item in given.items()] + kept[1:]


def worked():
    done = (b"", 0)
    report, rest = bench(LOAD)
    yield "load begins", (report[:16], rest), (BEGINNING, done)
    yield "load ends", report[-4:], ["total,1,196,192,0,0,0,0,0,0", "total,2,196,192,0,0,0,0,0,0", "forged,0", "end,200000"]
    for station, first in (1, 24), (2, 28):
        letters = sets(report, station)
        yield "load restrains at %d" % station, {letters[n] for n in letters if n >= first}, {"RRR"}
        yield "load waits at %d" % station, {letters[n] for n in letters if n < first}, {"WWW"}
    yield "a lock that ten misses end", bench(changed(LOAD, misses=10)), (report, done)

    fault, rest = bench(FAULT)
    told = ["set,103750,1,100,RRR", "set,104750,1,101,ORR", "set,107750,1,104,TRR", "set,104875,2,105,ORR", "set,107875,2,108,TRR"]
    yield "an internal fault", ([line for line in told if line not in fault], rest), ([], done)
    yield "an internal fault trips", fault[-4:-2], ["total,1,196,192,93,0,0,0,0,0", "total,2,196,192,93,0,0,0,0,0"]

    flipped, rest = bench(FAULT + ["flip,102750,102750,2,1,100"])
    letters = sets(flipped, 1)
    wanted = {n: "WWW" for n in range(103, 122)} | {n: "ORR" for n in range(122, 125)} | {125: "TRR"}
    yield "a damaged frame costs a set", (102 in letters, {n: letters[n] for n in wanted}, rest), (False, wanted, done)
    yield "a damaged frame delays a trip", (first_trip(flipped, 1), flipped[-4]), ("set,128750,1,125,TRR", "total,1,195,191,72,0,0,0,0,1")
    yield "a damaged frame on one line leaves the other end", (sets(flipped, 2), flipped[-3]), (sets(fault, 2), fault[-3])

    unequal, rest = bench([row.replace("1,2,3000", "1,2,5000").replace("2,1,3000", "2,1,1000") for row in LOAD])
    first = unequal.index("est,8750,1,2,12400,7750,4000000000,4002620000")
    yield "unequal delays shift the estimate", (unequal[first + 1], rest), ("set,8750,1,5,WWW", done)
    yield "unequal delays restrain", set(sets(unequal, 1).values()) | set(sets(unequal, 2).values()), {"WWW", "RRR"}

    # Station 2 begins a message at 4875 and at 5875, and that of station 1 comes at 1000 + 875 + 3005 = 4880. So the echo is back at
    # 5875 + 875 + 3000 = 9750, before the tick 4 * 1000 + 6005 + 400 from which on the alarm can't be on.
    late, rest = bench([row.replace("1,2,3000", "1,2,3005") for row in LOAD])
    told = [line for line in late if line.startswith("alarm,") and "Unaligned" in line]
    turns = ["alarm,0,1,2,Unaligned,on", "alarm,0,2,1,Unaligned,on", "alarm,8880,2,1,Unaligned,off", "alarm,9750,1,2,Unaligned,off"]
    yield "a message that just misses a slot", (told, rest), (turns, done)

    steady, rest = bench(LOAD[:10] + ["hold,0,1,30000,30000,30000", "hold,0,2,30000,30000,30000"])
    yield "a constant is no current", ({letters for n, letters in sets(steady, 1).items() if n >= 24}, rest), ({"RRR"}, done)

    three, rest = bench(THREE)
    trips = ["set,107875,1,104,TRR", "set,107875,2,108,TRR", "set,107875,3,106,TRR"]
    yield "three terminals trip", ([first_trip(three, station) for station in (1, 2, 3)], rest), (trips, done)
    alone, rest = bench(THREE + ["lose,0,20000000,3,1"])
    told = (sets(alone, 1), sets(alone, 3), "alarm,20125,1,3,Silent,on" in alone, first_trip(alone, 2), rest)
    yield "without a line two of three judge nothing", told, ({}, {}, True, trips[1], done)

    taken, rest = bench(LOAD + ["failtake,8750,8750,2,1"])
    told = ["alarm,8750,1,2,Fault,on", "est,8751,1,2,8399,7751,1000000,3620080", "set,8751,1,5,WWW", "alarm,8751,1,2,Unaligned,off", "alarm,8751,1,2,Fault,off"]
    yield "a failed take", (taken[:15], taken[-4:], rest), (BEGINNING[:10] + told, report[-4:], done)
    sent, rest = bench(LOAD + ["failsend,5000,5000,1,2"])
    told = ["alarm,5000,1,2,Fault,on", "alarm,5125,1,2,Fault,off", "alarm,8375,2,1,Unlocked,on", "alarm,8625,2,1,Unlocked,off"]
    told += ["est,9875,2,1,-8400,7750,0,2640000", "set,9875,2,10,WWW", "alarm,11375,1,2,Yellow,on", "alarm,11625,1,2,Yellow,off"]
    yield "a failed send", ([line for line in told if line not in sent], rest), ([], done)
    yield "a failed send's totals", (sent[-4], sent[-3][:18], sent[-3][-2:]), (report[-4], "total,2,195,191,0,", ",3")


def ends():
    text = "".join(row + "\n" for row in LOAD).encode()
    yield "no scenario", run(["bench"]), (b"bad,0,9\n", b"bad input\n", 3)
    yield "a row that breaks a rule", run(["bench"], text + b"rate,0,1,21\n"), (b"bad,13,4\n", b"bad input\n", 3)
    for count in range(len(LOAD)):
        told = run(["bench"], "".join(row + "\n" for row in LOAD[:count]).encode())
        yield "%d rows of a scenario" % count, told[1:], (b"bad input\n", 3) if count < 6 else (b"", 0)
    with open("/dev/full", "wb") as full:
        yield "a full output", run(["bench"], text, stdout=full), (b"", b"write fault\n", 5)
    yield "a closed input", run(["bench"], close=0), (b"", b"read fault\n", 4)


def cases():
    yield from worked()
    yield from ends()
