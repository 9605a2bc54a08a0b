"""Runs `linediff record` on worked scenarios, whose expected rows were calculated by hand from the rules."""
from answers import run
from bench import FAULT, LOAD, THREE, changed

# The settings of LOAD with the defaults of the others, in the order of the table of settings.
SETTINGS = """set,stations,2
set,channels,5
set,spacing,1000
set,cycle,20
set,drift,20
set,slow,60000
set,age,1000000
set,limit,20000
set,silent,20000
set,count,4
set,pickup,500
set,rn,6
set,rd,1
set,p,-1305
set,q,9914
set,worda,155
set,wordb,223
set,misses,3
""".splitlines()

# The frames of the first two slots on five channels, bits in pairs with their complements: header word, count, the yellow bit set, zeros, ones.
IDLE = [word + "66" + "95" + "55" * 4 + "aa" * 24 for word in ("9b0f", "df0f")]


def text(rows):
    return "".join(row + "\n" for row in rows).encode()


def record(station, rows):
    """The rows of a recording, and all that isn't as it should be beside them."""
    output, said, status = run(["record", str(station)], text(rows))
    return output.decode().splitlines(), (said, status)


def of_kind(rows, kind):
    return [row for row in rows if row.startswith(kind + ",")]


def worked():
    done = (b"", 0)
    rows, rest = record(1, LOAD)
    slots = ["slot,%d" % (125 * at) for at in range(8)]
    begin = [*SETTINGS, "me,1", *slots, "sample,1000,951,-309,-809", "slot,1000"]
    yield "a recording begins with the settings", (rows[:len(begin)], rest), (begin, done)
    yield "there is a slot every 125 ticks", of_kind(rows, "slot"), ["slot,%d" % (125 * at) for at in range(1600)]
    # Before its first sample station 2 sends no message, and while it hunts it sets the yellow bit.
    first = ["bits,%d,2,256,%s" % (3000 + 125 * at, IDLE[at]) for at in range(2)]
    yield "frames come as they were sent, 3000 ticks later", of_kind(rows, "bits")[:2], first
    yield "one from each slot whose frame comes before the end", len(of_kind(rows, "bits")), 1600 - 3000 // 125
    # The clock of station 2 shows 4200 ticks more, so its sample of number 5 is that of true tick 800.
    rows, rest = record(2, LOAD)
    yield "stamps are those of the station's clock", (of_kind(rows, "slot")[:2], of_kind(rows, "sample")[0].split(",")[1], rest), (["slot,4200", "slot,4325"], "5000", done)
    rows, rest = record(3, THREE)
    yield "a third station has two peers", ({row.split(",")[2] for row in of_kind(rows, "bits")}, "me,3" in rows, rest), ({"1", "2"}, True, done)


def failures():
    """A read of station 1 that fails, and a frame of station 1 that can't be sent: the peer is the other station both times."""
    taken, rest = record(1, FAULT + ["failtake,50000,50000,2,1"])
    yield "a failed read", (of_kind(taken, "fault"), rest), (["fault,50000,2"], (b"", 0))
    sent, rest = record(1, FAULT + ["failsend,50000,50000,1,2"])
    yield "a failed send", (of_kind(sent, "fault"), rest), (["fault,50000,2"], (b"", 0))
    other, rest = record(2, FAULT + ["failsend,50000,50000,1,2"])
    yield "a failed send is nothing to the receiver", (of_kind(other, "fault"), rest), ([], (b"", 0))
    # The last four bits come a tick later. They are two pairs of unused payload, and so are the last ones before them.
    cut, rest = record(1, FAULT + ["cut,47000,47000,2,1,252"])
    parts = [row.split(",")[1:] for row in of_kind(cut, "bits") if row.split(",")[3] != "256"]
    told = [(*others, len(bits), bits[-4:]) for *others, bits in parts]
    yield "bits past the count are zeros", (told, rest), ([("50000", "2", "252", 64, "aaa0"), ("50001", "2", "4", 2, "a0")], (b"", 0))


def refused():
    absent = (b"bad,0,7\n", b"bad input\n", 3)
    yield "a station that the scenario lacks", run(["record", "3"], text(LOAD)), absent
    yield "a row that breaks a rule comes first", run(["record", "3"], text(LOAD + ["x"])), (b"bad,13,1\n", b"bad input\n", 3)
    yield "so do settings that are refused", run(["record", "3"], text(changed(LOAD, channels=1))), (b"bad,0,9\n", b"bad input\n", 3)
    yield "a station that it has", run(["record", "3"], text(THREE))[1:], (b"", 0)


def cases():
    yield from worked()
    yield from failures()
    yield from refused()
