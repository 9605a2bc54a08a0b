"""Runs tools/comtrade on records that are written here from the standard's lists of fields, with values worked by hand."""
import importlib.util
import os
import struct
import subprocess
import tempfile

from answers import EXAMPLES, ROOT, run
from tool import call


def lacks():
    """What isn't there and every case needs."""
    return None if importlib.util.find_spec("numpy") else "the package python3-numpy, which tools/install installs"


# A record of 1999: text, two rates, a channel of the secondary side, one in kiloamperes, one sampled 250 us early.
# Samples at 500, 1000, 1500, 2000 us and 3000, 4000, 5000 us after 10:20:30.
WEST = """Westend,REC1,1999
4,3A,1D
1,IA,A,line 1,A,0.5,10,0,-99999,99998,1000,1,S
2,IB,B,line 1,kA,1E-1,0,0,-99999,99998,1000,1,P
3,IC,C,line 1,A,200,0,-250,-99999,99998,1,1,P
1,TRIP,,line 1,0
50
2
2000,4
1000,7
03/02/2020,10:20:30.000500
03/02/2020,10:20:30.002000
ASCII
1
""".splitlines()
WEST_DATA = """1,0,100,10,10,0
2,500,-20,20,20,0
3,1000,0,30,40,0
4,1500,40,-40,60,1
5,2500,60,50,100,1
6,3500,99999,60,0,1
7,4500,80,70,-40,0
""".splitlines()

# A record of 2013 that begins at the same second by a clock an hour ahead: binary, without a rate, time stamps of 10 us.
EAST = """Eastend,REC2,2013
6,3A,3D
1,L1,A,line 1,A,100,0,0,-32767,32767,1,1,P
2,L2,B,line 1,A,100,0,0,-32767,32767,1,1,p
3,L3,C,line 1,A,100,0,500,-32767,32767,1,1,P
1,one,,,0
2,two,,,1
3,three,,,0
50
0
0,5
03/02/2020,11:20:30.000000
03/02/2020,11:20:30.002000
BINARY
10
+1,x
0,0
""".splitlines()
EAST_SAMPLES = [(0, 0, 0, 0, 0b000), (100, 10, 20, 30, 0b001), (200, 20, 40, 60, 0b110), (300, 30, 60, 90, 0b100), (400, 40, 80, 120, 0b000)]


def east_data(samples=EAST_SAMPLES, kind="h"):
    """Number, stamp, values, and the states as the low bits of one word, the lowest byte first."""
    return b"".join(struct.pack("<II3%sH" % kind, at, *sample) for at, sample in enumerate(samples, 1))


class Records:
    """A folder of records that a case writes."""

    def __init__(self, folder):
        self.folder = folder

    def put(self, name, lines, data, end="\r\n"):
        with open(os.path.join(self.folder, name + ".cfg"), "wb") as file:
            file.write("".join(line + end for line in lines).encode())
        with open(os.path.join(self.folder, name + ".dat"), "wb") as file:
            file.write(data if isinstance(data, bytes) else "".join(line + end for line in data).encode())

    def call(self, *words, given=""):
        return call("comtrade", *words, given=given, folder=self.folder)

    def rows(self, *words):
        output, said, status = self.call("rows", *words)
        return output.splitlines(), said.splitlines(), status


BOTH = ["--station", "west.cfg", "IA,IB,IC", "--station", "east.cfg", "L1,L2,L3"]

# Sets at 1000, 2000 and 4000 us. West, in amperes of the primary side: IA is (0.5 x + 10) * 1000, sampled then; IB is 100 x; IC,
# 200 x, was sampled 250 us before the stamp, so set 1 lies halfway from 20 to 40, set 2 a quarter from 60 to 100, and
# set 3 a quarter from 100 to 0. East: L3 was sampled 500 us after the stamp, halfway between two samples at each set.
# Set 4 is left out, since IA's sample at 4000 us is missing.
WANTED = ["1,0,2000,6000,1000,2000,1500", "2,30000,-4000,14000,2000,4000,4500", "3,40000,5000,15000,3000,6000,7500"]


def halved(row):
    number, *values = row.split(",")
    return ",".join([number, *("%d" % (int(value) // 2) for value in values)])


def read_rightly(it):
    it.put("west", WEST, WEST_DATA)
    it.put("east", EAST, east_data())
    wanted = [halved(row) for row in WANTED]
    said = ["# set n was taken n * 1000 us after 03/02/2020 10:20:30 UTC, linearly between samples"]
    said += ["# a count is 2 A of the primary side: the pickup of 500 counts is 1000 A", "# sets left out, since a value beside them is missing: 1"]
    yield "two records", it.rows(*BOTH), (wanted, said, 0)
    yield "channels by number", it.rows("--station", "west.cfg", "1,2,3", "--station", "east.cfg", "1, 2, 3")[0], wanted
    turned = it.rows(*BOTH, "--reverse", "2")[0]
    yield "a station turned round", turned, ["1,0,1000,3000,-500,-1000,-750", "2,15000,-2000,7000,-1000,-2000,-2250", "3,20000,2500,7500,-1500,-3000,-3750"]
    yield "the other station first", it.rows(*BOTH, "--first", "2")[0][0], "1,500,1000,750,0,1000,3000"
    yield "a scale", it.rows(*BOTH, "--scale", "10")[0], ["1,0,200,600,100,200,150", "2,3000,-400,1400,200,400,450", "3,4000,500,1500,300,600,750"]
    yield "a scale that is too fine", it.rows(*BOTH, "--scale", "1")[::2], ([], 3)
    values = it.call("values", "west.cfg")[0].splitlines()
    yield "values of text", values[:2] + values[6:7], ["us,IA,IB,IC,TRIP", "0,60,1,2000,0", "3500,,6,0,1"]
    values = it.call("values", "east.cfg")[0].splitlines()
    yield "values of two bytes", values[1:4], ["0,0,0,0,0,0,0", "1000,1000,2000,3000,1,0,0", "2000,2000,4000,6000,0,1,1"]
    it.put("west", WEST, "\n".join(WEST_DATA).encode() + b"\n\x1a", end="\n")
    yield "lines that end in LF, and an end of file mark", it.rows(*BOTH)[0], wanted
    os.rename(it.folder + "/west.dat", it.folder + "/WEST.DAT")
    yield "an ending in capitals", it.rows(*BOTH)[0], wanted
    os.remove(it.folder + "/WEST.DAT")
    it.put("west", WEST, [line.replace(",500,", ",,").replace(",1000,", ",,") for line in WEST_DATA])
    yield "time stamps that are missing where there is a rate", it.rows(*BOTH)[0], wanted
    it.put("west", WEST, [line.replace("99999", "") for line in WEST_DATA])
    yield "a missing value that is an empty field", it.rows(*BOTH)[::2], (wanted, 0)


def other_encodings(it):
    it.put("west", WEST, WEST_DATA)
    wanted = [halved(row) for row in WANTED]
    for encoding, kind in ("BINARY32", "i"), ("FLOAT32", "f"):
        it.put("east", [encoding if line == "BINARY" else line for line in EAST], east_data(kind=kind))
        yield encoding, it.rows(*BOTH)[0], wanted
    for encoding, kind, missing in ("BINARY", "h", -0x8000), ("BINARY32", "i", -0x80000000), ("FLOAT32", "f", float("nan")):
        lost = EAST_SAMPLES[:2] + [(200, missing, 40, 60, 0)] + EAST_SAMPLES[3:]
        it.put("east", [encoding if line == "BINARY" else line for line in EAST], east_data(lost, kind))
        yield "%s with a missing value" % encoding, it.rows(*BOTH)[0], [wanted[0], wanted[2]]
    # The same samples of revision 1999, whose stamps name no zone, by stamps in nanoseconds of revision 2013, and as text.
    older = [line.replace("2013", "1999").replace("11:20:30", "10:20:30") for line in EAST[:-2]]
    it.put("east", older, east_data())
    yield "two bytes of 1999", it.rows(*BOTH)[0], wanted
    finer = [line.replace("30.000000", "30.000000000") for line in EAST]
    finer[finer.index("10")] = "10000"
    it.put("east", finer, east_data())
    yield "time stamps in nanoseconds", it.rows(*BOTH)[0], wanted
    words = ["%d,%d,%d,%d,%d,%d,%d,%d" % (at, *sample[:4], *(sample[4] >> bit & 1 for bit in range(3))) for at, sample in enumerate(EAST_SAMPLES, 1)]
    it.put("east", [line.replace("BINARY", "ascii") for line in EAST], words)
    yield "text of 2013", it.rows(*BOTH)[0], wanted
    it.put("east", [line if line != "0,0" else "7,0" for line in EAST], east_data())
    yield "a clock that isn't locked", it.rows(*BOTH)[1][2], "# east.cfg was recorded by a clock that wasn't locked: its time quality code is 7"
    sixty = [line if line != "50" else "60" for line in EAST]
    it.put("east", sixty, east_data())
    yield "two line frequencies", it.rows(*BOTH)[::2], ([], 3)
    # Sets 1 and 2 of 60 Hz are at 833.3 and 1666.6 us, two thirds and a third of the way between samples of 500 us. L3 is a sample behind.
    both = ["--station", "east.cfg", "L1,L2,L3"] * 2
    it.put("east", sixty, east_data([(stamp // 2, *rest) for stamp, *rest in EAST_SAMPLES]))
    told = it.rows(*both, "--scale", "1")
    yield "60 Hz", (told[0], told[1][0]), (["1,1667,3333,2000,1667,3333,2000", "2,3333,6667,7000,3333,6667,7000"], "# set n was taken n * 2500/3 us after 03/02/2020 10:20:30 UTC, linearly between samples")


def three_stations(it):
    it.put("west", WEST, WEST_DATA)
    it.put("east", EAST, east_data())
    three = BOTH + ["--station", "east.cfg", "L2,L1,L3"]
    # The first against the sum of the others: L1 + L2, L2 + L1 and twice L3.
    yield "three records", it.rows(*three, "--scale", "2")[0][:2], ["1,0,1000,3000,1500,1500,1500", "2,15000,-2000,7000,3000,3000,4500"]
    yield "three records, the second first", it.rows(*three, "--scale", "2", "--first", "2")[0][0], "1,500,1000,750,1000,1500,3750"


# A line of WEST, what stands in its place (None: the file ends before it), and the field that is refused.
FAULTY_LINES = [
    (1, "Westend,REC1", "rev_year"), (1, "Westend", "rec_dev_id"), (1, "Westend,REC1,1991", "rev_year"), (1, "a,b,1999,c", "rev_year"),
    (2, "5,3A,1D", "TT"), (2, "4,3A", "##D"), (2, "4,3,1D", "##A"), (2, "4,xA,1D", "##A"), (2, "4,3A,1A", "##D"), (2, "x,3A,1D", "TT"),
    (3, "2,IA,A,line 1,A,0.5,10,0,-99999,99998,1000,1,S", "An"), (3, "1,IA,A,line 1,A,0.5,10,0,-99999,99998,1000,1", "PS"),
    (3, "1,IA,A,line 1,A,x,10,0,-99999,99998,1000,1,S", "a"), (3, "1,IA,A,line 1,A,0.5,,0,-99999,99998,1000,1,S", "b"),
    (3, "1,IA,A,line 1,A,0.5,10,1/2,-99999,99998,1000,1,S", "skew"), (3, "1,IA,A,line 1,A,0.5,10,0,nan,99998,1000,1,S", "min"),
    (3, "1,IA,A,line 1,A,0.5,10,0,5,4,1000,1,S", "min"), (3, "1,IA,A,line 1,A,0.5,10,0,0,-,1000,1,S", "max"),
    (3, "1,IA,A,line 1,A,0.5,10,0,-99999,99998,1k,1,S", "primary"), (3, "1,IA,A,line 1,A,0.5,10,0,-99999,99998,1000,0,S", "secondary"),
    (3, "1,IA,A,line 1,A,0.5,10,0,-99999,99998,0,1,S", "primary"), (3, "1,IA,A,line 1,A,0.5,10,0,-99999,99998,1000,1,X", "PS"),
    (3, "1,IA,A,line 1,V,0.5,10,0,-99999,99998,1000,1,S", "uu"), (3, "1,IA,A,line 1,A,0.5,10,0,-99999,99998,1000,1,S,7", "PS"),
    (6, "1,TRIP,,line 1,2", "y"), (6, "1,TRIP,,line 1", "y"), (6, "3,TRIP,,line 1,0", "Dn"),
    (7, "fifty", "lf"), (7, "0", "lf"), (8, "-1", "nrates"), (8, "2.5", "nrates"), (9, "2000", "endsamp"), (9, "0,4", "samp"),
    (9, "fast,4", "samp"), (9, "2000,0", "endsamp"), (10, "1000,4", "endsamp"),
    (11, "31/02/2020,10:20:30.000500", "start date"), (11, "2020-02-03,10:20:30.000500", "start date"), (11, "03/02/2020,10:20", "start time"),
    (11, "03/02/2020,10:60:30.000500", "start time"), (11, "03/02/2020,10:20:30.0005000", "start time"), (11, "03/02/2020", "start time"),
    (12, "03/13/2020,10:20:30.000000", "trigger date"), (12, "03/02/2020,24:00:00.000000", "trigger time"),
    (13, "BINARY32", "ft"), (13, "text", "ft"), (14, "0", "timemult"), (14, "x", "timemult"), (14, None, "timemult"), (3, None, "An"), (12, None, "trigger date"),
]
# The same of the data of WEST.
FAULTY_DATA = [
    (1, "0,0,100,10,10,0", "n"), (3, "4,1000,0,30,40,0", "n"), (3, "x,1000,0,30,40,0", "n"), (3, "3,x,0,30,40,0", "timestamp"),
    (3, "3,500,0,30,40,0", "timestamp"), (3, "3,-5,0,30,40,0", "timestamp"), (3, "3,1000,0,3O,40,0", "A2 IB"), (3, "3,1000,0,30,40,2", "D1 TRIP"),
    (3, "3,1000,0,30,40", "D1 TRIP"), (3, "3,1000,0,30,40,0,0", "D1 TRIP"), (3, "", "timestamp"), (7, None, "n"), (7, "7,9000,80,70,-40,0", "timestamp"),
]


def changed(lines, number, text):
    return lines[: number - 1] + ([] if text is None else [text] + lines[number:])


def refused(it):
    it.put("east", EAST, east_data())
    for number, text, field in FAULTY_LINES:
        it.put("west", changed(WEST, number, text), WEST_DATA)
        output, said, status = it.rows(*BOTH)
        yield "line %d as %r" % (number, text), (output, said[0].split(": ")[:3], status), ([], ["comtrade", "west.cfg:%d" % number, field], 3)
    it.put("west", WEST + ["0,0"], WEST_DATA)
    yield "a line too many", it.rows(*BOTH)[1][0].split(": ")[1:3], ["west.cfg:15", "end"]
    for number, text, field in FAULTY_DATA:
        it.put("west", WEST, changed(WEST_DATA, number, text))
        output, said, status = it.rows(*BOTH)
        yield "data line %d as %r" % (number, text), (output, said[0].split(": ")[:3], status), ([], ["comtrade", "west.dat:%d" % number, field], 3)
    it.put("west", WEST, WEST_DATA + ["8,5500,0,0,0,0"])
    yield "a sample too many", it.rows(*BOTH)[1][0].split(": ")[1:3], ["west.dat:8", "n"]
    os.remove(it.folder + "/west.dat")
    yield "no data", it.rows(*BOTH)[1][0].split(": ")[1:3], ["west.cfg:-", "data"]
    os.remove(it.folder + "/west.cfg")
    yield "no record", it.rows(*BOTH)[1:], (["comtrade: [Errno 2] No such file or directory: 'west.cfg'"], 2)


def refused_of_2013(it):
    it.put("west", WEST, WEST_DATA)
    for number, text, field in [(16, "+1h61,x", "time_code"), (16, "x,x", "time_code"), (16, "+1", "local_code"), (16, "+1,-5h3", "local_code"), (17, "G,0", "tmq_code"), (17, "0,4", "leapsec"), (17, None, "tmq_code"), (10, "1", "nrates"), (11, "50,5", "samp")]:
        it.put("east", changed(EAST, number, text), east_data())
        place = 11 if field == "nrates" else number
        field = "samp" if field == "nrates" else field
        yield "2013 line %d as %r" % (number, text), it.rows(*BOTH)[1][0].split(": ")[1:3], ["east.cfg:%d" % place, field]
    faulty = {"sample 6": (east_data()[:-1] + b"\0" * 4, "n"), "sample 2": (east_data()[:16] + east_data()[:16], "n"), "sample 4": (east_data(EAST_SAMPLES[:3]), "n")}
    for place, (data, field) in faulty.items():
        it.put("east", EAST, data)
        yield "data of two bytes refused at %s" % place, it.rows(*BOTH)[1][0].split(": ")[1:3], ["east.dat:%s" % place, field]
    it.put("east", EAST, east_data([EAST_SAMPLES[0], (0xFFFFFFFF, *EAST_SAMPLES[1][1:])] + EAST_SAMPLES[2:]))
    yield "a missing time stamp without a rate", it.rows(*BOTH)[1][0].split(": ")[1:3], ["east.dat:sample 2", "timestamp"]


def unusable(it):
    it.put("west", WEST, WEST_DATA)
    it.put("east", EAST, east_data())
    yield "a record slower than the sets", it.rows(*BOTH, "--spacing", "800")[1][0].split(": ")[1:3], ["west.cfg:10", "samp"]
    it.put("east", EAST, east_data([(0, 0, 0, 0, 0), (100, 0, 0, 0, 0), (300, 0, 0, 0, 0), (400, 0, 0, 0, 0), (500, 0, 0, 0, 0)]))
    yield "a record without a rate slower than the sets", it.rows(*BOTH)[1][0].split(": ")[1:3], ["east.cfg:11", "samp"]
    it.put("east", [line.replace("11:20:30", "10:20:30") for line in EAST], east_data())
    yield "no time in common", it.rows(*BOTH), ([], ["comtrade: the records have no time in common"], 3)
    yield "a channel that isn't there", it.rows(*BOTH[:5], "L1,L2,L9"), ([], ["comtrade: east.cfg: no analog channel is named 'L9'; there are L1, L2, L3"], 3)
    it.put("east", [line.replace("L2", "L1") for line in EAST], east_data())
    yield "a name of two channels", it.rows(*BOTH[:5], "L1,2,3"), ([], ["comtrade: east.cfg: 2 channels are named 'L1': tell one by its number"], 3)
    yield "one station", it.rows(*BOTH[:3]), ([], ["comtrade: two or three stations are wanted"], 3)
    yield "two channels", it.rows(*BOTH[:5], "1,2"), ([], ["comtrade: east.cfg: three channels are wanted, and not 2"], 3)
    yield "a fourth station", it.rows(*BOTH, "--first", "3"), ([], ["comtrade: there is no station 3"], 3)


# Two stations over 5000 ticks, with one alarm, one estimate and one set of each kind.
SCENARIO = """set,stations,2
set,channels,5
set,end,5000
hold,0,1,1000,-32768,0
hold,2000,1,32766,5,-7
wave,3000,2,100,0,200,5,300,10
"""
REPORT = """alarm,0,1,2,Unlocked,on
alarm,3000,1,2,Unlocked,off
est,2500,2,1,8401,7750,40000000001,4002620000
set,1500,1,1,WOT
set,3500,1,3,RRR
est,3500,2,1,8403,7750,3,-
total,1,1,2,1,0,0,0,0,0
total,2,0,0,0,0,0,0,0,0
forged,1
end,5000
"""


def written(it):
    with open(it.folder + "/scenario.csv", "w") as file:
        file.write(SCENARIO)
    for revision in "1999", "2013":
        for encoding in "ASCII", "BINARY":
            done = it.call("write", "scenario.csv", "run.cfg", "--revision", revision, "--encoding", encoding, "--start", "2024-02-29T23:59:59.5", given=REPORT)
            yield "a run as %s of %s" % (encoding, revision), done, ("", "", 0)
            yield from of_run(it, "%s of %s" % (encoding, revision))
            with open(it.folder + "/run.cfg", newline="") as file:
                lines = file.read().split("\r\n")
            yield "the configuration's lines, %s of %s" % (encoding, revision), (lines[0], lines[1], lines[36:40]), ("linediff,bench," + revision, "34,12A,22D", ["50", "1", "1000,5", "29/02/2024,23:59:59.500000"])
            yield "the trigger is the first trip, %s of %s" % (encoding, revision), lines[40:43], ["29/02/2024,23:59:59.501500", encoding, "1"]
    it.call("write", "scenario.csv", "run.cfg", "--ampere", "0.5", "--ratio", "500:5", "--secondary", given=REPORT)
    told = it.call("values", "run.cfg")[0].splitlines()
    yield "currents of the secondary side", told[2].split(",")[:3], ["1000", "5", "-163.84"]
    told = it.rows("--station", "run.cfg", "S1 IA,S1 IB,S1 IC", "--station", "run.cfg", "S2 IA,S2 IB,S2 IC", "--scale", "0.5")[0]
    yield "and back to the converter's counts", told[1:4], ["1,1000,-32768,0,0,0,0", "2,32766,5,-7,0,0,0", "3,32766,5,-7,58,-161,-176"]
    yield "a report of another run", it.call("write", "scenario.csv", "run.cfg", given=REPORT.replace("end,5000", "end,6000"))[2], 3


def of_run(it, which):
    """The values of a run at ticks 0, 1000, .. 4000. A wave at tick 3000 is 3 steps of 20 on: C[3], C[8] and C[13] of the table."""
    rows = [row.split(",") for row in it.call("values", "run.cfg")[0].splitlines()]
    columns = {name: [row[at] for row in rows[1:]] for at, name in enumerate(rows[0])}
    wanted = {
        "us": ["0", "1000", "2000", "3000", "4000"],
        "S1 IA": ["1000", "1000", "32766", "32766", "32766"], "S1 IB": ["-32768", "-32768", "5", "5", "5"], "S1 IC": ["0", "0", "-7", "-7", "-7"],
        "S2 IA": ["0", "0", "0", "58", "30"], "S2 IB": ["0", "0", "0", "-161", "-190"], "S2 IC": ["0", "0", "0", "-176", "-92"],
        "S2 offset of S1": ["", "", "", "4200.5", "4201.5"], "S1 offset of S2": [""] * 5, "S2 bound of S1": ["", "", "", "2001.31", ""],
        "S1 A outside": ["0"] * 5, "S1 B outside": ["0", "0", "1", "1", "0"], "S1 B trip": ["0"] * 5, "S1 C outside": ["0", "0", "1", "1", "0"], "S1 C trip": ["0", "0", "1", "1", "0"],
        "S1 Unlocked of S2": ["1", "1", "1", "0", "0"], "S2 Unlocked of S1": ["0"] * 5,
    }
    yield "the channels, %s" % which, {name: columns.get(name) for name in wanted}, wanted
    error = [float(text) if text else None for text in columns["S2 error of S1"]]
    near = error[:3] == [None] * 3 and abs(error[3] - 20000.0000005) < 0.5 and abs(error[4]) < 0.5
    yield "an error of a wide range to half a step of its scale, %s" % which, (near, error), (True, error)


def example():
    """The records of examples/records, to judge in one pipe. Their fault begins with set 100, on phase a."""
    records = os.path.join(EXAMPLES, "records")
    words = [word for name in ("west.cfg", "east.cfg") for word in ("--station", os.path.join(records, name), "IA,IB,IC")]
    made = subprocess.run([os.path.join(ROOT, "tools", "comtrade"), "rows", *words], capture_output=True)
    yield "the example's rows", (made.stderr.count(b"# "), made.returncode), (2, 0)
    # East begins 7.3 ms later, so the first set is 8. A cycle of sets later it restrains. Four sets outside are a trip, and
    # a cycle behind the fault no set of the load is left in the sum, so the fourth set after that trips at the latest.
    letters = dict(line.split(",") for line in run(["judge", "4"], made.stdout)[0].decode().splitlines())
    numbers = [int(number) for number in letters]
    first = next((number for number in numbers if letters[str(number)][0] == "T"), None)
    yield "its sets", (numbers[0], numbers), (8, list(range(8, numbers[-1] + 1)))
    yield "load waits and restrains", [letters[str(number)] for number in range(8, 100)], ["WWW"] * 19 + ["RRR"] * 73
    yield "phase a trips behind the fault", first is not None and 103 <= first <= 123, True
    yield "the other phases never do", {text[1:] for text in letters.values()}, {"WW", "RR"}


def cases():
    for part in read_rightly, other_encodings, three_stations, refused, refused_of_2013, unusable, written:
        with tempfile.TemporaryDirectory() as folder:
            yield from part(Records(folder))
    yield from example()
    told = " ".join(call("comtrade", "rows", "--help")[0].split())
    yield "--help says how it is resampled", ("linearly between the samples" in told, "slowly than the sets is refused" in told), (True, True)
