"""Holds `tools/summary` to reports whose lines were counted by hand, and to what the program says of an example."""
import json
import os
import subprocess
import sys

from answers import EXAMPLES, ROOT, bytes_of, run

sys.path.insert(0, os.path.join(ROOT, "tools"))
from linediff_tools.faults import faults_of
from linediff_tools.scenario import read_scenario

SUMMARY = os.path.join(ROOT, "tools", "summary")
FAULT = os.path.join("examples", "scenarios", "internal_fault.csv")

# Station 1 skips the sets 7 and 8, and phases a and b trip with the sets 10 and 11; station 2 hears nothing.
REPORT = """alarm,0,1,2,Unlocked,on
alarm,0,1,2,Unaligned,on
alarm,0,2,1,Unlocked,on
alarm,3125,1,2,Unlocked,off
est,8750,1,2,8400,7750,1000000,2620000
set,8750,1,5,WWW
alarm,8750,1,2,Unaligned,off
est,9750,1,2,8403,7750,3000000,4000000
set,9750,1,6,RRW
alarm,10000,1,2,Unlocked,on
alarm,10125,1,2,Unlocked,off
set,12750,1,9,OOW
est,13750,1,2,8401,7750,2500000,-
set,13750,1,10,TOR
set,14750,1,11,TTR
alarm,15000,1,2,Silent,on
total,1,6,5,2,1,0,1,2,3
total,2,0,0,0,0,0,0,0,0
forged,1
end,20000
"""

HEAD = "set,stations,2\nset,channels,5\nset,end,20000\n"
# On phase a from tick 6000 on, on phase b from 2000 on but not from 4000 on, and again from 9000 on; the cycle is of 20000 ticks.
SCENARIO = HEAD + "set,spacing,1000\nwave,0,1,900,0,900,0,0,0\nwave,0,2,900,10,900,10,0,0\n"
SCENARIO += "wave,2000,1,900,0,900,2,0,0\nwave,4000,1,900,0,900,0,0,0\nwave,6000,1,900,3,900,0,0,0\nwave,9000,1,900,3,900,3,0,0\n"

NEVER = {"times": 0, "ticks": 0, "on_at_end": False}


def summary(*words, given=REPORT):
    done = subprocess.run([SUMMARY, *words], input=given.encode(), stdout=subprocess.PIPE, stderr=subprocess.PIPE)
    return done.stdout.decode(), done.stderr.decode(), done.returncode


def as_json():
    data = json.loads(summary("--json")[0])
    yield "the run", (data["end"], data["forged"], sorted(data["stations"]), "faults" in data), (20000, 1, ["1", "2"], False)
    one, two = data["stations"]["1"], data["stations"]["2"]
    wanted = {"a": {"tick": 13750, "set": 10, "after_fault": None}, "b": {"tick": 14750, "set": 11, "after_fault": None}, "c": None}
    yield "first trips", one["first_trips"], wanted
    yield "verdicts", one["verdicts"]["b"], {"waiting": 1, "restrain": 1, "outside": 2, "trip": 1}
    yield "gaps", (one["skipped"], one["gaps"]), (2, [{"first": 9750, "last": 12750, "skipped": 2}])
    yield "not judged", one["not_judged"], {"before_first_set": 8750, "in_gaps": 3000, "behind_last_set": 5250}
    yield "a station that judges nothing", two["not_judged"], {"before_first_set": 20000, "in_gaps": 0, "behind_last_set": 0}
    peer = one["peers"]["2"]
    told = [peer[key] for key in ("estimates", "without_bound", "beyond_bound", "greatest_error", "its_bound", "share_of_bound")]
    yield "estimates", told, [3, 1, 0, 1.5, 2.0, 0.75]
    alarms = {
        "Unlocked": {"times": 2, "ticks": 3250, "on_at_end": False},
        "Yellow": NEVER,
        "Silent": {"times": 1, "ticks": 5000, "on_at_end": True},
        "Unaligned": {"times": 1, "ticks": 8750, "on_at_end": False},
        "Fault": NEVER,
    }
    yield "alarms", peer["alarms"], alarms
    yield "an alarm that stays on", two["peers"]["1"]["alarms"]["Unlocked"], {"times": 1, "ticks": 20000, "on_at_end": True}
    wanted = {"accepted": 6, "sets": 5, "trips": 2, "refused": 1, "strange": 0, "repeats": 1, "slow": 2, "bad": 3}
    yield "totals", one["totals"], wanted
    beyond = json.loads(summary("--json", given=REPORT.replace("3000000,4000000", "3000000,2999999"))[0])
    yield "an error beyond its bound", beyond["stations"]["1"]["peers"]["2"]["beyond_bound"], 1


def as_text():
    text, said, status = summary()
    wanted = """A run of 20 ms. Station 1 trips.
FORGED: 1 message was accepted otherwise than sent.

station 1
  phase a     first trip at 13.75 ms (tick 13750) with set 10
              1 waiting, 1 restrain, 1 outside, 2 trip
  phase b     first trip at 14.75 ms (tick 14750) with set 11
              1 waiting, 1 restrain, 2 outside, 1 trip
  phase c     no trip
              3 waiting, 2 restrain
  not judged  8.75 ms before the first set, 3 ms in gaps, 5.25 ms behind the last set
              gap of 3 ms from 9.75 ms (tick 9750) on: 2 numbers skipped
  peer 2      3 estimates, the greatest error 1.5 ticks at 9.75 ms (tick 9750), 75.00 % of its bound of 2 ticks; 1 without a bound
              alarms on: Unlocked 3.25 ms (2 times), Silent 5 ms (still on at the end), Unaligned 8.75 ms
  in all      6 messages accepted, 5 sets judged, 2 sets with a trip
              1 place refused, no messages with another address, 1 message repeated, 2 slow exchanges, 3 bad frames

station 2
  phase a     no trip
  phase b     no trip
  phase c     no trip
  not judged  20 ms before the first set, 0 ms in gaps, 0 ms behind the last set
  peer 1      no estimates
              alarms on: Unlocked 20 ms (still on at the end)
  in all      no messages accepted, no sets judged, no sets with a trip
              no places refused, no messages with another address, no messages repeated, no slow exchanges, no bad frames
"""
    yield "the text", (text.splitlines(), said, status), (wanted.splitlines(), "", 0)
    text = summary("--station", "2")[0]
    yield "one station", (text.splitlines()[0], "station 1" in text), ("A run of 20 ms. No station trips.", False)


def expected():
    yield "a trip at each station", summary("--expect", "trip")[1:], ("summary: expected a trip at each station\n", 1)
    yield "a trip at a station", summary("--expect", "trip", "--station", "1")[1:], ("", 0)
    yield "no trip", summary("--expect", "none")[1:], ("summary: expected no trip\n", 1)
    yield "no trip at a station", summary("--expect", "none", "--station", "2")[1:], ("", 0)


def unreadable():
    yield "a refused input", summary(given="bad,13,4\n"), ("", "summary: the program refused the input: bad,13,4\n", 3)
    told = "summary: the report isn't whole: its last line isn't end,TICKS\n"
    yield "no report", summary(given=""), ("", told, 3)
    yield "a report without its end", summary(given=REPORT[:-10]), ("", told, 3)
    for line in ("est,1,1,2,3", "set,1,1,5", "alarm,0,1,2,Unlocked,maybe", "total,1", "colour,7", "est,a,1,2,3,4,5,6"):
        yield "the line %s" % line, summary(given=line + "\n" + REPORT), ("", "summary: line 1 is no line of a report: %s\n" % line, 3)
    yield "no file", summary("/no/such/file")[2], 2
    yield "no expectation", summary("--expect", "both")[2], 2


def faults():
    """The faults of scenarios, as phase, first tick and end."""

    def told(text):
        return [(fault.phase, fault.first, fault.end) for fault in faults_of(read_scenario(text.encode()))]

    yield "a fault that lasts, and one whose pause is short", told(SCENARIO), [(0, 6000, None), (1, 2000, None)]
    yield "currents that go through", told(HEAD + "wave,0,1,9000,3,0,0,0,0\nwave,0,2,9000,13,0,0,0,0\n"), []
    yield "what stays below the pickup", told(HEAD + "set,pickup,900\nwave,0,1,900,3,0,0,0,0\n"), []
    yield "what begins after the end", told(HEAD + "wave,20000,1,900,3,0,0,0,0\n"), []
    longer = HEAD.replace("20000", "90000") + "hold,10,1,0,0,600\nhold,50,1,0,0,0\nhold,40050,2,0,0,-600\nhold,60000,1,0,0,600\n"
    yield "two faults of held values", told(longer), [(2, 10, 50), (2, 40050, 60000)]


def whole():
    """An example: its fault begins at tick 100000."""
    report, _, _ = run(["bench"], bytes_of(FAULT))
    data = json.loads(summary("--scenario", os.path.join(ROOT, FAULT), "--json", given=report.decode())[0])
    yield "the example's fault", data["faults"], [{"phase": "a", "first": 100000, "end": None}]
    trips = [data["stations"][number]["first_trips"]["a"] for number in "12"]
    yield "the example's trips", trips, [{"tick": 107750, "set": 104, "after_fault": 7750}, {"tick": 107875, "set": 108, "after_fault": 7875}]
    told = [line for line in summary("--scenario", os.path.join(ROOT, FAULT), given=report.decode())[0].splitlines() if "after the fault" in line]
    yield "the example's trips in words", [line.split(", ")[-1] for line in told], ["7.75 ms after the fault", "7.875 ms after the fault"]
    totals = [line.split(",")[2:] for line in report.decode().splitlines() if line.startswith("total,")]
    yield "the example's totals", [[str(count) for count in data["stations"][number]["totals"].values()] for number in "12"], totals
    other = os.path.join(EXAMPLES, "scenarios", "three_terminals.csv")
    told = "summary: the report is none of this scenario: stations or end differ\n"
    yield "another scenario", summary("--scenario", other, given=report.decode()), ("", told, 3)
    yield "a scenario that is none", summary("--scenario", os.path.join(EXAMPLES, "README.md"))[2], 3


def cases():
    yield from as_json()
    yield from as_text()
    yield from expected()
    yield from unreadable()
    yield from faults()
    yield from whole()
