"""Runs tools/sweep: over the program itself, over reports that are written here, ended and gone on with, and with a planted violation."""
import base64
import csv
import importlib.util
import json
import os
import shutil
import signal
import subprocess
import sys
import tempfile
import time
import zlib

from answers import EXAMPLES, LINEDIFF, ROOT, the_program
import tool


def lacks():
    """What isn't there and every case needs."""
    packages = [] if shutil.which("parallel") else ["parallel"]
    packages += [] if importlib.util.find_spec("matplotlib") else ["python3-matplotlib"]
    return "packages that tools/install installs: %s" % ", ".join(packages) if packages else None


SWEEP = os.path.join(ROOT, "tools", "sweep")
TEMPLATE = os.path.join(EXAMPLES, "sweeps", "internal_fault.csv")


def put(folder, name, text, mode=0o644):
    path = os.path.join(folder, name)
    with open(path, "w") as file:
        file.write(text)
    os.chmod(path, mode)
    return path


def told_of(template, seed=1, count=1):
    """What is swept, as a folder tells it."""
    return json.dumps({"first": 0, "count": count, "part": 25, "template": template, "seed": seed, "ticks": None})


def swept(folder, template, seed=1, count=1):
    """A folder as `run` begins it, of which scenarios can be written."""
    put(folder, "sweep.json", told_of(template, seed, count))
    put(folder, "rows.csv", "number\n")
    return folder


def templates(folder):
    """What is drawn lies in its range, is the same again under its name, and goes by seed and number alone."""
    text = "set,stations,2\nclock,1,{start:5..7}\nhold,{start+10},1,{start},{-3..-2},{start-4}\n{0..2}*lose,{at:0..99},{at+1},1,2\n2*rate,1,1,0\n#,{not,drawn\n"
    swept(folder, text)
    drawn = [tool.call("sweep", "scenario", folder, str(number))[0].splitlines() for number in range(40)]
    starts = {lines[1] for lines in drawn}
    yield "a range is drawn to both ends", starts, {"clock,1,5", "clock,1,6", "clock,1,7"}
    holds = {(lines[1][-1], lines[2]) for lines in drawn}
    wanted = {(str(start), "hold,%d,1,%d,%d,%d" % (start + 10, start, b, start - 4)) for start in (5, 6, 7) for b in (-3, -2)}
    yield "a name is the same number again", holds, wanted
    repeats = [[line.split(",")[1:] for line in lines if line.startswith("lose")] for lines in drawn]
    yield "a row is repeated so many times", {len(rows) for rows in repeats}, {0, 1, 2}
    yield "each with a name of its own", ([rows for rows in repeats if len(rows) == 2 and rows[0] == rows[1]], all(int(to) == int(at) + 1 for rows in repeats for at, to, *_ in rows)), ([], True)
    yield "a count without a range, and a comment", {tuple(lines[-3:]) for lines in drawn}, {("rate,1,1,0", "rate,1,1,0", "#,{not,drawn")}
    yield "a number draws the same again", tool.call("sweep", "scenario", folder, "7")[0].splitlines(), drawn[7]
    swept(folder, text, seed=2)
    yield "another seed draws others", [tool.call("sweep", "scenario", folder, str(number))[0].splitlines() for number in range(40)] != drawn, True
    for row, field in ("clock,1,{7..5}", "{7..5}"), ("clock,1,{start}", "{start}"), ("clock,{a:1..2},{a:3..4}", "{a:3..4}"), ("clock,1,{1..x}", "{1..x}"), ("clock,1,1{1..2}", "1{1..2}"), ("{0..0}*clock,1,{x}", "{x}"):
        swept(folder, "set,stations,2\n" + row + "\n")
        output, said, status = tool.call("sweep", "scenario", folder, "0")
        yield "refused in a template: %s" % row, (output, said.startswith("sweep: line 2 of the template: %s is" % field), status), ("", True, 3)


# Two stations, spacing 1000, a cycle of 20 sets, 4 sets for a trip, a limit of 20000 ticks: a trip is due within 44000 ticks,
# and a set holds values of a fault up to 41000 ticks behind its end.
LINE = "set,stations,2\nset,channels,5\nset,end,200000\ndelay,0,1,2,3000\ndelay,0,2,1,4000\n"
LOAD = "wave,0,1,1000,0,1000,0,1000,0\nwave,0,2,1000,10,1000,10,1000,10\n"
FAULT = LOAD + "wave,100000,2,1000,0,1000,10,1000,10\n"
ENDED = FAULT + "wave,%d,2,1000,10,1000,10,1000,10\n"
TWO_PHASES = LOAD + "wave,50000,1,1000,0,9000,0,9000,0\n"
TOTALS = "total,1,0,40,3,0,0,0,0,0\ntotal,2,0,50,4,0,0,0,0,0\nforged,%d\nend,200000\n"
HEADER = "number,violation,stations,ticks,delay,sets,trips,faults,tripped,missed,short,false,times,share,Unlocked,Yellow,Silent,Unaligned,Fault,forged"

# A scenario, the lines of its report, and the columns faults, tripped, missed, short, false and times.
WORKED = {
    "no fault and no trip": (LOAD, [], "0,0,0,0,0,"),
    "a trip without a fault": (LOAD, ["set,90000,1,90,TRR"], "0,0,0,0,1,"),
    "two phases trip without a fault": (LOAD, ["set,90000,1,90,TRT"], "0,0,0,0,2,"),
    "a trip that goes on is one": (LOAD, ["set,90000,1,90,TRR", "set,91000,1,91,TRR", "set,92000,2,91,RRR", "set,92001,1,92,RRR", "set,93000,1,93,TRR"], "0,0,0,0,2,"),
    "both trip": (FAULT, ["set,103750,1,103,ORR", "set,107750,1,104,TRR", "set,107875,2,108,TRR"], "1,2,0,0,0,7750 7875"),
    "one misses": (FAULT, ["set,107750,1,104,TRR", "set,107875,2,108,ORR"], "1,1,1,0,0,7750"),
    "another phase trips": (FAULT, ["set,107750,1,104,RTR"], "1,0,2,0,1,"),
    "one trips before the fault": (FAULT, ["set,99999,1,99,TRR", "set,100999,1,100,TRR", "set,107875,2,108,TRR"], "1,2,0,0,1,7875"),
    "one tripped before the fault and no more": (FAULT, ["set,99998,1,99,TRR", "set,99999,1,100,RRR", "set,107875,2,108,TRR"], "1,1,1,0,1,7875"),
    "a fault that ends a tick before a trip is due": (ENDED % 143999, [], "1,0,0,2,0,"),
    "a fault that ends as a trip is due": (ENDED % 144000, [], "1,0,2,0,0,"),
    "a short fault that one trips on": (ENDED % 101000, ["set,107750,1,104,TRR"], "1,1,0,1,0,7750"),
    "a trip by the last set with values of a fault": (ENDED % 144000, ["set,184999,1,180,TRR"], "1,1,1,0,0,84999"),
    "a trip by the set behind": (ENDED % 144000, ["set,185000,1,180,TRR"], "1,0,2,0,1,"),
    "a fault of two phases of which one trips": (TWO_PHASES, ["set,60000,1,60,RTR", "set,60001,2,60,RRT", "set,61000,1,61,RTT"], "1,2,0,0,0,10000 10001"),
}


def outcomes(folder):
    """Rows of scenarios by reports that are written here."""
    program = put(folder, "program", '#!/bin/sh\ncat >/dev/null\nexec cat "%s/report"\n' % folder, 0o755)

    def row(shapes, lines, forged=0):
        os.environ["LINEDIFF_SWEEP"] = base64.b64encode(zlib.compress(told_of(LINE + shapes).encode())).decode()
        put(folder, "report", "".join(line + "\n" for line in lines) + TOTALS % forged)
        output, _, status = tool.call("sweep", "part", "0", "--program", program)
        return dict(zip(HEADER.split(","), next(csv.reader([output])))), status

    for name, (shapes, lines, wanted) in WORKED.items():
        told, status = row(shapes, lines)
        yield name, (",".join(told[column] for column in ("faults", "tripped", "missed", "short", "false", "times")), status), (wanted, 0)
    told, _ = row(LOAD, ["alarm,0,1,2,Silent,on", "alarm,9,1,2,Silent,off", "alarm,19,2,1,Silent,on", "alarm,20,1,2,Fault,on"], forged=3)
    yield "counts", ",".join(told[column] for column in ("stations", "ticks", "delay", "sets", "trips", "Silent", "Fault", "Yellow", "forged")), "2,200000,4000,90,7,2,1,0,3"
    told, status = row(LOAD, ["est,9,1,2,0,0,1,4,", "est,10,1,2,0,0,3,-"])
    yield "a line that is none", (told["violation"][:34], status), ("line 1 is no line of a report: est", 1)
    told, status = row(LOAD, ["est,9,1,2,0,0,1,4", "est,9,1,2,0,0,3,4", "est,10,1,2,0,0,9,-", "est,11,1,2,0,0,8,8"])
    yield "the greatest share, up to its bound", (told["share"], told["violation"], status), ("1.000000", "", 0)
    told, status = row(LOAD, ["est,9,1,2,0,0,9,8", "est,10,1,2,0,0,5,4"])
    yield "an error above its bound", (told["share"], told["violation"], status), ("1.250000", "error 9 above bound 8 at tick 9", 1)


def sums(folder):
    """A summary of rows that are written here: 200 scenarios with times from 1001 to 1200 ticks, in no order."""
    told = swept(folder, LINE + LOAD, count=200)
    order = [number * 77 % 200 for number in range(200)]
    rows = ["%d,,2,200000,3000,100,10,1,1,%d,1,%d,%d,0.%06d,1,0,2,0,0,0" % (number, number % 15 == 0, number == 9, 1001 + at, number) for at, number in enumerate(order)]
    put(told, "rows.csv", "\n".join([HEADER] + rows) + "\n")
    wanted = ["200 of 200 scenarios, numbers 0 to 199, from a template, seed 1", "sets: 20000 judged, 2000 with a trip"]
    wanted += ["faults: 200; at their terminals 200 tripped, 14 missed, 200 too short to be due", "false trips: 1"]
    wanted += ["from fault to trip: least 1.001 ms, median 1.1 ms, 99 % 1.198 ms, greatest 1.2 ms", "error in bound: at most 0.02 % (number 199)"]
    wanted += ["alarms: Unlocked 200, Yellow 0, Silent 400, Unaligned 0, Fault 0", "forged messages: 0"]
    wanted += ["missed trips in the numbers 0, 15, 30, 45, 60, 75, 90, 105, 120, 135 and 4 more", "false trips in the numbers 9"]
    output, said, status = tool.call("sweep", "summary", told)
    yield "a summary", (output.splitlines(), said, status), (wanted, "", 0)
    put(told, "rows.csv", "\n".join([HEADER] + rows[:150] + ["150,x"]) + "\n")
    yield "a row that is none", tool.call("sweep", "summary", told)[2], 3
    put(told, "rows.csv", "\n".join([HEADER] + rows[:150]) + "\n")
    yield "a sweep that isn't whole", tool.call("sweep", "summary", told)[1:], ("sweep: 50 of 200 scenarios weren't run; the same call goes on\n", 3)
    yield "a folder without a sweep", tool.call("sweep", "summary", os.path.join(folder, "none"))[2], 3


def picture(folder):
    """What a picture of three scenarios shows: one tripped by both terminals, one missed, one without a fault that trips falsely."""
    told = swept(folder, "clock,1,{there:0..9}\nclock,2,{back:0..9}\n", count=3)
    rows = ["0,,2,200000,3000,100,10,1,2,0,0,0,7000 8000,0.5,0,0,0,0,0,0,5,2", "1,,2,200000,4000,100,0,1,0,2,0,0,,0.25,0,0,0,0,0,0,9,1"]
    rows += ["2,,2,200000,6000,100,9,0,0,0,0,2,,1.0,0,0,0,0,0,0,4,9"]
    put(told, "rows.csv", "\n".join([HEADER + ",{there},{back}"] + rows) + "\n")
    sys.path.insert(0, os.path.join(ROOT, "tools"))
    from linediff_tools.sweeps.picture import draw
    from linediff_tools.sweeps.sweep import Folder

    def points(axis, label):
        return next((list(zip(*line.get_data())) for line in axis.lines if line.get_label() == label), None)

    times, shares, false = draw(*Folder(told).read()).axes
    yield "times in milliseconds over the delay", points(times, "trip"), [(3, 7), (3, 8)]
    yield "a missed trip above them", [(x, y > 8) for x, y in points(times, "missed")], [(4, True)]
    yield "shares in per cent", points(shares, "share"), [(3, 50), (4, 25), (6, 100)]
    yield "false trips", points(false, "false"), [(6, 2)]
    yield "over the difference of two names", points(draw(*Folder(told).read(), "there-back").axes[1], "share"), [(3, 50), (8, 25), (-5, 100)]
    for ending, begins in (".png", b"\x89PNG"), (".svg", b"<?xml"):
        written = os.path.join(folder, "picture" + ending)
        done = tool.call("picture", "sweep", told, written)
        with open(written, "rb") as file:
            yield "a picture as %s" % ending, (done, file.read(len(begins))), (("", "", 0), begins)
    yield "over what isn't there", tool.call("picture", "sweep", told, written, "--over", "nothing")[2], 3


def call(*words, program=None):
    done = subprocess.run([SWEEP, *words] + (["--program", program] if program else []), capture_output=True, text=True)
    return done.stdout.splitlines(), done.stderr, done.returncode


def rows_of(folder):
    with open(os.path.join(folder, "rows.csv")) as file:
        return file.read().splitlines()


def a_hundred(folder):
    """A hundred scenarios of the example, whole; then ended by a signal and gone on with, by a program that is slower."""
    whole, words = os.path.join(folder, "whole"), ["--template", TEMPLATE, "--count", "100", "--part", "5"]
    output, said, status = call("run", whole, *words)
    rows = rows_of(whole)
    yield "a hundred scenarios", (output[0], said, status), ("100 of 100 scenarios, numbers 0 to 99, from a template, seed 1", "", 0)
    yield "a row each, in their order", [row.split(",")[0] for row in rows], ["number"] + [str(number) for number in range(100)]
    told = list(csv.DictReader(rows))
    yield "each has one fault at two terminals", {(row["faults"], int(row["tripped"]) + int(row["missed"]) + int(row["short"])) for row in told}, {("1", 2)}
    yield "no false trip, and no error above its bound", ({row["false"] for row in told}, max(float(row["share"]) for row in told) <= 1), ({"0"}, True)
    yield "what was drawn stands beside it", {row["delay"] == row["{delay}"] for row in told}, {True}

    calls, ended = os.path.join(folder, "calls"), os.path.join(folder, "ended")
    slower = put(folder, "slower", '#!/bin/sh\necho call >>"%s"\nsleep 0.1\nexec "%s" "$@"\n' % (calls, the_program()), 0o755)
    started = subprocess.Popen([SWEEP, "run", ended, *words, "--program", slower], stderr=subprocess.PIPE, stdout=subprocess.PIPE, text=True)
    while started.poll() is None and (not os.path.exists(os.path.join(ended, "rows.csv")) or len(rows_of(ended)) < 6):
        time.sleep(0.01)
    yield "a second call beside it", call("run", ended, *words)[1:], ("sweep: another call runs the sweep in %s\n" % ended, 3)
    started.send_signal(signal.SIGTERM)
    output, said = started.communicate()
    before = len(rows_of(ended)) - 1
    yield "it ends by a signal", (output, said, started.returncode), ("", "sweep: ended by a signal, with %d of 100 scenarios run. The same call goes on.\n" % before, 130)
    yield "some were run, in whole parts, and some weren't", (0 < before < 100, before % 5), (True, 0)
    os.remove(calls)
    yield "the same call goes on", call("run", ended, *words, program=slower)[2], 0
    with open(calls) as file:
        yield "and runs what wasn't run", len(file.readlines()), 100 - before
    yield "to the same rows", rows_of(ended), rows
    yield "another sweep in its folder", call("run", ended, "--template", TEMPLATE, "--count", "99")[2], 3


def planted(folder):
    """A program that writes an error above its bound, or ends with another status, for the scenario of number 63."""
    words = ["--template", TEMPLATE, "--count", "100", "--part", "5"]
    sound = os.path.join(folder, "sound")
    call("run", sound, "--template", TEMPLATE, "--count", "1")
    scenario = subprocess.run([SWEEP, "scenario", sound, "63"], capture_output=True).stdout
    clock = next(row for row in scenario.decode().splitlines() if row.startswith("clock,2,"))
    violations = {
        "exec awk -F , -v OFS=, '$1 == \"est\" && $2 > 100000 && !done { $7 = $8 + 1; done = 1 } 1'": "error ",
        "cat >/dev/null; echo no memory >&2; exit 6": "status 6: no memory",
    }
    for at, (wrong, said) in enumerate(violations.items()):
        text = '#!/bin/bash\ngiven="$(cat)"\nif grep -qx "%s" <<<"$given"; then\n "%s" "$@" <<<"$given" | (%s)\nelse\n exec "%s" "$@" <<<"$given"\nfi\n'
        program = put(folder, "program%d" % at, text % (clock, the_program(), wrong, the_program()), 0o755)
        there = os.path.join(folder, "planted%d" % at)
        output, told, status = call("run", there, *words, program=program)
        lines = [line for line in told.splitlines() if line.startswith("sweep: ")]
        wanted = "sweep: it is made again by tools/sweep scenario %s 63" % there
        yield "a planted violation, %s" % said, (lines[0].startswith("sweep: number 63: " + said), lines[1:], status), (True, [wanted], 1)
        again = subprocess.run([SWEEP, "scenario", there, "63"], capture_output=True).stdout
        yield "its scenario is made again, %s" % said, again, scenario
        yield "the sweep goes on where the program is mended, %s" % said, (call("run", there, *words)[2], len(rows_of(there))), (0, 101)


# In the place of ssh: runs what a host is told on this machine, without the environment.
SSH = """#!/bin/bash
echo "$1" >>"%s/hosts-called"
shift 2
exec env -i SHELL=/bin/sh HOME="$HOME" PATH=/usr/bin:/bin sh -c "$*"
"""


def over_hosts(folder):
    """Jobs on hosts write the rows that jobs here write."""
    ssh = put(folder, "ssh", SSH % folder, 0o755)
    hosts = put(folder, "hosts", "1/%s one\n2/%s two\n" % (ssh, ssh))
    words = ["--template", TEMPLATE, "--count", "24", "--part", "2"]
    yield "over hosts", call("run", os.path.join(folder, "there"), *words, "--hosts", hosts, program=the_program())[2], 0
    call("run", os.path.join(folder, "here"), *words)
    yield "the same rows", rows_of(os.path.join(folder, "there")), rows_of(os.path.join(folder, "here"))
    with open(os.path.join(folder, "hosts-called")) as file:
        yield "each host was called", set(file.read().split()), {"one", "two"}


# In the place of a program that has gen: of number 7 it tells sums that aren't those of the run, and number 8 it can't make.
WITH_GEN = """#!/bin/sh
case "$1" in
gen)
    [ "$2" -ne 8 ] || { echo "no memory" >&2; exit 6; }
    cat "%s/scenario"
    if [ "$2" -eq 7 ]; then echo "#,0,90,7,4"; else echo "#,0,90,7,3"; fi ;;
bench) cat >/dev/null; cat "%s/report" ;;
*) echo "usage: linediff judge COUNT | frames N | bench | gen NUMBER TICKS" >&2; exit 2 ;;
esac
"""


def generated(folder):
    """Scenarios of gen: of a program that stands in for one that has it, of the program itself, and of one that has no gen."""
    put(folder, "scenario", LINE + LOAD)
    put(folder, "report", TOTALS % 3)
    program = put(folder, "program", WITH_GEN % (folder, folder), 0o755)

    def of_gen(name, first, program=None):
        return call("run", os.path.join(folder, name), "--gen", "20000", "--count", "2", "--first", str(first), program=program)

    output, said, status = of_gen("good", 5, program)
    yield "scenarios of gen", (output[0], said, status), ("2 of 2 scenarios, numbers 5 to 6, from gen, 20000 ticks each", "", 0)
    for name, first, number, wrong in ("sums", 6, 7, "gen tells the sums 0,90,7,4, and bench 0,90,7,3"), ("status", 8, 8, "gen 8 20000 ended with status 6: no memory"):
        output, said, status = of_gen(name, first, program)
        yield "gen with other %s" % name, ("sweep: number %d: %s\n" % (number, wrong) in said, status), (True, 1)
    output, said, status = of_gen("own", 5)
    yield "the program's own gen", (output[0], said, status), ("2 of 2 scenarios, numbers 5 to 6, from gen, 20000 ticks each", "", 0)
    made = subprocess.run([LINEDIFF, "gen", "6", "20000"], capture_output=True, text=True).stdout.splitlines()
    yield "each again by its number", call("scenario", os.path.join(folder, "own"), "6")[0], made
    usage = "usage: linediff judge COUNT | frames N | bench"
    older = put(folder, "older", '#!/bin/sh\necho "%s" >&2\nexit 2\n' % usage, 0o755)
    wanted = "sweep: this program has no command gen, so its scenarios can't be had by number; it says: %s\n" % usage
    yield "a program without gen is refused", of_gen("refused", 5, older), ([], wanted, 3)



def cases():
    for part in templates, outcomes, sums, picture, a_hundred, planted, over_hosts, generated:
        with tempfile.TemporaryDirectory() as folder:
            yield from part(folder)
