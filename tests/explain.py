"""Holds `tools/explain` to the program: breaks every rule in every record, and looks at what is named and what the program says."""
import os
import random
import subprocess
import sys

import documents
from answers import ROOT, run, the_program

sys.path.insert(0, os.path.join(ROOT, "tools"))
from linediff_tools import judge_rules, scenario_rules
from linediff_tools.records import FAILURES, RECORDS, SCRIPT, columns_of
from linediff_tools.report import refusal_of
from linediff_tools.rules import span_of
from linediff_tools.settings import SETTINGS

EXPLAIN = os.path.join(ROOT, "tools", "explain")
HEAD = ["set,stations,2", "set,channels,5", "set,drift,20", "set,end,200000"]
# A good row of each record, which can stand behind HEAD.
GOOD = {
    "clock": "clock,1,4200",
    "rate": "rate,100,1,5",
    "hold": "hold,100,1,1,2,3",
    "wave": "wave,100,1,1000,0,1000,13,1000,7",
    "delay": "delay,100,1,2,3000",
    "lose": "lose,100,200,1,2",
    "flip": "flip,100,200,1,2,5",
    "repeat": "repeat,100,200,1,2,5",
    "cut": "cut,100,200,1,2,5",
    "slip": "slip,100,200,1,2,5",
    "failsend": "failsend,100,200,1,2",
    "failtake": "failtake,100,200,1,2",
}
NO_NUMBERS = ["", "+1", " 1", "1 ", "1.5", "-", "--1", "1" * 19, "1e3", "\u0663", "x"]
DRIFT = 20


def with_field(row, place, text):
    """A row with another text in a field, counted from 1."""
    fields = row.split(",")
    fields[place - 1] = text
    return ",".join(fields)


def columns(name):
    """Each number of a record with its field, counted from 1."""
    return enumerate(columns_of(name, DRIFT), 2)


def broken_fields():
    """Cases of one row behind HEAD: a name, the row, and the rule and the field that it breaks."""
    for name, row in GOOD.items():
        yield "%s without its last field" % name, row.rpartition(",")[0], 2, None
        yield "%s with a field more" % name, row + ",1", 2, None
        yield "%s alone" % name, name, 2, None
        yield "%s in other letters" % name, row.capitalize(), 1, 1
        yield "%s behind a space" % name, " " + row, 1, 1
        for place, column in columns(name):
            for text in NO_NUMBERS:
                yield "%s with %r as its %s" % (name, text, column.name), with_field(row, place, text), 3, place
            for number in (column.values[0] - 1, column.values[-1] + 1, 10**17):
                yield "%s with %d as its %s" % (name, number, column.name), with_field(row, place, str(number)), 4, place
        for place, column in columns(name):
            if column.name in ("station", "sender", "receiver"):
                yield "%s of %s 3 of 2" % (name, column.name), with_field(row, place, "3"), 7, place
        if name in SCRIPT:
            place = next(place for place, column in columns(name) if column.name == "receiver")
            yield "%s from a station to itself" % name, with_field(row, place, "1"), 7, place
        if name in SCRIPT and name != "delay":
            yield "%s that ends before it begins" % name, with_field(row, 3, "99"), 8, 3
    for name in FAILURES:
        yield "%s of 1001 ticks" % name, with_field(GOOD[name], 3, "1101"), 4, 3
    for row in ("", '""', "x", "sets,count,4", "#x,1", "SET,count,4", " set,count,4"):
        if row:
            yield "the row %s" % row, row, 1, 1


def broken_rows():
    """Cases of rows behind HEAD, the last of which breaks a rule: a name, the rows, and the rule and the field that it breaks."""
    yield "a second clock", ["clock,1,0", "clock,2,0", "clock,1,5"], 8, 2
    for name in ("rate", "hold", "wave", "delay"):
        yield "%s below another" % name, [GOOD[name], with_field(GOOD[name], 2, "99")], 8, 2
    yield "hold below a wave", [GOOD["wave"], with_field(GOOD["hold"], 2, "99")], 8, 2
    other = with_field(GOOD["hold"], 3, "2")
    yield "wave below a hold that isn't the last", [GOOD["hold"], other, with_field(GOOD["wave"], 2, "0")], 8, 2
    yield "the 17th rate", [GOOD["rate"]] * 17, 4, None
    yield "the 1001st record of the script", [GOOD["lose"], GOOD["delay"]] * 500 + [GOOD["flip"]], 4, None
    yield "the 5th repeat", [GOOD["repeat"]] * 5, 4, None
    for key, setting in SETTINGS.items():
        rule, field = (5, 2) if key in " ".join(HEAD) else (6, 1)
        yield "%s too late" % key, [GOOD["clock"], "set,%s,%d" % (key, setting.values[0])], rule, field
        yield "%s too late and out of range" % key, [GOOD["clock"], "set,%s,%d" % (key, setting.values[-1] + 1)], 4, 3
    yield "an unknown key too late", [GOOD["clock"], "set,colour,7"], 5, 2


def broken_settings():
    """Cases of a `set` behind HEAD: a name, the row, and the rule and the field that it breaks."""
    for key, setting in SETTINGS.items():
        for number in (setting.values[0] - 1, setting.values[-1] + 1, -(10**17)):
            yield "%s of %d" % (key, number), "set,%s,%d" % (key, number), 4, 3
        for text in NO_NUMBERS:
            yield "%s of %r" % (key, text), "set,%s,%s" % (key, text), 3, 3
        yield "%s with a unit" % key, "set,%s,1,ticks" % key, 2, None
    for number in (5, 7, 15, 18):
        yield "a cycle of %d" % number, "set,cycle,%d" % number, 4, 3
    for key in ("stations", "channels", "drift", "end"):
        yield "%s twice" % key, "set,%s,%d" % (key, SETTINGS[key].values[0]), 5, 2
    for key in ("", "colour", "Count", "count ", "chanels"):
        yield "the key %r" % key, "set,%s,5" % key, 5, 2
        yield "the key %r without a number" % key, "set,%s,five" % key, 3, 3
    yield "set alone", "set", 2, None


def unfit_settings():
    """Cases of settings that are refused as a whole: a name, the rows, and words that are told of them."""
    for key in ("stations", "channels", "end"):
        rows = [row for row in HEAD if ",%s," % key not in row]
        yield "no %s" % key, rows, key + " isn't set"
    yield "no rows", [], "stations and channels and end aren't set"
    yield "too few channels", ["set,stations,2", "set,channels,4", "set,end,9"], "the channel carries a message in 1125 ticks and the spacing is 1000"
    yield "one channel", ["set,stations,2", "set,channels,1", "set,end,9", "set,spacing,4499"], "in 4500 ticks and the spacing is 4499"
    yield "a limit that is too long", HEAD + ["set,limit,48001"], "limit is 48001 ticks, and may be at most 48 spacings, which are 48000 ticks"
    yield "alike words", HEAD + ["set,worda,223"], "worda and wordb are both 223"
    yield "radii the wrong way", HEAD + ["set,rd,7"], "rd is 7 and rn is 6"
    yield "all of these", HEAD[:1] + HEAD[2:] + ["set,channels,4", "set,limit,48001", "set,worda,223", "set,rd,7"], "rd is 7 and rn is 6"


def good_rows():
    """Cases of rows behind HEAD that break no rule: the ends of each range."""
    for name, row in GOOD.items():
        for place, column in columns(name):
            for number in (column.values[0], column.values[-1]):
                changed = with_field(row, place, str(number))
                if column.name == "to" or column.name == "from" and name in SCRIPT:
                    changed = with_field(with_field(row, 2, str(number)), 3, str(number)) if name != "delay" else changed
                if column.name not in ("station", "sender", "receiver"):
                    yield "%s with %d as its %s" % (name, number, column.name), [changed]
    yield "16 rates of each station", [GOOD["rate"]] * 16 + [GOOD["rate"].replace(",1,", ",2,", 1)] * 16
    yield "1000 records of the script", [GOOD["lose"]] * 1000
    yield "4 repeats", [GOOD["repeat"]] * 4
    yield "a failure of 1000 ticks beyond its first", ["failsend,100,1100,1,2"]
    yield "remarks", ["#", "#,1", GOOD["clock"], "#,x", '#,"a,b"']


def good_settings():
    """Cases of settings that fit, one of them at an end of its range."""
    beside = {("channels", 1): {"spacing": 4500}, ("limit", 480_000): {"spacing": 10_000}}
    beside |= {("rd", 10_000): {"rn": 10_000}, ("spacing", 500): {"channels": 9}}
    for key, setting in SETTINGS.items():
        for number in (setting.values[0], setting.values[-1]):
            given = {"stations": 2, "channels": 5, "end": 200_000} | beside.get((key, number), {}) | {key: number}
            yield "%s of %d" % (key, number), ["set,%s,%d" % item for item in given.items()]


class Program:
    """The program's answers."""

    def __init__(self):
        self.path = the_program()

    def answer(self, words, data):
        """The row and the rule for which an input is refused, None where it is accepted, and else what came."""
        output, said, status = run(words, data, program=self.path)
        if status == 3:
            return refusal_of(output.decode())
        return None if status == 0 else (output, said, status)


def bytes_of(rows):
    return "".join(row + "\n" for row in rows).encode()


def found_in(broken):
    return (broken.answer, broken.field) if broken else (None, None)


def single_rules(program):
    """Each rule broken alone: what is found is what the program says, in the field that was broken."""
    listed = [(name, HEAD + [row], rule, field) for name, row, rule, field in [*broken_fields(), *broken_settings()]]
    listed += [(name, HEAD + rows, rule, field) for name, rows, rule, field in broken_rows()]
    for name, rows, rule, field in listed:
        data = bytes_of(rows)
        answer = program.answer(["bench"], data)
        yield name, (found_in(scenario_rules.first_broken(data)), answer), (((len(rows), rule), field), (len(rows), rule))
    for name, rows, words in unfit_settings():
        for behind in [], [GOOD["clock"]], ["nothing"]:
            data = bytes_of(rows + behind)
            broken = scenario_rules.first_broken(data)
            told = (broken.answer, words in broken.why, program.answer(["bench"], data))
            yield "%s, before %s" % (name, behind), told, ((0, 9), True, (0, 9))
    for name, rows in [*((name, HEAD + rows) for name, rows in good_rows()), *good_settings()]:
        data = bytes_of(rows)
        yield name, (found_in(scenario_rules.first_broken(data)), program.answer(["bench"], data)), ((None, None), None)


def mixtures(program):
    """Scenarios with several rows that break a rule, in any order, and here and there ends of lines that aren't usual."""
    draw = random.Random(1)
    bad = [row for _, row, _, _ in broken_fields()] + [row for _, row, _, _ in broken_settings()]
    good = [*GOOD.values(), "#,remark", "set,count,5", "set,pickup,600", "", '#,"two\nlines"']
    for turn in range(400):
        rows = [row for row in HEAD if draw.random() < 0.97] + draw.choices(good, k=6) + draw.choices(bad, k=draw.randrange(3))
        if draw.random() < 0.5:
            draw.shuffle(rows)
        data = draw.choice(["", "\ufeff"]).encode() + "".join(row + draw.choice(["\n", "\r\n", "\r", "\n\n"]) for row in rows).encode()
        if draw.random() < 0.1:
            data = data.rstrip() + draw.choice([b'\n#,"', b'"', b'\n"set",count,"5"\n'])
        broken = scenario_rules.first_broken(data)
        yield "mixture %d" % turn, broken.answer if broken else None, program.answer(["bench"], data)


def misprints(program):
    """Scenarios with bytes put in or left out anywhere, as what quotes, ends of lines and characters of other scripts make of rows."""
    draw = random.Random(2)
    pieces = [b'"', b'""', b",", b"\n", b"\r", b"\r\n", b"-", b"0", b" ", b"\0", b"\xff", b"\xef\xbb\xbf", b"\xc2\xb2", b"\x0b", b"\x85", b"#,"]
    good = bytes_of(HEAD + [*GOOD.values(), '#,"a,b"'])
    for turn in range(400):
        data = bytearray(good)
        for _ in range(draw.randrange(1, 4)):
            at = draw.randrange(len(data))
            data[at : at + draw.randrange(3)] = draw.choice(pieces) if draw.random() < 0.8 else b""
        broken = scenario_rules.first_broken(bytes(data))
        yield "misprint %d" % turn, broken.answer if broken else None, program.answer(["bench"], bytes(data))


def sets(program):
    """Rows of `judge` that break each rule."""
    good = "5,1,2,3,-4,-5,-6"
    broken = [("no set", "x", 2, None), ("six fields", "5,1,2,3,4,5", 2, None), ("eight fields", good + ",7", 2, None)]
    for place in range(1, 8):
        broken += [("%r in field %d" % (text, place), with_field(good, place, text), 3, place) for text in NO_NUMBERS]
        beyond = (-1, 4_294_967_296) if place == 1 else (-32_769, 32_768)
        broken += [("%d in field %d" % (number, place), with_field(good, place, str(number)), 4, place) for number in beyond]
    broken += [("the number before", "3,0,0,0,0,0,0", 8, 1), ("a number below", "2,0,0,0,0,0,0", 8, 1)]
    for name, row, rule, field in broken:
        data = bytes_of(["1,0,0,0,0,0,0", "", "3,0,0,0,0,0,0", row])
        broken = judge_rules.first_broken(data)
        told = (found_in(broken), broken.row.line, program.answer(["judge", "4"], data))
        yield "judge: " + name, told, (((3, rule), field), 4, (3, rule))


def explain(words, data):
    done = subprocess.run([EXPLAIN, *words], input=data, stdout=subprocess.PIPE, stderr=subprocess.PIPE)
    return done.stdout.decode().splitlines(), done.returncode


def texts():
    """What is printed, at a few inputs."""
    late = bytes_of(HEAD + ["", "#,\"a", "b\"", "clock,1,0", "rate,0,1,21"])
    wanted = ["bad,7,4: row 7 is refused by rule 4, Range"]
    wanted += ["line 9, row 7, field 4: the rate is 21: it may be from -20 to 20, by the setting drift.", "    rate,0,1,21"]
    yield "a rate above the drift", explain(["bench"], late), (wanted, 3)
    yield "without the program", explain(["bench", "--said", "bad,7,4"], late), (wanted, 3)
    contradictions = {
        "another answer": ("bad,7,5", late, "bad,7,5: row 7 is refused by rule 5, Key", "field 4: the rate is 21"),
        "a good answer": ("good", late, "accepted", "field 4: the rate is 21"),
        "a bad answer": ("bad,1,1", bytes_of(HEAD), "bad,1,1: row 1 is refused by rule 1, Kind", "no rule broken"),
    }
    for name, (answer, data, first, words) in contradictions.items():
        told, status = explain(["bench", "--said", answer], data)
        yield name + " of the program", (told[0], "can't explain" in told[1], words in told[1], status), (first, True, True, 4)
    wanted = ["bad,0,9: the settings are refused by rule 9, Settings", "the channel carries a message in 1125 ticks and the spacing is 1000."]
    yield "a message that takes too long", explain(["bench"], b"set,stations,2\nset,channels,4\nset,end,9\n"), (wanted, 3)
    wanted = ["bad,2,8: row 2 is refused by rule 8, Order"]
    wanted += ["line 2, row 2, field 1: the number of the set is 4: it has to be above that of the row before, on line 1, which is 4."]
    yield "a set twice", explain(["judge"], b"4,0,0,0,0,0,0\n4,0,0,0,0,0,0\n"), (wanted + ["    4,0,0,0,0,0,0"], 3)
    yield "no command", explain(["frames"], b"")[1], 2
    yield "no answer", explain(["bench", "--said", "bad"], b"")[1], 2
    yield "no file", explain(["bench", "/no/such/file"], b"")[1], 2


def warnings():
    """What is accepted and told as hardly meant: some rows behind HEAD with both stations fed, and words of the warning."""
    fed = HEAD + ["wave,0,1,1000,0,1000,13,1000,7", "wave,0,2,1000,10,1000,3,1000,17"]
    yield "nothing to warn of", explain(["bench"], bytes_of(fed + ["lose,126,250,1,2", "failtake,1,2,1,2"])), (["accepted"], 0)
    listed = {
        "an open quote": (['#,"remark', "lose,0,0,1,2"], ["line 7", "quote opens"]),
        "a quote over two lines": (['#,"remark', 'lose,0,0,1,2"'], ["line 7", "lines 7 to 8"]),
        "a shape after the end": (["hold,200000,1,1,1,1"], ["line 7", "begins at tick 200000"]),
        "a rule after the end": (["lose,200000,300000,1,2"], ["line 7", "begins at tick 200000"]),
        "a rule that covers no slot": (["flip,1,124,1,2,0"], ["line 7", "covers no frame"]),
        "a rule whose slot is after the end": (["cut,199876,200000,1,2,9"], ["line 7", "covers no frame"]),
        "a delay twice": (["delay,5,1,2,100", "delay,5,1,2,200"], ["line 7", "line 8"]),
        "a wave in the place of another": (["wave,0,1,0,0,0,0,0,0"], ["line 5", "line 7"]),
    }
    for name, (rows, words) in listed.items():
        told, status = explain(["bench"], bytes_of(fed + rows))
        found = [line for line in told if all(word in line for word in words)]
        yield name, (told[:1], len(found), status), (["accepted"], 1, 0)
    told, status = explain(["bench"], bytes_of(HEAD + ["hold,0,2,1,1,1"]))
    yield "a station without a wave", (told, status), (["accepted", "warning: station 1 has no wave and no hold: its currents are zero"], 0)
    told, _ = explain(["judge"], b'1,0,0,0,0,0,"0')
    yield "an open quote of judge", told, ["accepted", "warning: line 1: a quote opens that nothing closes: all behind it is one field"]


def tables():
    """The tables of the tools and those of FORMATS.md."""
    said = {row[0].strip("`"): (row[2], row[3]) for row in documents.rows("docs/FORMATS.md", "Settings")}
    for key, setting in SETTINGS.items():
        default = "none" if setting.default is None else str(setting.default)
        values = span_of(setting.values).removeprefix("from ")
        if key == "rd":
            values = "1 to `rn`"
        if key != "end":
            yield "FORMATS.md has what %s may be" % key, said.pop(key), (values, default)
    yield "FORMATS.md has no other settings", said, {}
    examples = {row[0].strip("`"): row[2].strip("`") for row in documents.rows("docs/FORMATS.md", "Scenario")}
    for name, fields in RECORDS.items():
        yield "the fields of %s in FORMATS.md" % name, examples[name].count(","), len(fields)


def distances(program):
    """Delays that are too long: the warning, and that the program then judges nothing."""
    listed = {
        "above the limit": ("20000", "60000", 39_256, ["20001 ticks old", "limit is 20000, and may be at most 48000"]),
        "above every limit": ("48000", "200000", 100_000, ["50373 ticks old", "limit is 48000, and no limit would do"]),
        "above slow": ("20000", "60000", 58_253, ["a round trip takes 60003 ticks, and slow is 60000"]),
    }
    for name, (limit, slow, delays, words) in listed.items():
        for there in (1, delays // 2, delays - 1):
            head = HEAD + ["set,limit," + limit, "set,slow," + slow, "clock,2,%d" % (there % 1000)]
            data = bytes_of(head + ["delay,0,1,2,%d" % there, "delay,0,2,1,%d" % (delays - there), "hold,0,1,1,1,1", "hold,0,2,1,1,1"])
            told, _ = explain(["bench"], data)
            yield "delays %s, %d there" % (name, there), [all(word in line for word in words) for line in told], [False, True]
            yield "a run with delays %s, %d there" % (name, there), b"\nset," in run(["bench"], data, program=program.path)[0], False


def cases():
    program = Program()
    yield "all records are broken", sorted(GOOD), sorted(RECORDS)
    yield from tables()
    yield from single_rules(program)
    yield from mixtures(program)
    yield from misprints(program)
    yield from sets(program)
    yield from texts()
    yield from warnings()
    yield from distances(program)
