"""Runs linediff as a user would, and looks at what it writes, what it says on standard error and how it ends."""
import os
import resource
import subprocess
import sys
import tempfile

ROOT = os.path.dirname(os.path.dirname(os.path.abspath(__file__)))
LINEDIFF = os.path.join(ROOT, "linediff")
# The one line that the program itself says of words that are no command.
USAGE = b"usage: linediff judge COUNT | frames N | bench | gen NUMBER TICKS | record STATION\n"
LARGEST = 16_777_216
EXAMPLES = os.path.join(ROOT, "examples")
sys.path.insert(0, EXAMPLES)
import line


def bytes_of(*path):
    with open(os.path.join(ROOT, *path), "rb") as file:
        return file.read()


def run(words, given=b"", stdin=None, stdout=None, close=None, memory=None, program=LINEDIFF, environment=None):
    """The output, the line on standard error and the status of a run. `close` is a descriptor that is closed before."""

    def prepare():
        if close is not None:
            os.close(close)
        if memory is not None:
            resource.setrlimit(resource.RLIMIT_AS, (memory, memory))

    with tempfile.TemporaryFile() as source, tempfile.TemporaryFile() as sink:
        source.write(given)
        source.seek(0)
        streams = {"stdin": stdin or source, "stdout": stdout or sink, "stderr": subprocess.PIPE}
        done = subprocess.run([program] + words, preexec_fn=prepare, env=environment, **streams)
        sink.seek(0)
        return sink.read(), done.stderr, done.returncode


def the_program():
    """Where the program itself stands, which the launcher runs."""
    return subprocess.run([LINEDIFF, "--program"], stdout=subprocess.PIPE, check=True, text=True).stdout.strip()


def words_that_are_no_command(program, good):
    """Cases for the launcher, which refuses by itself what the program refuses, and never anything else."""
    yield "no words, to the program itself", run([], good, program=program), (b"", USAGE, 2)
    faulty = [["judge"], ["judge", "04"], ["judge", ""], ["judge", "0"], ["judge", "33"], ["judge", "+2"], ["judge", " 2"]]
    faulty += [["judge", "2", "2"], ["judge", "2", ""], ["", "judge", "2"], ["judge", "", "2"], ["JUDGE", "2"], ["Judge", "2"], ["judge", "2\n"]]
    faulty += [["help", "judg"], [""], ["frame", "5"], ["frames"], ["frames", "0"], ["frames", "13"], ["frames", "05"], ["frames", "5", "5"], ["bench", "5"], ["bench", ""], ["Bench"], ["gen"], ["gen", "1"], ["gen", "1", "999"], ["gen", "01", "1000"], [b"judge", b"\xff"], ["judge", "99999999999999999999"]]
    for words in faulty:
        yield "the words %r, to the program itself" % words, run(words, good, program=program), (b"", USAGE, 2)
        output, said, status = run(words, good)
        yield "the words %r" % words, (output, said[:len(USAGE)], status), (b"", USAGE, 2)


def rows():
    """Cases for rows at the ends of what is allowed. Sets without current wait for a full cycle and then restrain."""
    yield "the largest and least values", run(["judge", "32"], b"4294967295,-32768,32767,0,32767,-32768,0\n"), (b"4294967295,WWW\n", b"", 0)
    yield "numbers of 18 digits", run(["judge", "32"], b"%018d,%018d,-%018d,0,0,0,0\n" % (7, 5, 5)), (b"7,WWW\n", b"", 0)
    numbers = range(999_990, 1_000_020)
    wanted = b"".join(b"%d,%s\n" % (number, b"WWW" if at < 19 else b"RRR") for at, number in enumerate(numbers))
    yield "numbers of six and seven digits", run(["judge", "1"], b"".join(b"%d,0,0,0,0,0,0\n" % number for number in numbers)), (wanted, b"", 0)
    bad = {b"1,0,0,0,0,0" + b",0" * 200: 2, b"1" * 19 + b",0,0,0,0,0,0": 3, b"4294967296,0,0,0,0,0,0": 4, b"1,0,0,-32769,0,0,0": 4, b"0,0,0,0,0,0,0\n0,0,0,0,0,0,0": 8}
    for row, rule in bad.items():
        yield "a row that breaks rule %d" % rule, run(["judge", "2"], row + b"\n"), (b"bad,%d,%d\n" % (row.count(b"\n") + 1, rule), b"bad input\n", 3)


def ends(good, verdicts):
    """Cases for inputs and outputs that are bad, closed, full or large."""
    yield "verdicts", run(["judge", "2"], good), (verdicts, b"", 0)
    yield "an empty input", run(["judge", "4"]), (b"", b"", 0)
    yield "a bad row", run(["judge", "2"], b"1,0,0,0,0,0,0\n2\n"), (b"bad,2,2\n", b"bad input\n", 3)
    yield "bytes that are no text", run(["judge", "2"], b"\xff,0,0,0,0,0,0\n"), (b"bad,1,3\n", b"bad input\n", 3)
    folder = os.open("/", os.O_RDONLY)
    yield "a folder as input", run(["judge", "2"], stdin=folder), (b"", b"read fault\n", 4)
    os.close(folder)
    with open("/dev/full", "wb") as full:
        yield "a full output", run(["judge", "2"], good, stdout=full), (b"", b"write fault\n", 5)
        yield "a bad row and a full output", run(["judge", "2"], b"1\n", stdout=full), (b"", b"bad input\n", 3)
        yield "no text for a full output", run(["judge", "2"], stdout=full), (b"", b"", 0)
    yield "a closed input", run(["judge", "2"], close=0), (b"", b"read fault\n", 4)
    yield "a closed output", run(["judge", "2"], good, close=1), (b"", b"write fault\n", 5)
    yield "a closed standard error", run(["judge"], good, close=2), (b"", b"", 2)
    yield "the largest input", run(["judge", "2"], b"\n" * LARGEST), (b"", b"", 0)
    yield "a larger input", run(["judge", "2"], b"\n" * (LARGEST + 1)), (b"", b"input too large\n", 7)
    yield "little memory", run(["judge", "2"], b"\n" * LARGEST, memory=12_000_000), (b"", b"no memory\n", 6)


def examples():
    """Cases for what examples/README.md says of each input, counted in lines whose letters have been told there."""

    def letters(name, count, phase):
        output, said, status = run(["judge", str(count)], bytes_of("examples", name))
        rows = [line.split(",") for line in output.decode().splitlines()]
        return {int(number): told[phase] for number, told in rows}, said, status

    told, said, status = letters("load.csv", 4, 0)
    yield "load restrains", ("".join(told.values()), said, status), ("W" * 19 + "R" * (len(told) - 19), b"", 0)
    told, said, status = letters("gap.csv", 4, 1)
    tripped = [at for at in told if told[at] == "T" and told.get(at - 1) != "T"]
    waiting = [at for at in told if told[at] == "W" and at > 23]
    yield "a gap", (tripped, waiting[0], 25 in told, said, status), ([23, 48], 26, False, b"", 0)
    output, said, status = run(["frames", "5"], bytes_of("examples", "line.bin"))
    told = [line for line in output.decode().splitlines() if not line.startswith("frame,")]
    wanted = ["lock,280", "message,2824,1,2,1000,1000000,-,-,1000,-1000,0", "bad,3848,pair,82", "refused,6920,2"]
    wanted += ["bad,7432,header", "bad,7688,header", "bad,7944,header", "lost,7944", "lock,8216"]
    wanted += ["message,10760,1,2,1003,1003000,992000,997000,1003,-1003,0", "end,10760,locked"]
    yield "a line of bits", (told, output.count(b"frame,"), said, status), (wanted, 36, b"", 0)
    with tempfile.TemporaryDirectory() as folder:
        made = os.path.join(folder, "line.bin")
        subprocess.run([os.path.join(EXAMPLES, "line.py"), made], check=True)
        yield "line.py makes line.bin", bytes_of(made), bytes_of("examples", "line.bin")


def line_ends():
    """Cases for `frames` at the ends of its input and output."""
    yield "an empty line", run(["frames", "5"]), (b"end,0,hunting\n", b"", 0)
    yield "zeros", run(["frames", "12"], b"\0" * 1000), (b"end,8000,hunting\n", b"", 0)
    yield "the longest line", run(["frames", "5"], b"\0" * LARGEST), (b"end,134217728,hunting\n", b"", 0)
    yield "a longer line", run(["frames", "5"], b"\0" * (LARGEST + 1)), (b"", b"input too large\n", 7)
    # A message from 1 to 2, number 1, sent 1000, phases 1, -1 and 0, in three frames of twelve channels behind an idle one.
    sent = bytes.fromhex("d5941200000000010000000003e8" + "00" * 12 + "0001ffff0000575efd63")
    told = b"lock,272\nframe,512,0,d59412000000000100000000\nframe,768,0,03e800000000000000000000\nframe,1024,0,00000001ffff0000575efd63\n"
    told += b"message,1024,1,2,1,1000,-,-,1,-1,0\nend,1024,locked\n"
    payloads = [b"\xff" * 12, sent[:12], sent[12:24], sent[24:]]
    yield "a message in three frames", run(["frames", "12"], b"".join(line.frame(line.WORDS[at % 2], 0, payload) for at, payload in enumerate(payloads))), (told, b"", 0)
    with open("/dev/full", "wb") as full:
        yield "a line and a full output", run(["frames", "5"], stdout=full), (b"", b"write fault\n", 5)


def cases():
    program = the_program()
    good, verdicts = bytes_of("crates", "linediff", "stdin"), bytes_of("crates", "linediff", "stdout")
    yield from words_that_are_no_command(program, good)
    yield from rows()
    yield from ends(good, verdicts)
    yield from line_ends()
    yield from examples()
