"""Runs the cases of vectors/: each case's words over its input, and compares output, standard error and status.

In these files `=` stands before the name of a case, `$` before its words, as a shell reads them, `<` before a line of input, `x`
before bytes of it in hexadecimal, `>` before a line of the wanted output, and `!` before the wanted status, where it isn't 0, with
what is said then; `usage` is the line that names the commands. Inputs too long to be written out are made here.
"""
import os
import shlex

from answers import ROOT, USAGE, run, the_program

FOLDER = os.path.join(ROOT, "tests", "vectors")


def complaint(words):
    return USAGE if words == "usage" else words.encode() + b"\n"


def read(path):
    """The cases of a file: name, words, input, and the wanted output, complaint and status."""
    with open(path, encoding="ascii") as file:
        for block in file.read().split("\n= ")[1:]:
            name, *lines = block.split("\n")
            words, given, output, end = [], b"", b"", (b"", 0)
            for mark, text in ((line[:1], line[2:]) for line in lines if line):
                if mark == "$":
                    words = shlex.split(text)
                elif mark == "<":
                    given += text.encode() + b"\n"
                elif mark == "x":
                    given += bytes.fromhex(text)
                elif mark == ">":
                    output += text.encode() + b"\n"
                elif mark == "!":
                    status, said = text.split(" ", 1)
                    end = (complaint(said), int(status))
                else:
                    raise ValueError("%s: %s: no mark: %s" % (path, name, mark))
            yield name, words, given, (output, *end)


def long_inputs():
    """Rows and fields of any length, and a text of several writes."""
    for count in (8, 100, 101, 128, 1000, 70_000):
        told = run(["judge", "4"], b"1,0,0,0,0,0,0\n2" + b",0" * (count - 1))
        yield "a row of %d fields" % count, told, (b"bad,2,2\n", b"bad input\n", 3)
        told = run(["judge", "4"], b"1,0,0,0,0,0,0\n2,0,0,0,0,0," + b"1000" * count)
        yield "a field of %d digits" % (4 * count), told, (b"bad,2,3\n", b"bad input\n", 3)
    rows = b"".join(b"%d,0,0,0,0,0,0\n" % number for number in range(1000, 2000))
    wanted = b"".join(b"%d,%s\n" % (number, b"WWW" if number < 1019 else b"RRR") for number in range(1000, 2000))
    yield "a text of three pieces", run(["judge", "4"], rows), (wanted, b"", 0)


def cases():
    # The program itself: to words that are no command the launcher adds a line of its own.
    program = the_program()
    for name in sorted(os.listdir(FOLDER)):
        for case, words, given, wanted in read(os.path.join(FOLDER, name)):
            yield "%s: %s" % (name, case), run(words, given, program=program), wanted
    yield from long_inputs()
