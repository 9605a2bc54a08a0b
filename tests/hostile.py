"""Disturbs each command: every allocation, read and write of a run fails in turn, or moves one byte, and ends break.

What a disturbed run answers has its name, nothing is written where nothing may be, and what goes on gives the same text.
Needs cc, for the library that disturbs.
"""
import os
import resource
import signal
import subprocess
import tempfile

from answers import ROOT, run, the_program
from commands import commands, names

NO_MEMORY, READ_FAULT, WRITE_FAULT = (b"no memory\n", 6), (b"read fault\n", 4), (b"write fault\n", 5)
KINDS = ["REFUSE", "FAIL_READ", "SHORT_READ", "FAIL_WRITE", "SHORT_WRITE"]


def built(folder):
    library = os.path.join(folder, "disturb.so")
    subprocess.run(["cc", "-shared", "-fPIC", "-o", library, os.path.join(ROOT, "tests", "disturb.c"), "-ldl"], check=True)
    return library


def is_named(kind, told, text):
    """Whether a disturbed run answers what it may: by its name, with nothing or a front of the text, or with the whole text."""
    output, said, status = told
    if (said, status) == (b"", 0):
        return output == text and kind in ("REFUSE", "SHORT_READ", "SHORT_WRITE")
    if kind == "REFUSE":
        return (said, status) == NO_MEMORY and output == b""
    if kind == "FAIL_READ":
        return (said, status) == READ_FAULT and output == b""
    return kind == "FAIL_WRITE" and (said, status) == WRITE_FAULT and text.startswith(output) and output != text


def disturbed(library, program, folder, words, given):
    """A case for each kind of disturbance: the calls that were answered otherwise than they may, and how many were disturbed."""
    note = os.path.join(folder, "note")
    text, said, status = run(words, given, program=program, environment=dict(os.environ, LD_PRELOAD=library, NOTE=note))
    with open(note, encoding="ascii") as file:
        allocations, reads, writes = map(int, file.read().split())
    yield "undisturbed", (said, status, allocations > 0, reads > 0, writes > 0), (b"", 0, True, words[0] != "gen", True)
    for kind, count in zip(KINDS, (allocations, reads, reads, writes, writes)):
        wrong = []
        for at in range(1, count + 1):
            told = run(words, given, program=program, environment=dict(os.environ, LD_PRELOAD=library, **{kind: str(at)}))
            wrong += [] if is_named(kind, told, text) else [(at, told[1:])]
        print("hostile: %s: %s: %d calls disturbed" % (words[0], kind, count), flush=True)
        yield kind, wrong, []


def broken_ends(program, words, given):
    """A reader that leaves, a full file, a limit of memory, a signal in the middle."""
    text = run(words, given, program=program)[0]
    source, sink = os.pipe(), os.pipe()
    os.close(sink[0])
    os.close(source[1])
    os.close(source[0])
    with tempfile.TemporaryFile() as file:
        file.write(given)
        file.seek(0)
        done = subprocess.run([program] + words, stdin=file, stdout=sink[1], stderr=subprocess.PIPE, preexec_fn=lambda: signal.signal(signal.SIGPIPE, signal.SIG_IGN))
    os.close(sink[1])
    yield "a reader that has left", (done.stderr, done.returncode), WRITE_FAULT
    with open("/dev/full", "wb") as full:
        yield "a full disk", run(words, given, stdout=full, program=program), (b"", *WRITE_FAULT)
    most = len(text) // 2

    def limit():
        resource.setrlimit(resource.RLIMIT_FSIZE, (most, most))
        signal.signal(signal.SIGXFSZ, signal.SIG_IGN)

    with tempfile.TemporaryFile() as file, tempfile.TemporaryFile() as output:
        file.write(given)
        file.seek(0)
        done = subprocess.run([program] + words, stdin=file, stdout=output, stderr=subprocess.PIPE, preexec_fn=limit)
        output.seek(0)
        yield "a file that may not grow", (output.read(), done.stderr, done.returncode), (text[:most], *WRITE_FAULT)
    if words[0] != "gen":
        waiting = subprocess.Popen([program] + words, stdin=subprocess.PIPE, stdout=subprocess.PIPE, stderr=subprocess.PIPE)
        waiting.stdin.write(given[:len(given) // 2])
        waiting.stdin.flush()
        waiting.terminate()
        output, said = waiting.communicate()
        yield "a signal in the middle", (output, said, waiting.returncode), (b"", b"", -signal.SIGTERM)


def cases():
    program = the_program()
    standing = list(commands())
    yield "each command of the usage line is disturbed", [name for name, _, _ in standing], names()
    with tempfile.TemporaryDirectory() as folder:
        library = built(folder)
        for name, words, given in standing:
            for case, got, wanted in disturbed(library, program, folder, words, given):
                yield "%s: %s" % (name, case), got, wanted
            for case, got, wanted in broken_ends(program, words, given):
                yield "%s: %s" % (name, case), got, wanted
