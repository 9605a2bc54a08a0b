"""Tries the launcher in fresh clones of this repository's last commit with rt itself. It takes some minutes."""
import os
import re
import subprocess
import tempfile
import time

ROOT = os.path.dirname(os.path.dirname(os.path.dirname(os.path.abspath(__file__))))
MAIN, SETTINGS = "crates/linediff/src/main.rt", "crates/ld_base/src/settings.rt"
DONE = re.compile(r"linediff: the program is proved and built, after \d+ (s|min)$")


def bytes_of(*path):
    with open(os.path.join(ROOT, *path), "rb") as file:
        return file.read()


VERDICTS = bytes_of("crates", "linediff", "stdout")


class Clone:
    def __init__(self, room, name):
        self.top = os.path.join(room, name)
        subprocess.run(["git", "clone", "-q", ROOT, self.top], check=True)

    def git(self, *words):
        subprocess.run(["git", "-C", self.top, "-c", "user.name=tests", "-c", "user.email=tests@localhost", *words], check=True)

    def change(self, name, old, new):
        path = os.path.join(self.top, name)
        with open(path) as file:
            text = file.read()
        with open(path, "w") as file:
            file.write(text.replace(old, new, 1))

    def start(self, program, *words):
        with open(os.path.join(self.top, "examples", "step.csv"), "rb") as rows:
            return subprocess.Popen([os.path.join(self.top, program), *words], stdin=rows, stdout=subprocess.PIPE, stderr=subprocess.PIPE)

    def end(self, started):
        output, said = started.communicate()
        return output, said.decode(), started.returncode

    def judge(self):
        """The output, what is said and the status of a call, whose seconds are printed."""
        start = time.monotonic()
        told = self.end(self.start("linediff", "judge", "2"))
        print("judge took %.1f s" % (time.monotonic() - start), flush=True)
        return told


def calls(clone):
    start = time.monotonic()
    told = clone.end(clone.start("linediff", "--help"))
    yield "--help answers at once", (told[1:], time.monotonic() - start < 2), (("", 0), True)
    output, said, status = clone.judge()
    yield "the first call answers", (output, status), (VERDICTS, 0)
    print(said, end="", flush=True)
    lines = said.splitlines()
    yield "it tells what it does", ("once" in lines[0], bool(DONE.fullmatch(lines[-1]))), (True, True)
    yield "the second says nothing", clone.judge(), (VERDICTS, "", 0)
    subprocess.run("find . -name .git -prune -o -type f -exec touch {} +", shell=True, cwd=clone.top, check=True)
    yield "touched sources", clone.judge(), (VERDICTS, "", 0)
    clone.change(MAIN, "fn main(", "// A remark.\nfn main(")
    clone.git("commit", "-q", "-a", "-m", "Change")
    yield "a changed source", clone.judge()[::2], (VERDICTS, 0)
    clone.git("checkout", "-q", "HEAD~1")
    yield "an older commit", clone.judge(), (VERDICTS, "", 0)
    clone.git("checkout", "-q", "-")
    yield "and back", clone.judge(), (VERDICTS, "", 0)
    clone.change(SETTINGS, "fields.limit > most", "fields.limit >= most")
    output, said, status = clone.judge()
    print(said, end="", flush=True)
    yield "a source that isn't proved", (output, status, "ld_base could not be proved" in said, SETTINGS[15:] + ":" in said), (b"", 125, True, True)
    clone.git("checkout", "-q", SETTINGS)
    yield "once it is put right", clone.judge(), (VERDICTS, "", 0)


def beside_the_gate(clone):
    gate = clone.start(".ci/run")
    while not os.path.exists(os.path.join(clone.top, "crates", "ld_base", "out")):
        time.sleep(0.1)
    output, said, status = clone.judge()
    yield "a call beside the gate waits for it", (output, status, said.count("\n")), (VERDICTS, 0, 1)
    output, said, status = clone.end(gate)
    yield "the gate passes", (status, said, output.decode().splitlines()[-1].endswith(" passed, 0 failed")), (0, "", True)
    gate = clone.start(".ci/run")
    ended = []
    while gate.poll() is None and len(ended) < 20:
        ended.append(clone.judge())
        time.sleep(0.2)
    yield "a program that stands runs beside the gate", ended, [(VERDICTS, "", 0)] * len(ended)
    yield "which passes again", clone.end(gate)[2], 0


def cases():
    with tempfile.TemporaryDirectory() as room:
        yield from calls(Clone(room, "calls"))
        yield from beside_the_gate(Clone(room, "gate"))
