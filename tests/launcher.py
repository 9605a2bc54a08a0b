"""Tries the launcher in small repositories of its own, with a stand-in for rt, so that nothing is proved."""
import glob
import os
import pty
import re
import shutil
import signal
import subprocess
import tempfile
import time

ROOT = os.path.dirname(os.path.dirname(os.path.abspath(__file__)))
CRATES = "base:\nmiddle: base arrayvec\nother: base\nbeside: base\nlinediff: middle other # the program\n"
# What rt is asked for from nothing; `middle`, of the longer text, before `other`.
CALLS = ["base lib", "middle lib", "other lib", "linediff run -- judge 1"]
USAGE = "usage: linediff judge COUNT | frames N | bench | gen NUMBER TICKS | record STATION\n"
NOT_RUN = 125
# (where git itself runs the gate, it names its own repository)
ENVIRONMENT = {name: value for name, value in os.environ.items() if not name.startswith("GIT_")}


def tools_without_rt(folder):
    """A folder with each command of PATH but rt."""
    os.mkdir(folder)
    for place in os.environ["PATH"].split(os.pathsep):
        for name in os.listdir(place) if os.path.isdir(place) else ():
            if name != "rt" and not os.path.lexists(os.path.join(folder, name)):
                os.symlink(os.path.join(place, name), os.path.join(folder, name))
    return folder


class Repository:
    """A repository of four crates and one beside them, with the launcher, the gate, and stand-ins for rt and nproc."""

    def __init__(self, room):
        self.top, self.notes, self.bin = (os.path.join(room, it) for it in ("top", "notes", "bin"))
        for name in ("base", "middle", "other", "beside", "linediff"):
            self.write("crates/%s/src/%s.rt" % (name, "main" if name == "linediff" else "lib"), name + "\n")
        self.write("crates.txt", CRATES)
        self.write("HANDLES", "Handles allowed: none.\n")
        self.write(".gitignore", "out/\n")
        for name, says in (("tools/install", "echo installs"), ("tests/run", "echo tests\n./linediff judge 2")):
            self.write(name, "#!/bin/sh\n%s\n" % says)
            os.chmod(os.path.join(self.top, name), 0o755)
        for name in ("linediff", ".ci/run", "launcher/build"):
            os.makedirs(os.path.dirname(os.path.join(self.top, name)), exist_ok=True)
            shutil.copy(os.path.join(ROOT, name), os.path.join(self.top, name))
        os.mkdir(self.notes)
        os.mkdir(self.bin)
        self.change("launcher/build", "proof_memory=4000000", "proof_memory=1")
        self.change("launcher/build", "progress_seconds=30", "progress_seconds=1")
        shutil.copy(os.path.join(ROOT, "tests", "stand-in-rt"), os.path.join(self.bin, "rt"))
        self.command("nproc", 'echo "${PROCESSORS:-1}"')
        self.path = self.bin + os.pathsep + os.environ["PATH"]
        self.git("init", "-q")
        self.commit()

    def write(self, name, text):
        path = os.path.join(self.top, name)
        os.makedirs(os.path.dirname(path), exist_ok=True)
        with open(path, "w") as file:
            file.write(text)

    def change(self, name, old, new):
        with open(os.path.join(self.top, name)) as file:
            text = file.read()
        assert old in text, (name, old)
        self.write(name, text.replace(old, new, 1))

    def command(self, name, text):
        """Puts a command of a test's own in front of those on PATH."""
        with open(os.path.join(self.bin, name), "w") as file:
            file.write("#!/bin/sh\n%s\n" % text)
        os.chmod(file.name, 0o755)

    def git(self, *words):
        whole = ["git", "-C", self.top, "-c", "user.name=tests", "-c", "user.email=tests@localhost", *words]
        return subprocess.run(whole, stdout=subprocess.PIPE, env=ENVIRONMENT, check=True, text=True).stdout.strip()

    def commit(self):
        self.git("add", "-A")
        self.git("commit", "-q", "-m", "Change")

    def start(self, *words, program=None, cwd=None, path=None, given="", streams={}, **hooks):
        # A shell that started this may have had interrupts ignored, which the launcher couldn't undo.
        signals = lambda: signal.signal(signal.SIGINT, signal.SIG_DFL)
        environment = dict(ENVIRONMENT, PATH=path or self.path, NOTES=self.notes, **hooks)
        program = program or os.path.join(self.top, "linediff")
        with tempfile.TemporaryFile("w+") as source:
            source.write(given)
            source.seek(0)
            streams = {"stdin": source, "stdout": subprocess.PIPE, "stderr": subprocess.PIPE, "text": True, **streams}
            return subprocess.Popen([program, *words], cwd=cwd or "/", env=environment, preexec_fn=signals, **streams)

    def end(self, started):
        output, said = started.communicate(timeout=60)
        return output, said, started.returncode

    def call(self, *words, **how):
        return self.end(self.start(*words, **how))

    def calls(self):
        """What rt was asked for since this was last asked."""
        path = os.path.join(self.notes, "calls")
        if not os.path.exists(path):
            return []
        with open(path) as file:
            found = [re.sub(r" --jobs \d+$", "", line) for line in file.read().splitlines()]
        os.remove(path)
        return found

    def wait_for_call(self):
        """Waits until rt was asked for something, at most ten seconds."""
        for _ in range(1000):
            if os.path.exists(os.path.join(self.notes, "pid")):
                return
            time.sleep(0.01)

    def kept(self):
        return sorted(re.sub("-.*", "", name) for name in os.listdir(os.path.join(self.top, "out")) if name != "lock")


def answer(base="base", words="judge 2"):
    """What the program says that was built from this text, and how it ends."""
    return "linediff\n%s: %s\n" % (base, words), "", 3


def first_call(it):
    output, said, status = it.call("judge", "2", given="input\n")
    lines = said.splitlines()
    yield "the first call hands its input to the program", (output, status), (answer()[0] + "input\n", 3)
    yield "it proves what the program stands on", it.calls(), CALLS
    yield "it says first what happens and how long it takes", [word in lines[0] for word in ("once", "minutes")], [True, True]
    yield "it says at last that it is done", bool(re.fullmatch(r"linediff: the program is proved and built, after \d+ s", lines[-1])), True
    yield "it keeps the program with its kit and no log", it.kept(), ["kit", "linediff"]
    yield "the second call only runs it", (it.call("judge", "2"), it.calls()), (answer(), [])
    yield "a number reaches the program as it is", it.call("judge", "18446744073709551616"), answer(words="judge 18446744073709551616")
    yield "--program says where it stands", it.call("--program")[0], glob.glob(it.top + "/out/linediff-*")[0] + "\n"


def side_by_side(it):
    both = 'case $name in middle | other) touch $NOTES/at-$name; for _ in $(seq 100); do [ $(ls $NOTES | grep -c at-) = 2 ] && break; sleep 0.05; done; [ $(ls $NOTES | grep -c at-) = 2 ] || exit 1; esac'
    yield "two crates that don't stand on each other are proved at once", it.call("judge", "2", PROCESSORS="4", BEFORE=both)[::2], answer()[::2]
    it.write("crates/base/src/lib.rt", "second\n")
    alone = 'mkdir $NOTES/alone || exit 1; sleep 0.2'
    yield "on one processor they aren't", it.call("judge", "2", BEFORE=alone, AFTER="rmdir $NOTES/alone")[::2], answer("second")[::2]
    it.write("crates/base/src/lib.rt", "third\n")
    it.calls()
    it.change("launcher/build", "proof_memory=1", "proof_memory=999999999999")
    yield "nor where memory is short", it.call("judge", "2", PROCESSORS="4", BEFORE=alone, AFTER="rmdir $NOTES/alone")[::2], answer("third")[::2]
    below = '[ "$name" = base ] || [ "$1" = version ] || [ -d ../base/out/rlib ] || exit 1; [ "$name" != middle ] || grep -q middle out/incremental/calls || exit 1'
    it.write("crates/base/src/lib.rt", "fourth\n")
    yield "each finds what was built below it, and what was kept of it", it.call("judge", "2", BEFORE=below)[::2], answer("fourth")[::2]
    kept = sorted(os.path.relpath(name, it.top) for name in glob.glob(it.top + "/crates/*/out/*"))
    wanted = ["crates/%s/out/%s" % (name, part) for name in ("base", "middle", "other") for part in ("incremental", "rlib")]
    yield "what rt kept stands in the crates", kept, wanted


def progress(it):
    slow = '[ "$name" != middle ] || { echo "so far: 3 of 7 functions checked"; sleep 2.5; }'
    said = it.call("judge", "2", BEFORE=slow)[1]
    line = r"linediff: 1 of 4 crates proved, \d+ s gone, some \d+ s left; at work: middle 3 of 7\n"
    yield "a line tells now and then how far it is", bool(re.search(line, said)), True
    it.write("crates/base/src/lib.rt", "second\n")
    waits = '[ "$name" != middle ] || { echo "rt: middle: another copy of the repository is building this library; waiting for it"; sleep 1.5; }'
    yield "and what rt waits for", "at work: middle waiting for another copy of the repository" in it.call("judge", "2", BEFORE=waits)[1], True
    it.write("crates/base/src/lib.rt", "third\n")
    terminal, other = pty.openpty()
    started = it.start("judge", "2", streams={"stderr": other}, BEFORE=slow)
    os.close(other)
    output = started.communicate(timeout=60)[0]
    said = read_all(terminal)
    yield "a terminal has one line that changes", (output, said.count("\r\033[K") > 3, len(re.findall("at work", said.replace("\r\033[K", "\n"))) > 3, said.count("\n")), (answer("third")[0], True, True, 2)


def read_all(terminal):
    """What was written to a terminal whose other end is closed."""
    said = b""
    try:
        while part := os.read(terminal, 65536):
            said += part
    except OSError:
        pass
    os.close(terminal)
    return said.decode()


def reads_a_terminal(it):
    it.call("judge", "2")
    terminal, other = pty.openpty()
    started = it.start("judge", "2", streams={"stdin": other})
    os.close(other)
    os.write(terminal, b"rows\n\x04")
    output, said, status = it.end(started)
    os.close(terminal)
    yield "a terminal as input is read", (output, status), (answer()[0] + "rows\n", 3)
    yield "it is said once that it is", (said.count("\n"), "Ctrl-D" in said, "judge 2 < FILE" in said), (1, True, True)


def other_dates(it):
    it.call("judge", "2")
    it.calls()
    for name in glob.glob(it.top + "/crates/*/src/*") + [it.top + "/crates.txt"]:
        os.utime(name, (time.time() + 3600,) * 2)
    yield "touched sources", (it.call("judge", "2"), it.calls()), (answer(), [])
    for name in glob.glob(it.top + "/crates/*/out"):
        shutil.rmtree(name)
    yield "what rt kept is gone", (it.call("judge", "2"), it.calls()), (answer(), [])


def older_commit(it):
    it.call("judge", "2")
    it.write("crates/base/src/lib.rt", "later\n")
    it.commit()
    yield "a changed source", it.call("judge", "2")[::2], answer("later")[::2]
    it.calls()
    it.git("checkout", "-q", "HEAD~1")
    yield "an older commit", (it.call("judge", "2"), it.calls()), (answer(), [])
    it.git("checkout", "-q", "-")
    yield "and back", (it.call("judge", "2"), it.calls()), (answer("later"), [])
    it.write("crates/base/src/more.rt", "more\n")
    it.call("judge", "2")
    yield "a further source", it.calls(), CALLS
    os.rename(it.top + "/crates/base/src/more.rt", it.top + "/crates/base/src/renamed.rt")
    it.call("judge", "2")
    yield "a source under another name", it.calls(), CALLS
    for number in range(5):
        it.write("crates/base/src/lib.rt", "%d\n" % number)
        it.call("judge", "2")
    yield "four programs are kept", it.kept(), ["kit"] * 4 + ["linediff"] * 4


def other_places(it):
    it.call("judge", "2")
    with tempfile.TemporaryDirectory() as room:
        os.symlink(it.top + "/linediff", room + "/short")
        os.symlink(room + "/short", room + "/linediff")
        yield "another directory", it.call("judge", "2", cwd=room), answer()
        yield "a relative name", it.call("judge", "2", cwd=room, program="../" * 20 + it.top[1:] + "/linediff"), answer()
        yield "a link to a link", it.call("judge", "2", cwd=room, program="./linediff"), answer()
        yield "a link on PATH", it.call("judge", "2", program="short", path=room + os.pathsep + it.path), answer()
    moved = it.top + " moved"
    os.rename(it.top, moved)
    it.calls()
    it.top = moved
    yield "a repository that was moved, to a name with a blank", (it.call("judge", "2"), it.calls()), (answer(), [])
    it.write("crates/base/src/lib.rt", "moved\n")
    yield "it is built anew there", (it.call("judge", "2")[::2], it.calls()), (answer("moved")[::2], CALLS)


def at_once(it):
    both = [it.start("judge", str(number), BEFORE="sleep 0.2") for number in (1, 2)]
    ended = [it.end(started) for started in both]
    yield "two first calls at once", [told[::2] for told in ended], [answer(words="judge %d" % number)[::2] for number in (1, 2)]
    yield "only one of them builds", it.calls(), CALLS
    yield "the other says that it waits", sorted("waiting for that to end" in said for _, said, _ in ended), [False, True]


def beside_the_gate(it):
    gate = it.start(program=it.top + "/.ci/run", cwd=it.top, BEFORE='[ "$1" != ci ] || sleep 0.5')
    it.wait_for_call()
    told = it.call("judge", "2")
    yield "the gate installs what they need, and ends with the tests", it.end(gate), ("rt: chose --jobs 4 for top\n5 passed, 0 failed\ninstalls\ntests\n" + answer()[0], "", 3)
    yield "a call beside it waits and runs what it proved", (told[::2], it.calls()), (answer()[::2], ["top ci"])
    yield "it says that it waits", "waiting for that to end" in told[1], True


def gate_fails(it):
    yield "a gate that fails ends at once", it.call(program=it.top + "/.ci/run", cwd=it.top, BEFORE="echo 1 failed; exit 7"), ("1 failed\n", "", 7)
    yield "and keeps nothing", it.kept(), []


def disturbed(it):
    yield "out/ is moved away from each crate", it.call("judge", "2", AFTER="rm -rf %s/crates/*/out" % it.top)[::2], answer()[::2]
    yield "nothing is built again", it.calls(), CALLS
    it.write("crates/base/src/lib.rt", "second\n")
    changes = '[ "$name" != middle ] || ! once || echo third >%s/crates/base/src/lib.rt' % it.top
    yield "a source changes during the build", it.call("judge", "2", AFTER=changes)[::2], answer("third")[::2]
    yield "it is built once more", it.calls(), 2 * CALLS
    yield "and kept for the sources as they are", (it.call("judge", "2"), it.calls()), (answer("third"), [])
    it.write("crates/base/src/lib.rt", "second\n")
    yield "and not for those that they were", (it.call("judge", "2")[::2], it.calls()), (answer("second")[::2], CALLS)


def told_in_two(it):
    it.change("launcher/build", 'echo "$name $status" >&7', 'printf "%s " "$name" >&7; sleep 1.2; echo "$status" >&7')
    yield "how a crate ended comes in two parts, a second apart", it.call("judge", "2")[::2], answer()[::2]


def no_rt(it):
    without = tools_without_rt(it.notes + "/tools")
    output, said, status = it.call("judge", "2", path=without)
    yield "without rt the first call says so", (output, status, said.count("\n"), "rt" in said and "PATH" in said), ("", NOT_RUN, 1, True)
    gate = it.call(program=it.top + "/.ci/run", cwd=it.top, path=without)
    yield "without rt the gate says the same", (gate[0], gate[2], gate[1].replace("the gate needs", "the program isn't built yet, and that needs")), ("", NOT_RUN, said)
    it.call("judge", "2")
    yield "without rt a program that is built runs", it.call("judge", "2", path=without), answer()


def not_proved(it):
    it.write("crates/middle/src/lib.rt", "unproved\n")
    output, said, status = it.call("judge", "2")
    log = it.top + "/out/build.log"
    calls = it.calls()
    yield "a source that isn't proved", (output, status, calls[:2], CALLS[-1] in calls), ("", NOT_RUN, CALLS[:2], False)
    yield "the crate is named", "linediff: middle could not be proved and built" in said, True
    yield "what isn't proved is shown", ["no proof" in said, "src/lib.rt:7:3: it is not proved" in said, "front: proved" in said], [True, True, False]
    yield "the whole log stands where it says", (said.endswith("the whole log stands in %s\n" % log), "middle::front: proved" in open(log).read()), (True, True)
    yield "it names files as they stand in the repository", "rt: crates/middle/src/lib.rt has more to say" in open(log).read(), True
    it.write("crates/middle/src/lib.rt", "middle\n")
    yield "once it is mended, the program is built", it.call("judge", "2")[::2], answer()[::2]
    yield "and the log is gone", it.kept(), ["kit", "linediff"]


def interrupted(it, number):
    started = it.start("judge", "2", BEFORE="sleep 30")
    it.wait_for_call()
    with open(it.notes + "/pid") as file:
        rt = "/proc/" + file.read().strip()
    started.send_signal(number)
    status, name = started.wait(timeout=60), number.name
    for _ in range(500):
        if not os.path.exists(rt):
            break
        time.sleep(0.01)
    yield name + " ends a first call, and rt", (status, os.path.exists(rt)), (-number, False)
    it.end(started)
    yield name + " leaves nothing in out/", it.kept(), []
    yield name + " does no harm to the next call", it.call("judge", "2")[::2], answer()[::2]


def own_words(it):
    told = it.call("--help")
    yield "--help, -h, help and no words say the same", [it.call("-h"), it.call("help"), it.call()], [told, told, told]
    for command in ("judge", "frames", "bench"):
        part = it.call("help", command)
        yield "help %s is its part of the help" % command, (part[0].split("\n\n")[0] in told[0], "./linediff %s" % command in part[0], part[1:]), (True, True, ("", 0))
        yield "%s --help says the same" % command, [it.call(command, "--help"), it.call(command, "-h")], [part, part]
    yield "they build nothing", (told[1:], it.calls(), os.path.exists(it.top + "/out")), (("", 0), [], False)


def faulty_words(it):
    faulty = [["-V"], ["jugde", "2"], ["judge"], ["judge", "2", "2"], ["judge", "x"], ["judge", "02"], ["judge", ""], ["bench", "x.csv"], [""], ["help", "jugde"], ["--version", "2"], ["JUDGE", "2"], ["*"]]
    for words in faulty:
        output, said, status = it.call(*words)
        yield "the words %r" % words, (output, said.startswith(USAGE), "standard input" in said, said.count("\n"), status), ("", True, True, 2, 2)
    yield "they build nothing", (it.calls(), os.path.exists(it.top + "/out")), ([], False)


def version(it):
    commit = it.git("rev-parse", "--short", "HEAD")
    first, second = it.call("--version")[0].splitlines()
    yield "--version tells the commit", first, "linediff 0.1.0 (commit %s)" % commit
    yield "and the sources", bool(re.fullmatch("sources [0-9a-f]{32}, of which no program is built", second)), True
    yield "it builds nothing", it.calls(), []
    it.call("judge", "2")
    sources = os.path.basename(it.call("--program")[0]).strip().partition("-")[2]
    yield "and what proved them", it.call("--version"), ("linediff 0.1.0 (commit %s)\nsources %s, proved with stand-in-kit 1\n" % (commit, sources), "", 0)
    it.write("README.md", "changed\n")
    it.git("add", "README.md")
    yield "a changed repository", it.call("--version")[0].splitlines()[0], "linediff 0.1.0 (commit %s, with changes)" % commit
    it.command("git", "exit 128")
    yield "where git refuses, nothing is said of the commit", it.call("--version")[0].splitlines()[0], "linediff 0.1.0"
    os.remove(it.bin + "/git")
    shutil.rmtree(it.top + "/.git")
    yield "nor without a repository", it.call("--version"), ("linediff 0.1.0\nsources %s, proved with stand-in-kit 1\n" % sources, "", 0)


def cases():
    parts = [first_call, side_by_side, progress, reads_a_terminal, other_dates, older_commit, other_places, at_once, beside_the_gate]
    parts += [gate_fails, disturbed, told_in_two, no_rt, not_proved, own_words, faulty_words, version]
    parts += [lambda it, number=number: interrupted(it, number) for number in (signal.SIGINT, signal.SIGTERM)]
    for part in parts:
        with tempfile.TemporaryDirectory() as room:
            yield from part(Repository(room))
