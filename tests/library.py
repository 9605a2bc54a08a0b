"""Builds and installs the C library as a user would, holds its header to what the library says, and runs its examples.

Needs cc with its sanitizers, and pkg-config.
"""
import importlib.util
import os
import re
import subprocess
import sys
import tempfile
from ctypes import Array, Structure, byref, memset, sizeof

import answers

ROOT = answers.ROOT
STRICT = ["-std=c99", "-Wall", "-Wextra", "-Werror"]
SANITIZED = ["-g", "-fsanitize=address,undefined", "-fno-sanitize-recover=all"]
PYTHON = os.path.join(ROOT, "examples", "python", "two_terminals.py")
# A header's types as a program in C declares the fields that it prints, and those of the crate.
TYPES = {"bool": "bool", "void *": "*mut u8"}
TYPES.update({"%sint%d_t" % (sign, bits): "%s%d" % ("u" if sign else "i", bits) for sign in ("u", "") for bits in (8, 16, 32, 64)})


def text_of(*path):
    with open(os.path.join(ROOT, *path), encoding="utf-8") as file:
        return file.read()


def structs_of_header():
    """The structs of the header: the fields of each, with the crate's name of the type and the count of an array."""
    plain = re.sub(r"(?s)/\*.*?\*/", "", text_of("include", "linediff.h"))
    found = {}
    for body, name in re.findall(r"(?s)typedef struct \{(.*?)\} linediff_(\w+);", plain):
        fields = re.findall(r"\s*(void \*|\w+) *(\w+)(?:\[(\d+)\])?;", body)
        found[name] = [(field, TYPES.get(kind) or kind.removeprefix("linediff_").capitalize(), count) for kind, field, count in fields]
    return found


def structs_of_crate():
    """The same of the structs that the crate shares with C."""
    source = text_of("crates", "terminal_c", "src", "flat.rt")
    found = {}
    for name, body in re.findall(r"(?s)#\[repr\(C\)\]\n(?:#\[.*?\]\n)*pub struct (\w+) \{(.*?)\n\}", source):
        fields = re.findall(r"(?m)^    pub (\w+): (?:\[(\w+); (\d+)\]|(\w+)),$", body)
        found[name.lower()] = [(field, one or many, count) for field, many, count, one in fields]
    return found


def constants():
    """The constants of the header."""
    return {name: int(value) for name, value in re.findall(r"(?m)^    LINEDIFF_(\w+) = (\d+)", text_of("include", "linediff.h"))}


def numbers_of(file, definition):
    """The name of each case of a definition of the crate, and its number."""
    case = r"(?m)^%s (?:told )?[(]*(?:Some |Bad |\w+\.|[(])*(\w+)[^=]* = (?:record \{.*?(?:kind|reason) = |\(?told\.kind ≡ )?(\d+)" % definition
    return [(name, int(number)) for name, number in re.findall(case, text_of("crates", "terminal_c", "specs", file))]


def scalars(told, path=""):
    """The fields of a struct that have no fields, in their order: of an array the first and the last element."""
    for name, kind in told._fields_:
        value = getattr(told, name)
        if isinstance(value, Structure):
            yield from scalars(value, path + name + ".")
        elif isinstance(value, Array) and isinstance(value[0], Structure):
            for at in (0, len(value) - 1):
                yield from scalars(value[at], "%s%s[%d]." % (path, name, at))
        elif isinstance(value, Array):
            for at in (0, len(value) - 1):
                yield "%s%s[%d]" % (path, name, at), value[at]
        else:
            yield path + name, value


def numbered(answer):
    """How a library that agrees on the layout numbers the fields of an answer, beside what this one says."""
    said, wanted, number = [], [], 0
    for name, value in scalars(answer):
        number += not isinstance(value, bool)
        said.append((name, value))
        wanted.append((name, True if isinstance(value, bool) else number))
    return said, wanted


def printing(structs):
    """A program in C that prints the fields of the answers as linediff_layout numbers them, and the sizes of all structs."""

    def prints(kind, place):
        for field, of, count in structs[kind]:
            for at in (["[0]", "[%d]" % (int(count) - 1)] if count else [""]):
                if of.lower() in structs:
                    yield from prints(of.lower(), place + "." + field + at)
                else:
                    yield '    printf("%s%s%s %%lld\\n", (long long)%s.%s%s);' % (place, "." + field, at, place, field, at)

    answers = ("sampled", "slotted", "heard")
    yield "#include <stdio.h>\n#include <string.h>\n#include <linediff.h>\n"
    yield "int main(void)\n{"
    for answer in answers:
        yield "    static linediff_%s %s;" % (answer, answer)
        yield "    memset(&%s, 0xA5, sizeof %s);" % (answer, answer)
    yield "    linediff_layout(&sampled, &slotted, &heard);"
    for answer in answers:
        yield from prints(answer, answer)
    for name in structs:
        yield '    printf("sizeof %s %%lld\\n", (long long)sizeof(linediff_%s));' % (name, name)
    yield "    return 0;\n}"


class Prefix:
    """What is installed in a folder."""

    def __init__(self, folder):
        self.folder = folder
        subprocess.run([os.path.join(ROOT, "tools", "install-library"), folder], stdout=subprocess.PIPE, stderr=subprocess.PIPE, check=True)
        environment = dict(os.environ, PKG_CONFIG_PATH=self.path("lib", "pkgconfig"))
        words = ["pkg-config", "--cflags", "--libs", "--static", "linediff"]
        self.flags = subprocess.run(words, env=environment, stdout=subprocess.PIPE, check=True, text=True).stdout.split()
        self.shared = self.path("lib", "liblinediff.so")

    def path(self, *names):
        return os.path.join(self.folder, *names)

    def said_by(self, source, *flags):
        """What a program in C prints, and its status."""
        program = self.path("program")
        # With -static the archive is taken and not the shared library.
        link = ["-Wl,-Bstatic", *self.flags, "-Wl,-Bdynamic"]
        subprocess.run([os.environ.get("CC", "cc"), *STRICT, *flags, source, "-o", program, *link], check=True)
        done = subprocess.run([program], stdout=subprocess.PIPE, stderr=subprocess.STDOUT, text=True)
        return done.stdout, done.returncode


def module_of(path):
    spec = importlib.util.spec_from_file_location("example", path)
    module = importlib.util.module_from_spec(spec)
    spec.loader.exec_module(module)
    return module


def layouts(prefix):
    structs = structs_of_header()
    crate = structs_of_crate()
    yield "the header has the structs of the crate", {name: structs.get(name) for name in crate}, crate
    source = prefix.path("layout.c")
    with open(source, "w", encoding="utf-8") as file:
        file.write("\n".join(printing(structs)))
    rows = [row.rsplit(" ", 1) for row in prefix.said_by(source, *SANITIZED)[0].splitlines()]
    said = {name: int(value) for name, value in rows}

    example = module_of(PYTHON)
    answers = {"sampled": example.Sampled(), "slotted": example.Slotted(), "heard": example.Heard()}
    for answer in answers.values():
        memset(byref(answer), 0xA5, sizeof(answer))
    example.Library(prefix.shared).calls.linediff_layout(*(byref(answer) for answer in answers.values()))
    for name, answer in answers.items():
        yield "the fields of %s in Python" % name, *numbered(answer)
        wanted = [(field, int(value)) for field, value in numbered(answer)[1]]
        yield "the fields of %s in C" % name, [(field, said["%s.%s" % (name, field)]) for field, _ in wanted], wanted
    kinds = {kind.__name__.lower(): kind for kind in vars(example).values() if isinstance(kind, type) and issubclass(kind, Structure) and kind is not Structure}
    kinds["terminal"] = kinds.pop("handle")
    sizes = {name.removeprefix("sizeof "): value for name, value in said.items() if name.startswith("sizeof ")}
    yield "the sizes in C and in Python", sizes, {name: sizeof(kind) for name, kind in kinds.items()}


def names_and_numbers():
    """The constants of the header against the crate's definitions, in the order of their cases."""
    of = constants()
    keys = ["BAD_" + name.upper() for name, _ in numbers_of("Codes.antt", "key_number")]
    groups = [
        ("Status.antt", "status_number", ["DONE", "EMPTY", "FULL", "SETTINGS", "STATION", "STAMP", "PEER", "BITS", "MEMORY"]),
        ("Codes.antt", "key_number", keys),
        ("Codes.antt", "refusal_of", ["CHANNEL_TOO_SLOW", "LIMIT_TOO_LONG", "SAME_WORDS"]),
        ("Codes.antt", "verdict_number", ["WAITING", "RESTRAIN", "OUTSIDE", "TRIP"]),
        ("Codes.antt", "alarm_number", ["UNLOCKED", "YELLOW", "SILENT", "UNALIGNED", "FAULTY"]),
        ("Told.antt", "own_of", ["TOOK", "OFF_GRID", "AGAIN"]),
        ("Told.antt", "TellsFrame", ["NO_FRAME", "GOOD_FRAME", "NO_HEADER", "BAD_PAIR", "BAD_WIDTH"]),
        ("Told.antt", "TellsNews", ["NO_MESSAGE", "NO_MESSAGE", "ACCEPTED", "REPEAT", "STRANGER"]),
        ("Told.antt", "fault_of", ["NOT_REFUSED", "BAD_MARKER", "BAD_CHECK", "BAD_ADDRESS", "BAD_FLAGS", "BAD_ECHO"]),
        ("Told.antt", "taken_number", ["KEPT", "SLOW"]),
        ("Told.antt", "placed_of", ["STALE", "AHEAD", "DOUBLE", "STORED"]),
    ]
    yield "the keys of the settings", len(keys), 18
    for file, definition, names in groups:
        yield "the numbers of " + definition, [of[name] for name in names], [number for _, number in numbers_of(file, definition)]
    nothing = ["NO_FRAME", "NO_MESSAGE", "NOT_REFUSED", "NO_EXCHANGE", "NOT_PLACED"]
    yield "what says that nothing is told", [of[name] for name in nothing], [0] * len(nothing)
    named = [name for _, _, names in groups for name in names] + nothing
    yield "every constant of the header", set(of) - set(named), set()


def settings_lines():
    """What tests/library.c tells of settings: the status, the reason and the ticks, 77 where nothing is told."""
    of = constants()
    yield "usual %d 77 77" % of["DONE"]
    for key in ("stations", "channels", "spacing", "cycle", "drift", "slow", "age", "limit", "silent", "count", "pickup", "rn", "rd", "p", "q", "worda", "wordb", "misses"):
        yield "%s %d %d 0" % (key, of["SETTINGS"], of["BAD_" + key.upper()])
    yield "limit %d %d 48000" % (of["SETTINGS"], of["LIMIT_TOO_LONG"])
    yield "wordb %d %d 0" % (of["SETTINGS"], of["SAME_WORDS"])
    yield "channels %d %d 4500" % (of["SETTINGS"], of["CHANNEL_TOO_SLOW"])
    for station in (0, 3):
        yield "station %d %d 77 77" % (station, of["STATION"])


def status_lines():
    """What it tells of calls: the status of each and whether it left what it tells, and whether the handle is as it was."""
    of = constants()
    done, empty, stamp, peer, bits = (of[name] for name in ("DONE", "EMPTY", "STAMP", "PEER", "BITS"))
    calls = [[done] * 4, [stamp] * 4] + [[done, done, peer, peer]] * 3 + [[done, done, bits, done]] + [[done] * 4] * 3
    for made in range(3):
        if made == 1:
            yield "new %d" % done
            yield "new again %d 1 77" % of["FULL"]
        for at, ends in enumerate(calls):
            ends = ends if made == 1 else [empty] * 4
            yield "call %d:%d %s 1" % (made, at, " ".join("%d:%d" % (end, end != done) for end in ends))


def examples(prefix):
    bench = answers.run(["bench"], answers.bytes_of("examples", "scenarios", "internal_fault.csv"), program=answers.LINEDIFF)[0].decode()
    lines = bench.splitlines(keepends=True)
    wanted = "".join(line for line in lines if line.startswith(("set,", "alarm,"))), 0
    source = os.path.join(ROOT, "examples", "c", "two_terminals.c")
    yield "the example in C", prefix.said_by(source), wanted
    yield "the example in C, under the sanitizers", prefix.said_by(source, *SANITIZED), wanted
    done = subprocess.run([sys.executable, PYTHON, prefix.shared], stdout=subprocess.PIPE, text=True)
    yield "the example in Python", (done.stdout, done.returncode), ("".join(line for line in lines if line.startswith("set,")), 0)


def refused_by_python(prefix):
    example = module_of(PYTHON)
    library = example.Library(prefix.shared)

    def ended(make):
        try:
            return make()
        except ValueError as error:
            return str(error)

    yield "settings that are refused", ended(lambda: example.Terminal(library, library.settings(2, 13), 1)), "SETTINGS, reason 2, ticks 0"
    terminal = example.Terminal(library, library.settings(2, 5), 1)
    yield "a station that is no peer", ended(lambda: terminal.fault(0, 1)), "PEER"
    yield "a peer", ended(lambda: terminal.fault(0, 2).count), 3
    terminal.close()
    yield "a terminal that was closed", ended(lambda: terminal.slot(125)), "EMPTY"


def cases():
    with tempfile.TemporaryDirectory() as folder:
        prefix = Prefix(os.path.join(folder, "prefix"))
        names = [os.path.relpath(os.path.join(at, name), prefix.folder) for at, _, names in os.walk(prefix.folder) for name in names]
        wanted = ["include/linediff.h", "lib/liblinediff.a", "lib/liblinediff.so", "lib/pkgconfig/linediff.pc"]
        yield "what is installed", sorted(names), wanted
        yield from names_and_numbers()
        yield from layouts(prefix)
        source = os.path.join(ROOT, "tests", "library.c")
        lines = "\n".join([*settings_lines(), *status_lines(), ""])
        for way, flags in (("plain", []), ("sanitized", SANITIZED)):
            said, status = prefix.said_by(source, *flags)
            yield "how calls end, " + way, (said.splitlines(), status), (lines.splitlines(), 0)
        yield from refused_by_python(prefix)
        yield from examples(prefix)
