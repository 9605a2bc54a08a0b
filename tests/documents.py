"""Holds the documents to what stands: the crates, the files of definitions, the commands and their statuses."""
import glob
import os
import re
import subprocess

import answers

ROOT = os.path.dirname(os.path.dirname(os.path.abspath(__file__)))
USAGE = answers.USAGE.decode().strip()


def text_of(name):
    with open(os.path.join(ROOT, name), encoding="utf-8") as file:
        return file.read()


def crates():
    """Each crate of crates.txt, and what it stands on."""
    lines = [line.partition("#")[0].partition(":") for line in text_of("crates.txt").splitlines()]
    return {name.split()[0]: sorted(below.split()) for name, _, below in lines if name.strip()}


def rows(name, heading, begins="|"):
    """The cells of each row of the first table under a heading of a document, or of the first that begins so."""
    section = re.split(r"\n##+ %s\n" % re.escape(heading), text_of(name))[1]
    table = re.search(r"(?m)^%s.*\n(^\|.*\n)+" % re.escape(begins), section)[0]
    return [[cell.strip() for cell in row.strip("|").split(" | ")] for row in table.splitlines()[2:]]


def words_of(definition, name):
    """The words that a definition gives by cases, as they stand in its file."""
    return re.findall(r'(?m)^%s .* = codes "([^"]+)"$' % name, text_of(definition))


def names_in(*cells):
    return sorted(re.findall(r"`(\w+)`", " ".join(cells)))


def lost_files(text, folder=""):
    """The sources that a text names and that aren't there. A path begins at the folder, or at the crate of the one before; a name alone stands beside it."""
    lost, crate, beside = [], "", ""
    for path in re.findall(r"`([\w/]+\.(?:antt|rt))`", text):
        places = [os.path.join(ROOT, place, path) for place in ([folder, crate] if "/" in path else [beside])]
        found = next((place for place in places if os.path.isfile(place)), None)
        if not found:
            lost.append(path)
            continue
        beside = os.path.relpath(os.path.dirname(found), ROOT)
        crate = os.path.join(*beside.split("/")[:2])
    return lost


def documents():
    """Every page of words, by its path."""
    return sorted(name for part in ("*.md", "*/*.md") for name in glob.glob(part, root_dir=ROOT))


def headings_of(path):
    """The headings of a document, as links name them."""
    return [re.sub(r"[^\w -]", "", heading).lower().replace(" ", "-") for heading in re.findall(r"(?m)^#+ (.*)", text_of(path))]


def leads_nowhere(document, target):
    page, _, anchor = target.partition("#")
    path = os.path.normpath(os.path.join(os.path.dirname(document), page)) if page else document
    if not os.path.exists(os.path.join(ROOT, path)):
        return True
    return bool(anchor) and anchor not in headings_of(path)


def links():
    """Each link of a document leads to a file that is there, and to one of its headings."""
    for name in documents():
        lost = [target for target in re.findall(r"\]\(([^):]*)\)", text_of(name)) if leads_nowhere(name, target)]
        yield "%s links to what is there" % name, lost, []


def is_seen(kind, *records):
    """Whether a type has a model whose value is one of these records, where any is named."""
    for folder, _, names in os.walk(os.path.join(ROOT, "crates")):
        for name in names:
            if name.endswith(".rt") and "/out" not in folder:
                model = re.search(r"impl(?:<[^>]*>)? Model for %s\b.*?ghost Value = \{ (?:spec\.)?(\w+)" % kind, text_of(os.path.relpath(os.path.join(folder, name), ROOT)), re.S)
                if model and (not records or model[1] in records):
                    return True
    return False


def cases():
    found = {names_in(row[0])[0]: names_in(*row[2:]) for row in rows("docs/ARCHITECTURE.md", "Crates")}
    yield "ARCHITECTURE.md has the crates", list(found), list(crates())
    for name, below in crates().items():
        yield "ARCHITECTURE.md has what %s stands on" % name, found.get(name), below
    yield from links()
    yield "the README has at most 100 lines", len(text_of("README.md").splitlines()) <= 100, True
    yield "no line of the README has more than 500 characters", [line for line in text_of("README.md").splitlines() if len(line) > 500], []
    yield "RULES.md names the files that are there", lost_files(text_of("docs/RULES.md")), []
    table = text_of("docs/ARCHITECTURE.md").split("\n## Where each definition stands\n")[1]
    yield "ARCHITECTURE.md names the files that are there", lost_files(table, "crates"), []
    seen = [(kind, row) for row in rows("docs/WORDS.md", "Types and what clauses see of them") for kind in re.findall(r"`(\w+)`", row[0].split(" of ")[0])]
    yield "WORDS.md has types with the record that clauses see", [kind for kind, row in seen if not is_seen(kind, *re.findall(r"`(\w+)`", row[1]))], []
    recipes = re.findall(r"(?ms)^\| step \| file \|\n.*?\n\n", text_of("CONTRIBUTING.md"))
    yield "CONTRIBUTING.md names the files that are there", [lost_files(recipe) for recipe in recipes], [[]] * 5
    commands = [part.split() for part in USAGE.removeprefix("usage: linediff ").split(" | ")]
    told = subprocess.run([os.path.join(ROOT, "linediff"), "--help"], stdout=subprocess.PIPE, check=True, text=True).stdout
    helped = [words.split() for words in re.findall(r"(?m)^  \./linediff (\w+(?: [A-Z]+)*)$", told)]
    yield "--help has the commands of the usage line", helped, commands
    worded = [row[0].partition("`")[2].partition("`")[0].split() for row in rows("docs/FORMATS.md", "Command words")]
    yield "FORMATS.md has the commands of the usage line", worded, commands
    names = "crates/waveform_reader/specs/Names.antt"
    key_names = "crates/setting_rows/specs/Keys.antt"
    keys = [row[0].strip("`") for row in rows("docs/FORMATS.md", "Settings")]
    yield "FORMATS.md has the key of each setting", keys, words_of(key_names, "key_name")
    records = [row[0].strip("`") for row in rows("docs/FORMATS.md", "Scenario")]
    yield "FORMATS.md has each record of a scenario", records, ["#", "set"] + words_of(names, "kind_name")
    alarms = [row[0].strip("`") for row in rows("docs/FORMATS.md", "Report", "| name |")]
    yield "FORMATS.md has each alarm", alarms, re.findall(r'(?m)^alarm_name \w+ = codes "(\w+)"$', text_of("crates/text_lines/specs/Words.antt"))
    reasons = re.findall(r"(?m)^reason_number reason\.(\w+) = (\d)$", text_of("crates/bench_cmd/specs/Faults.antt"))
    for heading in ("Judge", "Rules of a scenario"):
        told = {(row[1].strip("`"), row[0]) for row in rows("docs/FORMATS.md", heading)}
        yield "FORMATS.md numbers the rules of %s" % heading, told - set(reasons), set()
    numbers = sorted({row[0] for row in rows("docs/FORMATS.md", "Rules of a scenario")})
    yield "FORMATS.md has each rule of a scenario", numbers, sorted(number for _, number in reasons)
    statuses = [row[0] for row in rows("docs/FORMATS.md", "What a command answers")]
    yield "FORMATS.md has each status", statuses, ["0", "2", "3", "4", "5", "6", "7"]
    yield "FORMATS.md has the usage line", "`%s`" % USAGE.replace("|", "\\|") in rows("docs/FORMATS.md", "What a command answers")[1], True
    examples = sorted(name for _, _, names in os.walk(os.path.join(ROOT, "examples")) for name in names if name != "README.md")
    yield "examples/README.md has each example", [name for name in examples if "`%s`" % name not in text_of("examples/README.md")], []
