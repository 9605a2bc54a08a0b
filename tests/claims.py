"""Holds docs/CLAIMS.md to the crates: each call, clause, edit and test that it names is there, and no edit and no law is left out."""
import glob
import os
import re

from documents import ROOT, crates, names_in, text_of


def files_of(crate):
    """The text of each source of a crate, by its path."""
    names = glob.glob(os.path.join(ROOT, "crates", crate, "src", "**", "*.rt"), recursive=True)
    return {os.path.relpath(name, ROOT): text_of(name) for name in sorted(names)}


def code_of(crate):
    return {name: text for name, text in files_of(crate).items() if "/tests" not in name}


def edits_of(crate):
    return {os.path.basename(name)[:-5] for name in glob.glob(os.path.join(ROOT, "crates", crate, "must-fail", "*.edit"))}


def tests_of(crate):
    return {test for text in files_of(crate).values() for test in re.findall(r"#\[test\]\s+fn (\w+)", text)}


def calls_of(crate):
    """The public calls of a crate, each with the names of its clauses; a method by its type, a law behind `laws::`."""
    calls = {}
    for path, text in code_of(crate).items():
        module, within = "laws::" if path.endswith("/laws.rt") else "", ""
        for found in re.finditer(r"(?ms)^impl(?:<[^\n]*?>)? (?P<type>\w+)[^\n]*\{$|^(?P<at> *)pub (?:extern \"C\" )?fn (?P<name>\w+)(?P<head>.*?)^(?P=at)\{", text):
            if found["type"]:
                within = found["type"] + "::"
            else:
                name = (within if found["at"] else module) + found["name"]
                calls[name] = set(re.findall(r"\bensures (\w+) \{", found["head"]))
    return calls


def traits_of(crate):
    return {name for text in code_of(crate).values() for name in re.findall(r"(?m)^pub trait (\w+)", text)}


def rows_of(section):
    """The cells of each row of a section's table: what is proved, the calls, the edits and the tests."""
    return [[cell.strip() for cell in row.strip("|").split(" |")] for row in re.findall(r"(?m)^\| .*", section)[1:]]


def claims_of(crate, table):
    calls, edits, tests = calls_of(crate), edits_of(crate), tests_of(crate) | tests_of("vectors")
    yield "four columns for %s" % crate, [row for row in table if len(row) != 4], []
    named = {name for row in table for name in re.findall(r"`([\w:]+)`", re.sub(r"\(.*?\)", "", row[1]))}
    yield "the calls of %s are there" % crate, named - set(calls) - traits_of(crate), set()
    for name, clauses in [part for row in table for part in re.findall(r"`([\w:]+)` \((.*?)\)", row[1])]:
        yield "the clauses of %s of %s" % (name, crate), set(names_in(clauses)) - calls.get(name, set()), set()
    yield "each law of %s" % crate, {name for name in calls if name.startswith("laws::")} - named, set()
    yield "each edit of %s once" % crate, sorted(name for row in table for name in names_in(row[2])), sorted(edits)
    yield "the tests of %s are there" % crate, {name for row in table for name in names_in(row[3])} - tests, set()


def cases():
    sections = dict(re.findall(r"(?ms)^## `(\w+)`\n(.*?)(?=^## |\Z)", text_of("docs/CLAIMS.md")))
    yield "the crates", list(sections), list(crates())
    for crate, section in sections.items():
        yield from claims_of(crate, rows_of(section))
