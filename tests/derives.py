"""Holds what a type gives without a clause to its derives: no field is skipped, and what is written by hand says what it gives."""
import re

from claims import code_of
from documents import crates

# An impl of one of these traits, with what stands in it.
WRITTEN = re.compile(r"(?ms)^impl(?:<[^\n]*?>)? (Default|Clone|PartialEq|Eq|PartialOrd|Ord|Hash) for (\w+)[^\n]*\{\n(.*?)^\}")


def silent(text):
    """The traits that a file writes by hand without a word on what they give, each with its type."""
    return [(trait, of) for trait, of, inside in WRITTEN.findall(text) if "ensures" not in inside and "ghost is_default" not in inside]


def cases():
    yield "a silent default is seen", silent("impl Default for Way {\n    fn default() -> Way {\n    }\n}\n"), [("Default", "Way")]
    for crate in crates():
        texts = code_of(crate)
        yield "no derive of %s skips a field" % crate, [path for path, text in texts.items() if re.search(r"derive_where|skip\(", text)], []
        yield "what %s writes by hand has its clause" % crate, [(path, *found) for path, text in texts.items() for found in silent(text)], []
