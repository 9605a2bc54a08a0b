"""The rows of a text, as the program reads them, each with its number and the lines on which it stands."""
import csv
import io
import re
import sys
from dataclasses import dataclass

NUMBER = re.compile(r"-?[0-9]{1,18}")
MARK = b"\xef\xbb\xbf"


class NotReadable(Exception):
    """A text that isn't what it was given for, and why."""


@dataclass(slots=True)
class Row:
    """A row: its number, counted from 1 without empty lines, the first and the last line that an editor shows it on, its fields."""

    number: int
    line: int
    last_line: int
    fields: list[str]


def number_of(field):
    """The number that a field is, or None where it is none."""
    return int(field) if NUMBER.fullmatch(field) else None


def text_of(data):
    """The characters of bytes, one a byte, so that none is refused. A byte order mark at the very start is no part of the text."""
    return data.removeprefix(MARK).decode("latin-1")


def readable(field):
    """A field of `text_of` as people wrote it, where its bytes are UTF-8, with escapes for what can't be printed."""
    text = field.encode("latin-1").decode("utf-8", "replace")
    return "".join(each if each.isprintable() else each.encode("unicode_escape").decode() for each in text)


def rows_of(data):
    """The rows of bytes."""
    csv.field_size_limit(sys.maxsize)
    reader = csv.reader(io.StringIO(text_of(data), newline=""))
    number, line = 0, 1
    for fields in reader:
        if fields:
            number += 1
            yield Row(number, line, reader.line_num, fields)
        line = reader.line_num + 1
