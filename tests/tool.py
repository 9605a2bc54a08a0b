"""Calls a tool of tools/ in this process, so that what the tool stands on is loaded once for all calls."""
import contextlib
import io
import os
import runpy
import sys

from answers import ROOT

TOOLS = os.path.join(ROOT, "tools")


@contextlib.contextmanager
def standing(words, given, folder):
    """Has the process stand as a tool finds it: with these words, this input, in this folder."""
    before = sys.argv, sys.stdin, sys.path, os.getcwd()
    sys.argv, sys.stdin, sys.path = words, io.TextIOWrapper(io.BytesIO(given.encode())), [TOOLS, *sys.path]
    os.chdir(folder)
    try:
        yield
    finally:
        sys.argv, sys.stdin, sys.path = before[:3]
        os.chdir(before[3])


def call(name, *words, given="", folder="."):
    """What a tool writes, what it says on standard error, and its status."""
    path, status = os.path.join(TOOLS, name), 0
    output, said = io.TextIOWrapper(io.BytesIO()), io.StringIO()
    with standing([path, *words], given, folder), contextlib.redirect_stdout(output), contextlib.redirect_stderr(said):
        try:
            runpy.run_path(path, run_name="__main__")
        except SystemExit as end:
            status = end.code or 0
        output.flush()
    return output.buffer.getvalue().decode(), said.getvalue(), status
