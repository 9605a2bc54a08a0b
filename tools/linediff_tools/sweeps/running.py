"""Runs the parts of a sweep by GNU parallel, which keeps the job log, goes on where it was ended, tries again and shows progress."""
import os
import signal
import subprocess
import sys

from ..rows import NotReadable
from .sweep import PACKED, packed

TRIES = 2


class Interrupted(Exception):
    """The sweep was ended by a signal."""


def run_parts(sweep, folder, worker, jobs=None, hosts=None):
    """Runs what the job log doesn't tell as done. Returns whether every part ended as it must."""
    words = ["parallel", "--will-cite", "--joblog", "jobs.log", "--resume-failed", "--retries", str(TRIES), "--halt", "now,fail=1"]
    words += ["--bar"] if sys.stderr.isatty() else []
    words += ["--jobs", str(jobs)] if jobs else []
    words += ["--sshloginfile", os.path.abspath(hosts), "--env", PACKED] if hosts else []
    environment = dict(os.environ, **{PACKED: packed(sweep)})
    parts = "".join("%d\n" % part for part in sweep.parts())
    with open(folder.rows, "ab") as rows:
        try:
            process = subprocess.Popen(words + worker + ["{}"], cwd=folder.path, env=environment, stdin=subprocess.PIPE, stdout=rows, text=True)
        except FileNotFoundError:
            raise NotReadable("GNU parallel isn't there: tools/install installs it") from None
        return _wait(process, parts) == 0


def _wait(process, parts):
    """The status of GNU parallel, which a signal to this process ends too."""
    before = signal.signal(signal.SIGTERM, _interrupt)
    try:
        process.communicate(parts)
        return process.returncode
    except KeyboardInterrupt:
        # (the first has it begin no job, the second has it end those that run)
        process.send_signal(signal.SIGTERM)
        process.send_signal(signal.SIGTERM)
        process.wait()
        raise Interrupted() from None
    finally:
        signal.signal(signal.SIGTERM, before)


def _interrupt(*_):
    raise KeyboardInterrupt
