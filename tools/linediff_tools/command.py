"""What the command lines of the tools share: their files, and how they end."""
import argparse
import os
import sys

from .rows import NotReadable

# Faulty words or a file that can't be read end a tool with 2, as argparse does; an input that isn't what it was given for with 3.
UNREADABLE_FILE = 2
UNREADABLE_TEXT = 3


def parser_of(text, **options):
    """The parser of a tool whose help is this text, whose first line is its description."""
    description, _, epilog = text.strip().partition("\n\n")
    return argparse.ArgumentParser(description=description, epilog=epilog, formatter_class=argparse.RawDescriptionHelpFormatter, **options)


def bytes_of(name):
    """The bytes of a file, or of standard input where it is `-`."""
    if name == "-":
        return sys.stdin.buffer.read()
    with open(name, "rb") as file:
        return file.read()


def text_of(name):
    """The text of a file that the program has written."""
    return bytes_of(name).decode("ascii", "replace")


def end(work):
    """Ends the tool with the status of its work, or with what kept it from working."""
    tool = os.path.basename(sys.argv[0])
    try:
        status = work()
        sys.stdout.flush()
    except NotReadable as told:
        print("%s: %s" % (tool, told), file=sys.stderr)
        status = UNREADABLE_TEXT
    except BrokenPipeError:
        # Whoever reads has read enough. Python would tell of it once more when it flushes.
        os.dup2(os.open(os.devnull, os.O_WRONLY), sys.stdout.fileno())
        status = 0
    except OSError as told:
        print("%s: %s" % (tool, told), file=sys.stderr)
        status = UNREADABLE_FILE
    sys.exit(status)
