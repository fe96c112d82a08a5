"""The commands from-strace and from-kdump."""
import argparse
import itertools
import subprocess
import sys

from .logs import LogError, NotRecovered
from .translate import source_of

STATUS_FAILED, STATUS_INCOMPLETE, STATUS_READ = 1, 3, 4
OPENS = {"open", "openat", "openat2", "creat"}
EPILOG = (
    "Exit status: 0; 1 if the text is not such a log; 2 for an error in the command line; 3 if an open is not in the source, a program is too long, or a "
    "trace is not recovered; 4 if the log cannot be read."
)


def parser(name, description):
    """Returns the parser of the options that both commands have."""
    options = argparse.ArgumentParser(prog=name, description=description, epilog=EPILOG, allow_abbrev=False)
    options.add_argument("--keep-loader", action="store_true", help="include the files of the loader and the C library")
    options.add_argument("log", metavar="LOG", help="the log; - is standard input")
    return options


def lines_of(name):
    """Returns the lines of a file, or of standard input for `-`."""
    how = {"encoding": "utf-8", "errors": "surrogateescape", "newline": "\n"}
    with open(sys.stdin.fileno() if name == "-" else name, **how, closefd=name != "-") as file:
        return file.read().rstrip("\n").split("\n")


def report(name, log, source):
    """Writes what the source has not, and returns the exit status."""
    for note in source.notes:
        print(f"{name}: {note}", file=sys.stderr)
    if log.unread:
        print(f"{name}: {log.unread} lines are not in the form of the log", file=sys.stderr)
    if source.dropped:
        kinds = ", ".join(f"{count} {kind}" for kind, count in sorted(source.dropped.items()))
        total = sum(source.dropped.values())
        print(f"{name}: {total} call{'s' * (total > 1)} on files {'are' if total > 1 else 'is'} not in the source: {kinds}", file=sys.stderr)
    return STATUS_INCOMPLETE if OPENS & set(source.dropped) or source.is_too_long else 0


def translate(name, log, keep_loader):
    """Writes the source of a log, and returns the exit status."""
    source = source_of(log, keep_loader)
    print("\n".join(source.text()))
    return report(name, log, source)


def check(name, program, bundle, lines):
    """Compares the trace of a bundle with that of the log, reports the first line that differs, and returns the exit status."""
    done = subprocess.run([program, "run-tree", "-"], input=bundle, stdout=subprocess.PIPE, stderr=subprocess.PIPE)
    came = done.stdout.decode("latin-1").rstrip("\n").split("\n")
    pairs = enumerate(itertools.zip_longest(lines, came, fillvalue="the end"), 1)
    differing = next(((at, *pair) for at, pair in pairs if pair[0] != pair[1]), None)
    if differing:
        at, wanted, found = differing
        print(f"{name}: the trace does not show all that the run depends on (see --manifest): line {at} is {wanted.strip()}", file=sys.stderr)
        print(f"{name}: the trace of the source has {found.strip()}{done.stderr.decode('latin-1')[:200]}", file=sys.stderr)
    return STATUS_INCOMPLETE if differing else 0


def run(name, log_name, act):
    """Runs `act` on the lines of a log, and returns the exit status."""
    try:
        return act(lines_of(log_name))
    except OSError as error:
        print(f"{name}: {error.filename or log_name}: {error.strerror}", file=sys.stderr)
        return STATUS_READ
    except NotRecovered as error:
        print(f"{name}: the trace does not show all that the run depends on (see --manifest): {error}", file=sys.stderr)
        return STATUS_INCOMPLETE
    except LogError as error:
        print(f"{name}: {log_name}: {error}", file=sys.stderr)
        return STATUS_FAILED
