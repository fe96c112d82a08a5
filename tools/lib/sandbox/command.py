"""The command tighten."""
import os
import sys
import tempfile

from . import reporting
from .adding import Adding
from .alignment import Aligned
from .asking import Failed
from .c_calls import c_text
from .failures import new_failures
from .least import Least
from .programs import Source
from .restraints import restraints_of
from .running import MORE, OK, UNDECIDED, USAGE, add_searches, parsed_by, parser_of, read, run
from .schedules import fitted

NAME = os.path.basename(sys.argv[0]) or "tighten"
EPILOG = (
    "Exit status: 0; 1 if the input has an error; 2 for an error in the command line; 3 if there is no memory; 4 if a file cannot be read or written, or there "
    "is no pvsim; 5 if something was not decided; 6 if, with --check, something can be left out."
)


def parser():
    """Returns the parser of the command line."""
    options = parser_of(NAME, "Writes a source with the least arguments of its pledges and unveils.", EPILOG)
    options.add_argument("file", metavar="FILE", help="a source or a bundle; - is standard input")
    options.add_argument("--add", action="store_true", help="add calls of pledge and unveil to programs without them, or at comments # restrain and # narrow")
    options.add_argument("--c", action="store_true", help="write the calls in C, in place of the source")
    options.add_argument("--check", action="store_true", help="write no source: the exit status is 6 if something can be left out")
    options.add_argument("--json", action="store_true", help="write the report as JSON lines")
    options.add_argument("-o", "--output", metavar="OUT", help="write into this file, which may be FILE, in place of standard output")
    options.add_argument("--reduced", action="store_true", help="pass --reduced to the searches, if pvsim compare has it")
    add_searches(options)
    return options


def write_whole(path, data):
    """Writes data to standard output, or replaces a file."""
    if path is None:
        sys.stdout.buffer.write(data)
        sys.stdout.buffer.flush()
        return
    with tempfile.NamedTemporaryFile(dir=os.path.dirname(os.path.abspath(path)), prefix=".tighten-", delete=False) as file:
        try:
            file.write(data)
            file.close()
            os.chmod(file.name, os.stat(path).st_mode & 0o777 if os.path.exists(path) else 0o666 & ~umask())
            os.replace(file.name, path)
        except OSError:
            os.unlink(file.name)
            raise


def umask():
    """Returns the mask of the modes of new files."""
    mask = os.umask(0)
    os.umask(mask)
    return mask


def result_of(source, least):
    """Returns the text of the source with the words left out."""
    changed = [call for call in least.calls if least.removed_of(call)]
    return source.changed({call.place: call.in_source(source.lines[call.place - 1]) for call in changed})


def status_of(given, least, last):
    """Returns the exit status."""
    if given.check and least.removed:
        return MORE
    return UNDECIDED if least.is_undecided() or not last.is_same() else OK


def tightened(ask, source, first=None):
    """Returns the search for the least arguments of a source, beside a bundle or itself."""
    least = Least(ask, first or source.bundle.text(), source.bundle, restraints_of(ask, source), first is None)
    least.run()
    return least


def added(ask, source):
    """Returns a source with calls added, the search for their least arguments, and the records about them; no search if that was not decided."""
    adding = Adding(ask, source)
    if not adding.run():
        raise Failed(UNDECIDED, f"{NAME}: nothing is written: not decided: {adding.witness.done}\n")
    while True:
        new = Source(ask, adding.layout.text(), source.name)
        least = tightened(ask, new, adding.first)
        if not adding.take(least):
            return new, least, adding.records()
        adding.lay_out()


def beside(ask, source, result):
    """Returns the comparison of a source with its result, which may have more calls, and the text of the result with its schedule."""
    aligned = Aligned(ask, source, result)
    ask.progress.set("the last comparison")
    last = ask.compare(aligned.text(0), aligned.text(1), is_equal=aligned.is_padded())
    return last, fitted(ask, aligned) if aligned.is_padded() else result.text


def tighten(given, ask):
    """Does what the command line asks, and returns the exit status."""
    source = Source(ask, read(given.file), given.file)
    sys.stderr.write(ask.warnings)
    new, least, records = added(ask, source) if given.add else (source, tightened(ask, source), [])
    result = Source(ask, result_of(new, least), given.file)
    if result.bundle.text() != least.text():
        raise Failed(USAGE, f"{NAME}: the text of the result is not its bundle\n")
    last, text = beside(ask, source, result)
    remarks = list(new_failures(ask, least.first, result))
    ask.progress.clear()
    reporting.write([*records, *reporting.records_of(least), *remarks, reporting.summary(least, last)], given.json, sys.stderr)
    if last.is_same() and not given.check:
        write_whole(given.output, c_text(result, least).encode("latin-1") if given.c else text)
    elif not given.check:
        print(f"{NAME}: nothing is written: the comparison of the result with the original is {last.done}", file=sys.stderr)
    return status_of(given, least, last)


def main(here):
    """Runs the command, and returns its exit status."""
    options = parser()
    given = parsed_by(options)
    if given.add and given.check:
        options.error("--check is for a source that has calls of pledge and unveil, without --add")
    return run(NAME, here, given, ["--reduced"] * given.reduced, tighten)
