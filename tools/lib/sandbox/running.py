"""What the commands tighten and compare-sources share: exit statuses, options, inputs, and the report of errors."""
import argparse
import sys

from .asking import Ask, Failed, find_program
from .programs import BadInput

OK, BAD, USAGE, IO, UNDECIDED, MORE, INTERRUPTED = 0, 1, 2, 4, 5, 6, 130
MOST_STATES = 4294967295


def parser_of(name, text, epilog):
    """Returns a parser of a command line without options."""
    return argparse.ArgumentParser(prog=name, allow_abbrev=False, epilog=epilog, description=text)


def add_searches(options):
    """Adds the options about the program that answers, and its searches."""
    options.add_argument("--pvsim", metavar="PROGRAM", help="the program that answers")
    options.add_argument("--states", metavar="N", type=int, help="the maximum number of pairs of states of a comparison (1,000,000)")


def parsed_by(options):
    """Returns the command line, with a number of states that pvsim accepts."""
    given = options.parse_args()
    if given.states is not None and not 1 <= given.states <= MOST_STATES:
        options.error(f"N is a number from 1 to {MOST_STATES}")
    return given


def read(name):
    """Returns the bytes of a file, or of standard input for `-`."""
    if name == "-":
        return sys.stdin.buffer.read()
    with open(name, "rb") as file:
        return file.read()


def run(name, here, given, words, work):
    """Does the work of a command line with the program that answers, reports an error, and returns the exit status. `words` are those of each search."""
    program = given.pvsim or find_program(here)
    states = ["--states", str(given.states)] if given.states else []
    try:
        if program is None:
            raise Failed(IO, f"{name}: there is no program pvsim: give one with --pvsim\n")
        with Ask(program, name, [*states, *words]) as ask:
            return work(given, ask)
    except BadInput as error:
        sys.stderr.write(error.report(name))
        return BAD
    except Failed as error:
        sys.stderr.write(error.text)
        return error.status
    except OSError as error:
        print(f"{name}: {error.filename or '-'}: {error.strerror}", file=sys.stderr)
        return IO
    except KeyboardInterrupt:
        return INTERRUPTED
