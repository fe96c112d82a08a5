"""The command compare-sources."""
from .alignment import Aligned
from .programs import Bundle, Source
from .replay import replay, schedule_without
from .running import add_searches, parsed_by, parser_of, read, run

NAME = "compare-sources"
EPILOG = (
    "Exit status: 0 if no step differs; 1 if an input has an error, or other instructions differ; 2 for an error in the command line; 3 if there is no memory; "
    "4 if a file cannot be read, or there is no pvsim; 5 if the search left a pair of states out and found no difference; 6 if a step differs."
)


def parser():
    """Returns the parser of the command line."""
    options = parser_of(NAME, "Compares two sources that differ in calls of pledge and unveil, which one of them may lack.", EPILOG)
    options.add_argument("files", metavar="OLD NEW", nargs=2, help="two sources or bundles; one of them may be -, standard input")
    add_searches(options)
    return options


def side_of_run(ask, aligned, side, bundle, witness):
    """Returns the lines about the step that differs in one of the sources."""
    source = aligned.sources[side]
    steps = replay(ask, bundle, witness.schedule)
    programs = bundle.by_path()
    places = {programs[path].path: [it[side] for it in pair.places] for path, pair in aligned.pairs.items()}

    def line_of(step):
        """Returns the place of a step in its program of the source; None for an added line."""
        at = places[step.program.path]
        return at[step.line - 1] if step.line <= len(at) else len(step.program.lines)

    own = schedule_without(steps, lambda it: it.program is not None and line_of(it) is None)
    last, where = steps[-1], source.name
    if last.program is not None and line_of(last) is not None:
        at_lines = source.bundle.by_path()[next(path for path, it in bundle.by_path().items() if it.path == last.program.path)].at_lines
        where += f":{at_lines[min(line_of(last), len(at_lines) - 1)]}" if at_lines else ""
    shown = (witness.first, witness.second)[side].lines or [f"    {witness.process} (an instruction on registers)"]
    return [f"{where}: after {own}:", *shown]


def report(ask, aligned, bundles, witness):
    """Prints the answer."""
    ask.progress.clear()
    if witness.is_different():
        for side in (0, 1):
            print("\n".join(side_of_run(ask, aligned, side, bundles[side], witness)))
    print(witness.done)


def compare(given, ask):
    """Compares the sources, and returns the exit status."""
    aligned = Aligned(ask, *(Source(ask, read(name), name) for name in given.files))
    bundles = [Bundle(aligned.text(side)) for side in (0, 1)]
    ask.progress.set("comparison 1 of 1")
    witness = ask.compare(bundles[0].text(), bundles[1].text(), is_equal=aligned.is_padded())
    report(ask, aligned, bundles, witness)
    return witness.status


def main(here):
    """Runs the command, and returns its exit status."""
    options = parser()
    given = parsed_by(options)
    if given.files == ["-", "-"]:
        options.error("only one of the sources may be standard input")
    return run(NAME, here, given, [], compare)
