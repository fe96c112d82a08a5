"""Calls of pledge(2) and unveil(2) that fail under some schedule."""
from .programs import Bundle
from .replay import replay
from .witness import parsed

MOST = 20  # schedules that are looked at


def failing_schedules(ask, text):
    """Returns a schedule to each step of a bundle at which a pledge or an unveil fails."""
    schedules, schedule, is_restraint = [], None, False
    for _, word, text_of_line in map(parsed, ask.question("explore", text)[1]):
        if word == "BY":
            schedule = text_of_line
        elif word == "CALL":
            is_restraint = text_of_line.startswith(("pledge(", "unveil("))
        elif is_restraint and (word == "PSIG" or word == "RET" and " -1 errno " in text_of_line):
            schedules.append(schedule)
    return schedules


def new_failures(ask, before, result):
    """Yields the text and the fields of a remark about each call that fails in a result, and does not in the bundle before, under the same schedule."""
    programs = {it.path: it for it in result.bundle.programs}
    for schedule in failing_schedules(ask, result.bundle.text())[:MOST]:
        last, old = (replay(ask, it, schedule)[-1] for it in (result.bundle, Bundle(before)))
        if old.has_succeeded() and last.program is not None:
            line = programs[last.program.path].at_lines[last.line - 1]
            text = f"line {line}: {last.name()}: remark: {last.text('CALL')} {last.fate()} after {schedule}, and did not before"
            yield text, {"line": line, "call": last.name(), "remark": "fails", "schedule": schedule, "what": last.fate()}
