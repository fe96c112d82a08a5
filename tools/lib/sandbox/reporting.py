"""The report of what was left out, and why the rest stays."""
import json

from .restraints import EXECPROMISES


def of_argument(argument):
    """Returns the words that name an argument which is not the usual one of its call."""
    return " of execpromises" if argument.name == EXECPROMISES else ""


def records_of_call(least, call):
    """Yields the records of a call: what was left out of each argument, why each other word stays, and a remark."""
    place = {"line": call.place, "call": call.name, **({"path": call.path()[1:-1]} if call.path() else {})}
    for argument in filter(None, call.arguments):
        gone = [it.text() for it in least.removed_of(call) if it.argument is argument]
        if gone:
            text = f"line {call.place}: {call.title()}: not needed{of_argument(argument)}: {' '.join(gone)}"
            yield text, {**place, "argument": argument.name, "not_needed": gone}
    for word in least.kept_of(call):
        record = {**place, "argument": word.argument.name, "word": word.text(), "stays": True, "decided": word.answer.is_different()}
        if word.answer.is_different():
            text = f"line {call.place}: {call.title()}: {word.text()}{of_argument(word.argument)} stays: {word.answer.text()}"
            yield text, {**record, **word.answer.fields()}
        else:
            text = f"line {call.place}: {call.title()}: {word.text()}{of_argument(word.argument)} stays: not decided ({word.answer.done})"
            yield text, record
    if call in least.unreached:
        yield f"line {call.place}: {call.title()}: remark: no schedule reaches this call", {**place, "remark": "not reached"}
    elif call in least.without and least.without[call].is_same():
        text = f"line {call.place}: {call.title()}: remark: the whole call could be left out: no step differs"
        yield text, {**place, "remark": "could be left out"}


def records_of(least):
    """Yields the text and the fields of each record about the calls."""
    for call in least.calls:
        yield from records_of_call(least, call)


def summary(least, last):
    """Returns the last record: the answer about the result, and what it took."""
    ask, removed = least.ask, sum(not it.is_kept() for it in least.words)
    kept = len(least.words) - removed
    text = f"{removed} left out, {kept} stay; {ask.count} comparisons, {ask.seconds():.2f} s; the result beside the original: {last.done}"
    fields = {"left_out": removed, "stay": kept, "comparisons": ask.count, "seconds": round(ask.seconds(), 3), "result": last.done}
    return text, fields


def write(records, is_json, file):
    """Writes records, as texts or as JSON lines."""
    for text, fields in records:
        print(json.dumps(fields) if is_json else text, file=file)
