"""What the workers do."""
import random
import subprocess
import tempfile

from . import emit
from .comparison import LIMITS, Refused, reason_not_asked, run_of
from .every_call import bundles_of
from .formats import NUMBERS
from .machine import HostFault
from .random_bundles import random_bundle


FAULTS = (HostFault, OSError, LookupError, ValueError, AttributeError, EOFError)


def compare(comparison, bundle):
    """Returns the differences of a bundle, each with the bundle, or a text that says why it was not compared."""
    try:
        return [(bundle, it) for it in comparison.compare(bundle)]
    except FAULTS as error:
        return repr(error)


def compare_file(comparison, item):
    """Compares a bundle that has a name."""
    try:
        return compare(comparison, item[1])
    except Refused as error:
        return str(error)


def compare_calls(comparison, item):
    """Compares all bundles of a group of calls."""
    found = []
    try:
        for bundle in bundles_of(comparison.program, *item):
            one = compare(comparison, bundle)
            if isinstance(one, str):
                return one
            found += one
    except Refused as error:
        return str(error)
    return found


def compare_seed(comparison, seed):
    """Compares a random bundle; pvsim can refuse its schedule or its tree."""
    try:
        return compare(comparison, random_bundle(seed))
    except Refused:
        comparison.counts["random bundles that pvsim refuses"] += 1
        return []


def errors_of(comparison, seeds):
    """Returns the errors that each call has in the runs of random bundles, without those of limits."""
    errors = {}
    for seed in seeds:
        try:
            events = run_of(comparison.program, random_bundle(seed), comparison.scratch)[0]
        except Refused:
            continue
        for event in events:
            if event.outcome in NUMBERS and event.outcome not in LIMITS:
                errors.setdefault(event.call, set()).add(event.outcome)
    return errors


def altered(event, errors, rng):
    """Returns an event with another answer: another byte, value or error, an error in place of a value, or the other way round."""
    others = sorted(set(errors.get(event.call, ())) - {event.outcome})
    if event.outcome == "ok" and event.data and rng.random() < 0.7:
        at = rng.randrange(len(event.data))
        return changed(event, data=event.data[:at] + bytes([event.data[at] ^ 1]) + event.data[at + 1 :])
    if event.outcome == "ok":
        return changed(event, outcome=rng.choice(others), value=-1, data=None) if others and rng.random() < 0.5 else changed(event, value=event.value + 1)
    if others and rng.random() < 0.7:
        return changed(event, outcome=rng.choice(others))
    return changed(event, outcome="ok", value=0)


def changed(event, **parts):
    return type(event)(**{**vars(event), **parts})


def alter(comparison, item):
    """Compares a random bundle with one answer altered: returns whether the difference is noticed, and the two answers; None if no answer can be altered. An
    answer in which pvsim and the host differ before is not altered."""
    seed, errors = item
    bundle, rng = random_bundle(seed), random.Random(seed)
    try:
        events, listing = run_of(comparison.program, bundle, comparison.scratch)
    except Refused:
        return None
    if comparison.compare_events(bundle, events, listing):
        return None
    asked = [at for at, event in enumerate(events) if (event.outcome in NUMBERS or event.outcome == "ok") and not reason_not_asked(event)]
    if not asked:
        return None
    at = rng.choice(asked)
    other = altered(events[at], errors, rng)
    try:
        found = comparison.compare_events(bundle, [*events[:at], other, *events[at + 1 :]], listing)
    except FAULTS as error:
        return False, str(events[at]), f"{other} ({error!r})"
    return any(it.name is None for it in found), str(events[at]), str(other)


def run_emitted(comparison, bundles):
    """Writes bundles as programs in C and compiles them. Runs those whose calls no restraint decides and in which pvsim and the host agree: the traces must be the
    expected ones. Returns the number of bundles that ran, and a fault or None."""
    with tempfile.TemporaryDirectory(dir=comparison.scratch) as folder:
        names, _ = emit.emit_all(comparison.program, f"{folder}/all", bundles)
        agreeing = [it for it in bundles if emit.name_of(it[0]) in names and is_agreed(comparison, it[1])]
        ran, _ = emit.emit_all(comparison.program, f"{folder}/agreeing", agreeing)
        compile_all = ["cc", "-fsyntax-only", "-Wall", "-Werror", "-I.", *(f"bundles/{name}.c" for name in names)]
        done = subprocess.run(compile_all, cwd=f"{folder}/all", capture_output=True, text=True)
        if done.returncode:
            return 0, done.stderr[:300]
        made = subprocess.run(["make"], cwd=f"{folder}/agreeing", capture_output=True, text=True)
        if made.returncode:
            return 0, made.stderr[-300:]
        with open(f"{folder}/agreeing/report", encoding="latin-1") as file:
            report = file.read()
    wanted = f"{len(ran)} the same, 0 differing, 0 failed"
    return len(ran), None if report.splitlines()[-1] == wanted else report[-600:]


def is_agreed(comparison, bundle):
    """Returns whether pvsim and the host agree on a bundle whose calls no restraint decides."""
    try:
        return not comparison.compare(bundle) and not comparison.counts["calls not asked: restraints"]
    except Refused:
        return False
    finally:
        comparison.begin()
