"""The least bundle of each class of differences."""
import os

import pvtest

from . import differences
from .comparison import Refused


def keep(folder, found):
    """Writes the least bundle of each class and pair of answers, to make entries of the table of."""
    for bundle, it in found:
        path = f"{folder}/{it.name}-{it.was.call}-{it.was.outcome}-{it.came.outcome}"
        if not os.path.exists(path) or os.path.getsize(path) > len(bundle):
            pvtest.write(path, bundle)


def parts_of(bundle):
    """Returns the entries of the manifest after the first line, each as a list of lines, and the lines of the schedule."""
    manifest, schedule = pvtest.split_bundle(bundle)
    lines, parts = manifest.splitlines()[1:], []
    while lines:
        count = int(lines[0].split(b" ")[-1]) if lines[0].startswith(b"exec ") else 0
        parts.append(lines[: count + 1])
        lines = lines[count + 1 :]
    return manifest.splitlines()[0], parts, schedule


def bundle_of(first, parts, schedule):
    lines = [first, *(line for part in parts for line in part), b"schedule"]
    return b"\n".join(lines) + b"\n" + schedule


def lessened(bundle):
    """Yields the bundle without one of its entries, or without one line of a program."""
    first, parts, schedule = parts_of(bundle)
    for at, part in enumerate(parts):
        if len(part) == 1:
            yield bundle_of(first, parts[:at] + parts[at + 1 :], schedule)
        for line in range(1, len(part)):
            head = part[0].rpartition(b" ")[0] + b" %d" % (len(part) - 2)
            yield bundle_of(first, [*parts[:at], [head, *part[1:line], *part[line + 1 :]], *parts[at + 1 :]], schedule)


def differences_of(comparison, bundle):
    """Returns the differences of a bundle, by class, as an entry of the table shows them."""
    try:
        return {it.name: f"{it.was.call}({', '.join(it.was.args)}): {it.was.outcome}, {it.came.outcome}" for it in comparison.compare(bundle)}
    except (Refused, OSError, LookupError, ValueError):
        return {}


def checks_of(comparison, name):
    """Returns the checks of a class: it has an entry, whose bundle shows it alone, and not without any of its lines."""
    entry = comparison.table.get(name)
    if not entry or entry.source not in differences.SOURCES or not entry.why or not os.path.exists(f"{pvtest.TOP}/{entry.bundle()}"):
        return [(f"class {name}", "it has no entry with a source, a reason and a bundle")]
    bundle = pvtest.read(entry.bundle())
    found = differences_of(comparison, bundle)
    pairs = [(f"{entry.bundle()} shows its class", None if found == {name: entry.shows} else f"it shows {found}")]
    lesser = next((it for it in lessened(bundle) if name in differences_of(comparison, it)), None)
    return [*pairs, (f"{entry.bundle()} is the least", None if lesser is None else f"this is less: {lesser.decode('latin-1')!r}")]
